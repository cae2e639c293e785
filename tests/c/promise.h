/* What include/plot_hub.h promises about the stack: a thread with so many bytes of it has enough. */
#ifndef PROMISE_H
#define PROMISE_H

#define STACK_PROMISED (128 * 1024)

#endif
