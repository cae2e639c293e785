/* The plot hub's line program as one call from C.
 *
 * Link with the archive libplot_hub.a (in the repository it is target/staticlib/libline.a); no further library is needed.
 */
#ifndef PLOT_HUB_H
#define PLOT_HUB_H

#include <stddef.h>
#include <stdint.h>

/* The version of header and archive: as a text, and its three numbers. */
#define PLOT_HUB_VERSION "1.0.0"
#define PLOT_HUB_VERSION_MAJOR 1
#define PLOT_HUB_VERSION_MINOR 0
#define PLOT_HUB_VERSION_PATCH 0

#ifdef __cplusplus
extern "C" {
#endif

/* The result if the output buffer is too short: refusal 21, with a minus. */
#define PLOT_HUB_TOO_SHORT (-21)

/* Runs the line program on the whole input and writes what it prints.
 *
 * input, input_length     The bytes to read: lines of up to 128 bytes, each ended by byte 10, which may be missing after the
 *                         last. Any bytes of any length are allowed; what is not a line of the program prints `unread`.
 *                         The input is only read.
 * output, output_length   The buffer to write to.
 *
 * Result: the length of what was printed, 0 to output_length. Exactly the first bytes of the buffer, as many as the result
 * says, were written; nothing past them was touched. No byte 0 is added behind them.
 * Or PLOT_HUB_TOO_SHORT: what is printed is longer than output_length. The whole buffer is then as it was before the call.
 * The result is never another negative number. It does not say how long a buffer would be enough: call again with a longer
 * one. A buffer of 800 bytes for each byte 10 of the input and 1,600 more is always enough, and with one the lines are run
 * only once; with a shorter one they are run twice, first to see whether the buffer is long enough.
 *
 * Input of no bytes prints nothing: the result is 0 with any buffer, one of length 0 included.
 *
 * What the caller sees to:
 * - input points to input_length bytes that can be read, output to output_length bytes that can be written;
 * - neither pointer is NULL. For a length of 0 any other pointer is fine, since nothing is read or written there;
 * - the two ranges do not overlap;
 * - nobody else writes to either range during the call, or reads the output range.
 *
 * The call allocates no memory, opens no file and keeps nothing from one call to the next: the same input always prints the
 * same. It may be called from many threads at once. Its use of the stack does not depend on the input and is some tens of
 * kilobytes; a thread with a stack of 128 kilobytes has enough.
 */
int64_t plot_hub_run(const uint8_t *input, size_t input_length, uint8_t *output, size_t output_length);

#ifdef __cplusplus
}
#endif

#endif
