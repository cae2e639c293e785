/* stack RECORDS INPUT...: how deep plot_hub_run goes.
 *
 * RECORDS is a file of inputs, each behind its length in two bytes, low byte first; each INPUT is a file that is an input. Every one is
 * run with a buffer that is always enough, with one of just the needed length, with one byte less, and with none, all on one thread.
 * Its stack was filled with a pattern before; where the pattern is gone, the thread has been.
 *
 * Prints the bytes of the stack that the call takes, and those that the thread takes in all. Status 1: these are more than the header
 * promises to be enough.
 */
#define _GNU_SOURCE
#include "plot_hub.h"
#include "promise.h"

#include <pthread.h>
#include <stdio.h>
#include <stdlib.h>
#include <string.h>
#include <sys/mman.h>

/* Far more than the promise, so that a broken one is measured, too. */
enum { AREA = 64 * STACK_PROMISED, PATTERN = 0xA5 };

struct text {
    uint8_t *bytes;
    size_t length;
};

static struct text *inputs;
static size_t input_count, longest_output;
static uint8_t *output;
static uint8_t *called_at; /* where the stack ends when plot_hub_run is called */

static void *must(void *got, const char *what)
{
    if (got == NULL || got == MAP_FAILED) {
        fprintf(stderr, "stack: %s\n", what);
        exit(2);
    }
    return got;
}

/* ---- inputs */

static struct text whole(const char *path)
{
    FILE *file = must(fopen(path, "rb"), path);
    struct text text = { NULL, 0 };
    size_t room = 0;
    for (;;) {
        if (text.length == room)
            text.bytes = must(realloc(text.bytes, room = 2 * room + 4096), "no memory");
        size_t got = fread(text.bytes + text.length, 1, room - text.length, file);
        if (got == 0)
            break;
        text.length += got;
    }
    fclose(file);
    return text;
}

/* The header: so long a buffer is always enough. */
static size_t always_enough(struct text input)
{
    size_t ends = 0;
    for (size_t i = 0; i < input.length; i++)
        ends += input.bytes[i] == 10;
    return 800 * (ends + 2);
}

static void add(struct text input)
{
    inputs = must(realloc(inputs, (input_count + 1) * sizeof *inputs), "no memory");
    inputs[input_count++] = input;
    if (longest_output < always_enough(input))
        longest_output = always_enough(input);
}

static void add_records(struct text records)
{
    for (size_t at = 0; at + 2 <= records.length;) {
        size_t length = records.bytes[at] | (size_t)records.bytes[at + 1] << 8;
        if (records.length - at - 2 < length)
            must(NULL, "the last record is cut off");
        add((struct text){ records.bytes + at + 2, length });
        at += 2 + length;
    }
}

/* ---- the thread */

__attribute__((noinline)) static int64_t call(struct text input, size_t room)
{
    called_at = __builtin_frame_address(0);
    return plot_hub_run(input.bytes, input.length, output, room);
}

/* Gives NULL, or what was wrong. */
static void *run_all(void *nothing)
{
    (void)nothing;
    for (size_t i = 0; i < input_count; i++) {
        int64_t printed = call(inputs[i], always_enough(inputs[i]));
        if (printed < 0 || call(inputs[i], (size_t)printed) != printed)
            return "a buffer that is enough is called too short";
        if (printed > 0 && (call(inputs[i], (size_t)printed - 1) != PLOT_HUB_TOO_SHORT || call(inputs[i], 0) != PLOT_HUB_TOO_SHORT))
            return "a buffer that is too short is called enough";
    }
    return NULL;
}

int main(int count, char **words)
{
    if (count < 3)
        must(NULL, "stack RECORDS INPUT...");
    add_records(whole(words[1]));
    for (int i = 2; i < count; i++)
        add(whole(words[i]));
    output = must(malloc(longest_output), "no memory");

    uint8_t *area = must(mmap(NULL, AREA, PROT_READ | PROT_WRITE, MAP_PRIVATE | MAP_ANONYMOUS | MAP_STACK, -1, 0), "no memory");
    memset(area, PATTERN, AREA);
    pthread_t thread;
    pthread_attr_t attributes;
    void *wrong;
    if (pthread_attr_init(&attributes) != 0 || pthread_attr_setstack(&attributes, area, AREA) != 0 ||
        pthread_create(&thread, &attributes, run_all, NULL) != 0 || pthread_join(thread, &wrong) != 0)
        must(NULL, "no thread");
    if (wrong != NULL)
        must(NULL, wrong);

    uint8_t *deepest = area;
    while (deepest < area + AREA && *deepest == PATTERN)
        deepest++;
    size_t of_call = (size_t)(called_at - deepest), of_thread = (size_t)(area + AREA - deepest);
    int kept = of_thread <= STACK_PROMISED;
    printf("stack: %zu inputs; the call takes up to %zu bytes, a thread that makes it %zu, at most %d: %s\n", input_count, of_call,
           of_thread, STACK_PROMISED, kept ? "holds" : "DOES NOT HOLD");
    return kept ? 0 : 1;
}
