/* Calls plot_hub_run as a program in C does, and checks what its header promises about memory.
 *
 * Standard input is a row of records: a letter, a length (4 bytes, low byte first), that many bytes of input for the line
 * program. For each the program writes a record to standard output: a length, and what plot_hub_run printed. The letters:
 *
 *   p   the input is run with buffers of exactly the right length, in one of LONG_BUFFERS records with long ones, too
 *   e   and with every buffer length from 0 to three more than needed
 *   t   and, at the same time as the inputs of the records before it, from several threads
 *
 * The archive is not built with the sanitizers. So besides heap blocks of exactly the right size, for which the address
 * sanitizer sees what the archive does by memcpy and its like, every buffer is also placed directly before or directly
 * behind a page that cannot be touched, the bytes on its other side have a pattern that is compared after the call, and
 * the pages of the input cannot be written. The calls are made on a thread with the small stack that the header calls
 * enough.
 *
 * On any violation it says on standard error what and in which record, and exits with status 1.
 */
#define _GNU_SOURCE
#include "plot_hub.h"
#include "promise.h"

#include <pthread.h>
#include <stdarg.h>
#include <stdio.h>
#include <stdlib.h>
#include <string.h>
#include <sys/mman.h>
#include <unistd.h>

enum { THREADS = 4, ROUNDS = 10, MORE = 3, BESIDE = 256, LONG_BUFFERS = 8 };

static unsigned long record_number;

static void fail(const char *form, ...)
{
    va_list rest;
    va_start(rest, form);
    fprintf(stderr, "caller: record %lu: ", record_number);
    vfprintf(stderr, form, rest);
    fputc('\n', stderr);
    va_end(rest);
    _exit(1);
}

static void *must(void *got, const char *what)
{
    if (got == NULL || got == MAP_FAILED)
        fail("%s: no memory", what);
    return got;
}

/* ---- pages with a page before and a page behind them that cannot be touched */

struct area {
    uint8_t *pages;
    size_t length;
};

enum place { AT_END, AT_START };

static size_t page_size(void)
{
    return (size_t)sysconf(_SC_PAGESIZE);
}

static struct area area_for(size_t wanted)
{
    size_t page = page_size();
    size_t length = (wanted / page + 1) * page;
    uint8_t *all = must(mmap(NULL, length + 2 * page, PROT_NONE, MAP_PRIVATE | MAP_ANONYMOUS, -1, 0), "mmap");
    if (mprotect(all + page, length, PROT_READ | PROT_WRITE) != 0)
        fail("mprotect failed");
    return (struct area){ all + page, length };
}

static void area_gone(struct area area)
{
    size_t page = page_size();
    if (munmap(area.pages - page, area.length + 2 * page) != 0)
        fail("munmap failed");
}

/* A new area if this one has no place for so many bytes and those beside them. */
static void area_at_least(struct area *area, size_t wanted)
{
    if (area->pages != NULL && area->length >= wanted + BESIDE)
        return;
    if (area->pages != NULL)
        area_gone(*area);
    *area = area_for(wanted * 2 + BESIDE);
}

static uint8_t *placed(struct area area, size_t length, enum place place)
{
    return place == AT_END ? area.pages + area.length - length : area.pages;
}

/* A byte that differs from place to place and from call to call. */
static uint8_t pattern(size_t index, size_t salt)
{
    return (uint8_t)((index * 31 + (index >> 8) * 7 + salt * 101 + 13) ^ (salt >> 3));
}

static void fill(uint8_t *bytes, size_t length, size_t salt)
{
    for (size_t i = 0; i < length; i++)
        bytes[i] = pattern(i, salt);
}

/* The first index in from .. to whose byte is not that of the pattern; to if there is none. */
static size_t changed(const uint8_t *bytes, size_t from, size_t to, size_t salt)
{
    for (size_t i = from; i < to; i++)
        if (bytes[i] != pattern(i, salt))
            return i;
    return to;
}

/* ---- one call */

struct text {
    uint8_t *bytes;
    size_t length;
};

static struct area input_area, output_area;

static const uint8_t *input_placed(struct text input, enum place place)
{
    if (input_area.pages != NULL && mprotect(input_area.pages, input_area.length, PROT_READ | PROT_WRITE) != 0)
        fail("mprotect failed");
    area_at_least(&input_area, input.length);
    uint8_t *at = placed(input_area, input.length, place);
    /* Bytes beside the input that would change what is printed if they were read as part of it. */
    memset(place == AT_END ? at - BESIDE : at + input.length, '7', BESIDE);
    if (input.length > 0)
        memcpy(at, input.bytes, input.length);
    if (mprotect(input_area.pages, input_area.length, PROT_READ) != 0)
        fail("mprotect failed");
    return at;
}

static void same_input(const uint8_t *at, struct text input)
{
    if (input.length > 0 && memcmp(at, input.bytes, input.length) != 0)
        fail("the input was changed");
}

static void right(int64_t result, const uint8_t *output, struct text expected, size_t length)
{
    if (result != (int64_t)expected.length)
        fail("buffer of %zu: the result is %lld, not %zu", length, (long long)result, expected.length);
    if (expected.length > 0 && memcmp(output, expected.bytes, expected.length) != 0)
        fail("buffer of %zu: other bytes than with another buffer", length);
}

/* A call with a buffer of this length between pages that cannot be touched. The expected text is known from a call before. */
static void guarded(struct text input, struct text expected, size_t length, enum place place, size_t salt)
{
    const uint8_t *in = input_placed(input, place);
    area_at_least(&output_area, length);
    uint8_t *out = placed(output_area, length, place);
    /* The buffer and the bytes on its side without a page that cannot be touched. */
    size_t start = place == AT_END ? BESIDE : 0, all = length + BESIDE;
    uint8_t *seen = out - start;
    fill(seen, all, salt);

    int64_t result = plot_hub_run(in, input.length, out, length);

    same_input(in, input);
    size_t touched = 0;
    if (length < expected.length) {
        if (result != PLOT_HUB_TOO_SHORT)
            fail("buffer of %zu, needed %zu: the result is %lld", length, expected.length, (long long)result);
    } else {
        right(result, out, expected, length);
        touched = expected.length;
    }
    size_t before = changed(seen, 0, start, salt);
    if (before < start)
        fail("buffer of %zu: the byte %zu before it was changed", length, start - before);
    size_t behind = changed(seen, start + touched, all, salt);
    if (behind < all)
        fail("buffer of %zu, needed %zu: result %lld, and byte %zu, counted from the buffer's first, was changed", length,
             expected.length, (long long)result, behind - start);
}

/* A call with heap blocks of exactly the right length. */
static void on_heap(struct text input, struct text expected, size_t length, size_t salt)
{
    uint8_t *in = must(malloc(input.length), "malloc"); /* length 0 gives a pointer, too */
    uint8_t *out = must(malloc(length), "malloc");
    if (input.length > 0)
        memcpy(in, input.bytes, input.length);
    fill(out, length, salt);
    int64_t result = plot_hub_run(in, input.length, out, length);
    same_input(in, input);
    if (length < expected.length) {
        if (result != PLOT_HUB_TOO_SHORT || changed(out, 0, length, salt) < length)
            fail("heap block of %zu, needed %zu: the result is %lld, or the block was changed", length, expected.length,
                 (long long)result);
    } else {
        right(result, out, expected, length);
    }
    free(in);
    free(out);
}

/* A buffer of this length is enough for any output of so many lines, and the input is then run once; with one byte less it is
 * run twice, first to measure. */
static size_t always_enough(struct text input)
{
    size_t ends = 0;
    for (size_t i = 0; i < input.length; i++)
        ends += input.bytes[i] == 10;
    return 800 * (ends + 2);
}

/* Both ways of running, on long buffers. */
static void both_ways(struct text input, struct text expected, size_t salt)
{
    size_t length = always_enough(input);
    guarded(input, expected, length, AT_END, salt);
    guarded(input, expected, length - 1, AT_START, salt + 1);
    on_heap(input, expected, length, salt + 2);
}

/* What is printed, found with longer and longer buffers. Each too short one must be left as it was. */
static struct text first_run(struct text input)
{
    /* A line of one byte prints at most some hundred bytes, the device lines at the end some hundred more. */
    size_t most = 400 * (input.length + 1) + 4096;
    size_t length = 64 + record_number % 191;
    for (;;) {
        uint8_t *out = must(malloc(length), "malloc");
        fill(out, length, length);
        const uint8_t *in = input_placed(input, AT_END);
        int64_t result = plot_hub_run(in, input.length, out, length);
        same_input(in, input);
        if (result >= 0) {
            if ((uint64_t)result > length)
                fail("buffer of %zu: the result is %lld", length, (long long)result);
            size_t behind = changed(out, (size_t)result, length, length);
            if (behind < length)
                fail("buffer of %zu: result %lld, and byte %zu of the buffer was changed", length, (long long)result, behind);
            return (struct text){ out, (size_t)result };
        }
        if (result != PLOT_HUB_TOO_SHORT)
            fail("buffer of %zu: the result is %lld", length, (long long)result);
        if (changed(out, 0, length, length) < length)
            fail("buffer of %zu: too short, but changed", length);
        free(out);
        if (length > most)
            fail("buffer of %zu is said to be too short for an input of %zu bytes", length, input.length);
        length = length * 3 + 1;
    }
}

/* ---- from several threads at once */

struct run {
    struct text input, output;
};

static struct run kept[THREADS]; /* the last inputs that were run, with what they printed */
static pthread_barrier_t together;

static void *one_thread(void *argument)
{
    const struct run *run = argument;
    pthread_barrier_wait(&together);
    for (size_t round = 0; round < ROUNDS; round++)
        on_heap(run->input, run->output, round % 2 == 0 ? run->output.length : always_enough(run->input), round);
    return NULL;
}

static void from_threads(void)
{
    pthread_t threads[THREADS];
    pthread_attr_t attributes;
    if (pthread_attr_init(&attributes) != 0 || pthread_attr_setstacksize(&attributes, STACK_PROMISED) != 0 ||
        pthread_barrier_init(&together, NULL, THREADS) != 0)
        fail("no thread attributes");
    for (size_t i = 0; i < THREADS; i++)
        if (pthread_create(&threads[i], &attributes, one_thread, &kept[i]) != 0)
            fail("no thread");
    for (size_t i = 0; i < THREADS; i++)
        if (pthread_join(threads[i], NULL) != 0)
            fail("a thread did not end");
    pthread_attr_destroy(&attributes);
    pthread_barrier_destroy(&together);
}

/* ---- records */

static int read_all(uint8_t *bytes, size_t length)
{
    return fread(bytes, 1, length, stdin) == length;
}

static void write_all(const uint8_t *bytes, size_t length)
{
    if (length > 0 && fwrite(bytes, 1, length, stdout) != length)
        fail("cannot write to standard output");
}

static void *records(void *nothing)
{
    (void)nothing;
    uint8_t head[5];
    for (record_number = 0;; record_number++) {
        int letter = fgetc(stdin);
        if (letter == EOF)
            return NULL;
        if (!read_all(head, 4))
            fail("the record ends inside its length");
        size_t length = head[0] | (size_t)head[1] << 8 | (size_t)head[2] << 16 | (size_t)head[3] << 24;
        struct text input = { must(malloc(length), "malloc"), length };
        if (!read_all(input.bytes, length))
            fail("the record ends before its length");

        struct text output = first_run(input);
        guarded(input, output, output.length, AT_END, record_number);
        guarded(input, output, output.length, AT_START, record_number + 1);
        on_heap(input, output, output.length, record_number);
        if (output.length > 0)
            guarded(input, output, output.length - 1, AT_END, record_number + 2);
        if (record_number % LONG_BUFFERS == 0 || letter != 'p')
            both_ways(input, output, record_number + 3);
        if (letter == 'e') {
            for (size_t n = 0; n <= output.length + MORE; n++) {
                guarded(input, output, n, AT_END, n);
                on_heap(input, output, n, n + 1);
            }
        } else if (letter != 'p' && letter != 't') {
            fail("unknown letter %d", letter);
        }

        struct run *oldest = &kept[record_number % THREADS];
        free(oldest->input.bytes);
        free(oldest->output.bytes);
        *oldest = (struct run){ input, output };
        if (letter == 't')
            from_threads();

        for (size_t i = 0; i < 4; i++)
            head[i] = (uint8_t)(output.length >> 8 * i);
        write_all(head, 4);
        write_all(output.bytes, output.length);
        if (fflush(stdout) != 0)
            fail("cannot write to standard output");
    }
}

int main(void)
{
    pthread_t thread;
    pthread_attr_t attributes;
    if (pthread_attr_init(&attributes) != 0 || pthread_attr_setstacksize(&attributes, STACK_PROMISED) != 0 ||
        pthread_create(&thread, &attributes, records, NULL) != 0 || pthread_join(thread, NULL) != 0)
        fail("no thread");
    pthread_attr_destroy(&attributes);
    for (size_t i = 0; i < THREADS; i++) {
        free(kept[i].input.bytes);
        free(kept[i].output.bytes);
    }
    if (input_area.pages != NULL)
        area_gone(input_area);
    if (output_area.pages != NULL)
        area_gone(output_area);
    return ferror(stdin) ? 1 : 0;
}
