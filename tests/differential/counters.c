/* See counters.h. Figures and rows are worked out by the plain reading from the bytes that the library wrote. */
#include "counters.h"
#include "family.h"

#include "../plain/plain.h"
#include "random.h"
#include "shelf.h"

#include <stdio.h>
#include <stdlib.h>
#include <string.h>

enum { WIDEST = 64, MOST_COUNTER_BYTES = 8192, SCRATCH = 4096, COUNTER = 32 };

static uint8_t judged[WIDEST + 1][MOST_COUNTER_BYTES];
static size_t lengths[WIDEST + 1];

static void expect(int holds, size_t width, const char *what)
{
    if (holds)
        return;
    printf("DIFFERENCE: counter of width %zu: %s\n", width, what);
    exit(1);
}

static uint32_t binary_digits(uint32_t n)
{
    uint32_t digits = 0;

    for (; n > 0; n /= 2)
        digits++;
    return digits;
}

/* Twice the doublings, one more where the width is no power of two; 1 at width 1. */
static uint32_t most_delay(uint32_t width)
{
    uint32_t doublings = binary_digits(width) - 1;

    if (width == 1)
        return 1;
    return 2 * doublings + (width != 1u << doublings);
}

static int is_wide(int kind)
{
    return plain_arity(kind) > 2;
}

static void judge_figures(size_t width)
{
    static uint32_t scratch[SCRATCH];
    uint32_t figures[8], tally[16], n = (uint32_t)width;
    size_t place;

    expect(plain_count(judged[width], lengths[width], COUNTER, unit_family, scratch, SCRATCH, figures, tally, &place) ==
               0,
           width,
           "not accepted, or no module 32");
    expect(figures[0] == n, width, "inputs");
    expect(figures[1] == binary_digits(n), width, "outputs");
    expect(figures[2] <= 4 * n, width, "too many gates");
    expect(figures[5] <= most_delay(n), width, "too slow");
    for (int kind = 0; kind < KINDS; kind++)
        expect(tally[kind] == 0 || !is_wide(kind), width, "a gate of more than two inputs");
}

/* The highest 1 at `top` (none: below 0), what lies below drawn from so many values. */
static void judge_row(size_t width, int top, int kinds_below)
{
    static uint32_t scratch[SCRATCH];
    uint8_t bits[WIDEST], outputs[16];
    size_t written, place;
    uint32_t work, counted = 0, zeros = (uint32_t)((int)width - 1 - top);

    for (int i = 0; i < (int)width; i++)
        bits[i] = (uint8_t)(i > top ? 0 : i == top ? 1 : below(kinds_below));
    expect(plain_evaluate(judged[width], lengths[width], COUNTER, bits, width, scratch, SCRATCH, outputs, 16, &written,
                          &work, &place) == 0,
           width, "cannot be run");
    for (size_t i = 0; i < written; i++) {
        expect(outputs[i] < 2, width, "an output is unknown though the highest 1 is known");
        counted |= (uint32_t)outputs[i] << i;
    }
    expect(counted == zeros, width, "a wrong count");
}

static void judge_counter(size_t width)
{
    size_t place = 77, written = 77;

    memset(judged[width], 0xA5, sizeof judged[width]);
    expect(shelf_counter(width, judged[width], MOST_COUNTER_BYTES, &written, &place) == 0 && place == 0, width,
           "not written");
    expect(written <= MOST_COUNTER_BYTES, width, "too long");
    for (size_t i = written; i < MOST_COUNTER_BYTES; i++)
        expect(judged[width][i] == 0xA5, width, "the rest of the buffer was changed");
    lengths[width] = written;
    expect(judged[width][1] == COUNTER, width, "module 32 is not the first");
    judge_figures(width);
    for (int top = -1; top < (int)width; top++)
        for (int row = 0; row < 4; row++)
            judge_row(width, top, row < 2 ? 2 : 3);
}

void judge_counters(void)
{
    for (size_t width = 1; width <= WIDEST; width++)
        judge_counter(width);
}

size_t judged_counter_length(size_t width)
{
    return width <= WIDEST ? lengths[width] : 0;
}

uint16_t judged_counter(size_t width, uint8_t *out, size_t out_len, size_t *written, size_t *place)
{
    *place = 0;
    if (width < 1 || width > WIDEST)
        return 23;
    if (out_len < lengths[width])
        return 22;
    memcpy(out, judged[width], lengths[width]);
    *written = lengths[width];
    return 0;
}
