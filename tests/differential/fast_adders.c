/* See fast_adders.h. Figures and rows are worked out by the plain reading from the bytes that the library wrote. */
#include "fast_adders.h"
#include "family.h"

#include "../plain/plain.h"
#include "random.h"
#include "shelf.h"

#include <stdio.h>
#include <stdlib.h>
#include <string.h>

enum { WIDEST = 64, MOST_FILE_BYTES = 8192, SCRATCH = 4096, FAST = 40, RIPPLE = 18, ROWS = 40 };

static uint8_t fast[MOST_FILE_BYTES], ripple[MOST_FILE_BYTES];
static size_t fast_length, ripple_length;
static uint32_t scratch[SCRATCH];

static void expect(int holds, size_t width, const char *what)
{
    if (holds)
        return;
    printf("DIFFERENCE: fast adder of width %zu: %s\n", width, what);
    exit(1);
}

static uint32_t doublings(size_t width)
{
    uint32_t count = 0;

    while ((size_t)1 << count < width)
        count++;
    return count;
}

static void judge_figures(size_t width)
{
    uint32_t figures[8], tally[16], n = (uint32_t)width, c = doublings(width);
    size_t place;

    expect(plain_count(fast, fast_length, FAST, unit_family, scratch, SCRATCH, figures, tally, &place) == 0, width,
           "not accepted, or no module 40");
    expect(figures[0] == 2 * n + 1 && figures[1] == n + 1, width, "inputs or outputs");
    expect(2 * figures[2] <= 15 * n - 5, width, "too many gates");
    expect(figures[5] <= 3 + 4 * c, width, "slower than asked");
    expect(width == 1 ? figures[5] == 3 : figures[5] <= 2 + 2 * c, width, "slower than promised");
    for (int kind = 0; kind < KINDS; kind++)
        expect(tally[kind] == 0 || plain_arity(kind) <= 3, width, "a gate of four inputs");
}

static void run(const uint8_t *file, size_t length, uint16_t number, size_t width, const uint8_t *values,
                uint8_t *outputs)
{
    size_t written, place;
    uint32_t work;

    expect(plain_evaluate(file, length, number, values, 2 * width + 1, scratch, SCRATCH, outputs, WIDEST + 1,
                          &written, &work, &place) == 0 &&
               written == width + 1,
           width, "cannot be run");
}

/* Known bits: each sum and the last carry, bit by bit. */
static void judge_sum(size_t width, const uint8_t *values)
{
    uint8_t outputs[WIDEST + 1];
    unsigned carry = values[0];

    run(fast, fast_length, FAST, width, values, outputs);
    for (size_t i = 0; i < width; i++) {
        unsigned sum = values[1 + i] + values[1 + width + i] + carry;

        expect(outputs[i] == sum % 2, width, "a wrong sum");
        carry = sum / 2;
    }
    expect(outputs[width] == carry, width, "a wrong carry");
}

static void judge_row(size_t width, int kinds)
{
    uint8_t values[2 * WIDEST + 1], ours[WIDEST + 1], slow[WIDEST + 1];

    for (size_t i = 0; i < 2 * width + 1; i++)
        values[i] = (uint8_t)below(kinds);
    if (kinds == 2)
        judge_sum(width, values);
    run(fast, fast_length, FAST, width, values, ours);
    run(ripple, ripple_length, RIPPLE, width, values, slow);
    expect(memcmp(ours, slow, width + 1) == 0, width, "not what the ripple adder gives");
}

/* A carry from the lowest bit to the highest, which random rows hardly have. */
static void judge_long_carry(size_t width)
{
    uint8_t values[2 * WIDEST + 1];

    for (size_t from = 0; from <= width; from++) {
        memset(values, 0, sizeof values);
        for (size_t i = 0; i < width; i++)
            values[1 + i] = i >= from;
        if (from == 0)
            values[0] = 1;
        else
            values[1 + from - 1] = values[1 + width + from - 1] = 1;
        judge_sum(width, values);
    }
}

static void judge_fast_adder(size_t width)
{
    size_t place = 77;

    memset(fast, 0xA5, sizeof fast);
    expect(shelf_fast_adder(width, fast, sizeof fast, &fast_length, &place) == 0 && place == 0, width, "not written");
    for (size_t i = fast_length; i < sizeof fast; i++)
        expect(fast[i] == 0xA5, width, "the rest of the buffer was changed");
    expect(plain_adder(width, ripple, sizeof ripple, &ripple_length, &place) == 0, width, "no ripple adder");
    judge_figures(width);
    judge_long_carry(width);
    for (int row = 0; row < ROWS; row++) {
        judge_row(width, 2);
        judge_row(width, 3);
    }
}

void judge_fast_adders(void)
{
    for (size_t width = 1; width <= WIDEST; width++)
        judge_fast_adder(width);
}
