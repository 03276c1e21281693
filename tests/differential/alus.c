/* See alus.h. Figures and rows are worked out by the plain reading from the bytes that the library wrote; what the
 * operations come to is C's own arithmetic on wider numbers. */
#include "alus.h"
#include "family.h"

#include "../plain/plain.h"
#include "random.h"
#include "shelf.h"

#include <stdio.h>
#include <stdlib.h>
#include <string.h>

enum { WIDEST = 64, MOST_ALU_BYTES = 8192, SCRATCH = 4096, ALU = 48, OPERATIONS = 16, EVERY_PAIR = 5, ROWS = 12 };

typedef __int128 wide;

static uint8_t judged[WIDEST + 1][MOST_ALU_BYTES];
static size_t lengths[WIDEST + 1];
static uint32_t scratch[SCRATCH];

static void expect(int holds, size_t width, const char *what)
{
    if (holds)
        return;
    printf("DIFFERENCE: ALU of width %zu: %s\n", width, what);
    exit(1);
}

static void judge_figures(size_t width)
{
    uint32_t figures[8], tally[16], doublings = 0;
    size_t place;

    while ((size_t)1 << doublings < width)
        doublings++;
    expect(plain_count(judged[width], lengths[width], ALU, unit_family, scratch, SCRATCH, figures, tally, &place) == 0,
           width,
           "not accepted, or no module 48");
    expect(figures[0] == 2 * width + 5 && figures[1] == width + 2, width, "inputs or outputs");
    expect(4 * figures[2] <= 57 * width + 115, width, "too many gates");
    expect(figures[5] <= 7 + 2 * doublings, width, "slower than promised");
    for (int kind = 0; kind < KINDS; kind++)
        expect(tally[kind] == 0 || plain_arity(kind) <= 3, width, "a gate of four inputs");
}

struct outcome {
    int carry, overflow;
    uint64_t result;
};

/* The exact answer of operations 1 to 7. */
static wide exact(int operation, wide c, wide a, wide b)
{
    switch (operation) {
    case 1: return a + 1;
    case 2: return b + a + c;
    case 3: return b + a;
    case 4: return 0 - a;
    case 5: return a - 1;
    case 6: return b - a - c;
    default: return b - a;
    }
}

static uint64_t each_bit(int operation, uint64_t a, uint64_t b)
{
    switch (operation) {
    case 11: return b ^ a;
    case 12: return b | a;
    case 13: return b & a;
    case 14: return ~a;
    default: return a;
    }
}

static struct outcome meant(size_t width, int operation, int c, uint64_t a, uint64_t b)
{
    wide all = (wide)1 << width, half = all / 2;
    uint64_t mask = (uint64_t)(all - 1), top = (uint64_t)half;
    struct outcome is = {0, 0, each_bit(operation, a, b) & mask};

    if (operation >= 1 && operation <= 7) {
        wide unsigned_answer = exact(operation, c, a, b);
        wide signed_answer = exact(operation, c, a & top ? (wide)a - all : (wide)a, b & top ? (wide)b - all : (wide)b);

        is.result = (uint64_t)unsigned_answer & mask;
        is.carry = operation <= 3 ? unsigned_answer >= all : unsigned_answer < 0;
        is.overflow = signed_answer < -half || signed_answer >= half;
    } else if (operation >= 8 && operation <= 10) {
        int in = operation == 8 ? c : operation == 9 && (a & top) != 0;

        is.result = a >> 1 | (in ? top : 0);
        is.carry = (int)(a & 1);
    }
    return is;
}

static void judge_row(size_t width, int operation, int c, uint64_t a, uint64_t b)
{
    uint8_t values[2 * WIDEST + 5], outputs[WIDEST + 2];
    struct outcome is = meant(width, operation, c, a, b);
    size_t written, place;
    uint32_t work;

    values[0] = (uint8_t)c;
    for (size_t i = 0; i < width; i++) {
        values[1 + i] = a >> i & 1;
        values[1 + width + i] = b >> i & 1;
    }
    for (int i = 0; i < 4; i++)
        values[1 + 2 * width + (size_t)i] = operation >> i & 1;
    expect(plain_evaluate(judged[width], lengths[width], ALU, values, 2 * width + 5, scratch, SCRATCH, outputs,
                          width + 2, &written, &work, &place) == 0,
           width, "cannot be run");
    expect(outputs[0] == is.carry, width, "a wrong carry");
    expect(outputs[1] == is.overflow, width, "a wrong overflow");
    for (size_t i = 0; i < width; i++)
        expect(outputs[2 + i] == (is.result >> i & 1), width, "a wrong result");
}

static void judge_numbers(size_t width, uint64_t a, uint64_t b)
{
    for (int operation = 0; operation < OPERATIONS; operation++)
        for (int c = 0; c < 2; c++)
            judge_row(width, operation, c, a, b);
}

static void judge_every_pair(size_t width)
{
    for (uint64_t a = 0; a >> width == 0; a++)
        for (uint64_t b = 0; b >> width == 0; b++)
            judge_numbers(width, a, b);
}

static void judge_corners(size_t width)
{
    uint64_t mask = (uint64_t)(((wide)1 << width) - 1), top = mask / 2 + 1;
    uint64_t corners[] = {0, 1, top - 1, top, mask};
    enum { CORNERS = sizeof corners / sizeof *corners };

    for (int i = 0; i < CORNERS; i++)
        for (int j = 0; j < CORNERS; j++)
            judge_numbers(width, corners[i], corners[j]);
    for (int row = 0; row < ROWS; row++)
        judge_numbers(width, random_word() & mask, random_word() & mask);
}

static void judge_alu(size_t width)
{
    size_t place = 77, written = 77;

    memset(judged[width], 0xA5, sizeof judged[width]);
    expect(shelf_alu(width, judged[width], MOST_ALU_BYTES, &written, &place) == 0 && place == 0, width, "not written");
    expect(written <= 100 * width + 720, width, "too long");
    for (size_t i = written; i < MOST_ALU_BYTES; i++)
        expect(judged[width][i] == 0xA5, width, "the rest of the buffer was changed");
    lengths[width] = written;
    expect(judged[width][1] == ALU, width, "module 48 is not the first");
    judge_figures(width);
    if (width <= EVERY_PAIR)
        judge_every_pair(width);
    else
        judge_corners(width);
}

void judge_alus(void)
{
    for (size_t width = 1; width <= WIDEST; width++)
        judge_alu(width);
}

size_t judged_alu_length(size_t width)
{
    return width <= WIDEST ? lengths[width] : 0;
}

uint16_t judged_alu(size_t width, uint8_t *out, size_t out_len, size_t *written, size_t *place)
{
    *place = 0;
    if (width < 1 || width > WIDEST)
        return 23;
    if (out_len < lengths[width])
        return 22;
    memcpy(out, judged[width], lengths[width]);
    *written = lengths[width];
    return 0;
}
