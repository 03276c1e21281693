/* Filing, through its C face, against a plain reading of the request: every number, place, table entry and count of words, and that a
 * refusal writes its place and nothing else. Each number that a call can give must be met. */
#include "filing.h"

#include <stdio.h>
#include <stdlib.h>
#include <string.h>

enum { SHELVES = 33, MOST = 65535, GUARD = 8, LENT = SHELVES + 8 };

static uint8_t sequence[MOST + 2];
static size_t met[40], cases;

static uint64_t seed = 0x9e3779b97f4a7c15u;

static uint32_t below(uint32_t n)
{
    seed ^= seed << 13;
    seed ^= seed >> 7;
    seed ^= seed << 17;
    return (uint32_t)((seed >> 16) % n);
}

static int base(uint8_t byte)
{
    switch (byte) {
    case 'A': return 0;
    case 'C': return 1;
    case 'G': return 2;
    case 'T': return 3;
    default: return -1;
    }
}

/* The request in plain words: two bits a base, the first highest, in the low end of 32 bits; the zeros above the highest 1. */
static unsigned plain_shelf(const uint8_t *word, size_t length)
{
    uint32_t bits = 0;
    unsigned zeros = 0;

    for (size_t i = 0; i < length; i++)
        bits = bits * 4 + (uint32_t)base(word[i]);
    while (zeros < 32 && (bits >> (31 - zeros) & 1) == 0)
        zeros++;
    return zeros;
}

static size_t first_other(const uint8_t *bytes, size_t length)
{
    size_t i = 0;

    while (i < length && base(bytes[i]) >= 0)
        i++;
    return i;
}

static void fail(const char *what, size_t length, size_t letters)
{
    printf("differs: %s, %zu bytes, words of %zu, case %zu\n", what, length, letters, cases);
    exit(1);
}

static void try_word(const uint8_t *word, size_t length)
{
    size_t place = 77, other = first_other(word, length);
    uint8_t shelf = 99;
    unsigned number = length < 1 || length > 16 ? 30 : other < length ? 31 : 0;
    uint16_t got = filing_word(word, length, &shelf, &place);

    cases++;
    if (got != number || place != (number == 31 ? other : 0))
        fail("a word's number or place", length, length);
    if (shelf != (number ? 99 : plain_shelf(word, length)))
        fail("a word's shelf", length, length);
    met[got]++;
}

static void try_sequence(size_t length, size_t letters, size_t table_len)
{
    uint32_t table[LENT + 2 * GUARD], expected[LENT + 2 * GUARD];
    size_t words = 1234567, place = 77, other = first_other(sequence, length), count = 0;
    unsigned number = letters < 1 || letters > 16 ? 30
                      : length > MOST             ? 32
                      : table_len != SHELVES      ? 34
                      : other < length            ? 31
                                                  : 0;
    uint16_t got;

    for (size_t i = 0; i < LENT + 2 * GUARD; i++)
        table[i] = expected[i] = below(1000000);
    if (number == 0) {
        memset(expected + GUARD, 0, SHELVES * sizeof *expected);
        for (; count + letters <= length; count++)
            expected[GUARD + plain_shelf(sequence + count, letters)]++;
    }
    got = filing_sequence(sequence, length, letters, table + GUARD, table_len, &words, &place);
    cases++;
    if (got != number || place != (number == 31 ? other : 0))
        fail("a sequence's number or place", length, letters);
    if (words != (number ? 1234567 : count))
        fail("the count of words", length, letters);
    if (memcmp(table, expected, sizeof table) != 0)
        fail("the table", length, letters);
    met[got]++;
}

/* Bases drawn evenly, or mostly A, so that every shelf is met; now and then another byte. */
static void draw(size_t length, unsigned kind)
{
    static const char bases[] = "ACGT";

    for (size_t i = 0; i < length; i++)
        sequence[i] = (uint8_t)(kind % 2 == 0 || below(24) == 0 ? bases[below(4)] : 'A');
    if (kind % 5 == 4 && length > 0)
        sequence[below((uint32_t)length)] = (uint8_t)below(256);
}

int main(void)
{
    static const size_t edges[] = {0, 1, 2, 15, 16, 17, 1023, 1024, 1025, 1038, 1039, 1040, 2047, 2048, 2063, 2064};

    try_word((const uint8_t *)"AAAA", 4);
    try_word((const uint8_t *)"C", 1);
    for (unsigned i = 0; i < 20000; i++) {
        size_t length = below(19);

        draw(length, i);
        try_word(sequence, length);
    }
    for (unsigned i = 0; i < 4000; i++) {
        size_t length = below(i % 100 == 0 ? 5000 : 60);

        draw(length, i);
        try_sequence(length, below(19), i % 7 == 0 ? 31 + below(5) : SHELVES);
    }
    for (size_t i = 0; i < sizeof edges / sizeof *edges; i++)
        for (size_t letters = 1; letters <= 16; letters++) {
            draw(edges[i], (unsigned)(letters % 2));
            try_sequence(edges[i], letters, SHELVES);
        }
    /* The longest sequence, and one byte more; refusals in their order. */
    draw(MOST + 1, 0);
    for (size_t letters = 0; letters <= 17; letters++) {
        try_sequence(MOST, letters, SHELVES);
        try_sequence(MOST + 1, letters, SHELVES);
        try_sequence(MOST + 1, letters, SHELVES - 1);
        try_sequence(MOST, letters, SHELVES + 1);
    }
    sequence[MOST - 1] = 'N';
    sequence[MOST] = 'a';
    try_sequence(MOST, 16, SHELVES);
    try_sequence(MOST, 16, 0);
    try_sequence(MOST + 1, 16, 0);
    try_sequence(MOST, 0, 0);
    /* Shorter than the word, and yet a byte that is none. */
    memcpy(sequence, "ACxT", 4);
    try_sequence(4, 16, SHELVES);

    printf("filing: %zu cases, no difference; answered %zu, 30 %zu, 31 %zu, 32 %zu, 34 %zu\n", cases, met[0], met[30], met[31],
           met[32], met[34]);
    return met[0] && met[30] && met[31] && met[32] && met[34] ? 0 : 1;
}
