/* The benchmark's row for filing: all words of the longest sequence, by the proved library, which runs the written counter on each, and by C
 * that counts leading zeros with the processor's own operation. A line as bench.c writes it. */
#define _POSIX_C_SOURCE 200809L
#include "filing.h"

#include <stdio.h>
#include <string.h>
#include <time.h>

enum { BASES = 65535, SHELVES = 33, ROUNDS = 25 };

static uint8_t sequence[BASES];
static uint8_t codes[256];

/* The same call in C made for speed: a rolling word. */
static uint16_t tuned(size_t letters, uint32_t *table, size_t *words, size_t *place)
{
    const uint64_t mask = ((uint64_t)1 << 2 * letters) - 1;
    uint64_t word = 0;
    unsigned bad = 0;

    *place = 0;
    for (size_t i = 0; i < BASES; i++)
        bad |= codes[sequence[i]];
    if (bad > 3)
        return 31;
    memset(table, 0, SHELVES * sizeof *table);
    for (size_t i = 0; i + 1 < letters; i++)
        word = word << 2 | codes[sequence[i]];
    for (size_t i = letters - 1; i < BASES; i++) {
        word = (word << 2 | codes[sequence[i]]) & mask;
        table[__builtin_clzll(word << 1 | 1) - 31]++;
    }
    *words = BASES + 1 - letters;
    return 0;
}

static double now(void)
{
    struct timespec t;

    clock_gettime(CLOCK_MONOTONIC, &t);
    return (double)t.tv_sec * 1e9 + (double)t.tv_nsec;
}

static void row(size_t letters)
{
    uint32_t ours[SHELVES], theirs[SHELVES];
    size_t words = 0, their_words = 0, place;
    double least_ours = 1e18, least_theirs = 1e18;

    for (int i = 0; i < ROUNDS; i++) {
        double start = now(), middle, end;

        filing_sequence(sequence, BASES, letters, ours, SHELVES, &words, &place);
        middle = now();
        tuned(letters, theirs, &their_words, &place);
        end = now();
        if (middle - start < least_ours)
            least_ours = middle - start;
        if (end - middle < least_theirs)
            least_theirs = end - middle;
    }
    if (words != their_words || memcmp(ours, theirs, sizeof ours) != 0)
        printf("filing differs\n");
    printf("file|65,535 bases, words of %zu|%d|%.1f|%.1f|%zu| word\n", letters, BASES, least_ours, least_theirs, words);
}

int main(void)
{
    unsigned random = 1;

    memset(codes, 4, sizeof codes);
    codes['A'] = 0, codes['C'] = 1, codes['G'] = 2, codes['T'] = 3;
    for (size_t i = 0; i < BASES; i++) {
        random = random * 1103515245u + 12345u;
        sequence[i] = (uint8_t) "ACGT"[random >> 16 & 3];
    }
    row(16);
    row(4);
    return 0;
}
