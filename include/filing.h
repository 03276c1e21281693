/* Filing words of bases on shelves, above the shelf library (include/shelf.h).
 *
 * A base is one of the bytes A, C, G and T, which stand for 0, 1, 2 and 3. A word is 1 to 16 bases; two bits each, the
 * first base highest, it stands in the low end of 32 bits, and its shelf is how many zeros lead these: 0 to 32. They are
 * counted by the written 32-bit counter, which each call runs.
 *
 * Each function answers 0, or the number of the refusal with its place in *place. On a refusal nothing else is written.
 * Memory that is lent to one call must not overlap, but what is only read may. No pointer may be null, also where its
 * length is 0. A call takes up to 100 KB of stack beside what shelf_evaluate_rows takes.
 *
 * 30 word length outside 1 to 16; 32 sequence over 65,535 bytes; 34 table not of 33 entries; 31 a byte other than the
 * four capitals, place the first: in this order. The other places are 0. */
#ifndef FILING_H
#define FILING_H

#include <stddef.h>
#include <stdint.h>

#ifdef __cplusplus
extern "C" {
#endif

/* The shelf of a word. Refusals 30, 31. */
uint16_t filing_word(const uint8_t *word, size_t word_len, uint8_t *shelf, size_t *place);

/* How many words of a length go to each shelf: table, of 33 entries, is overwritten with a count for each shelf, and
 * *words is how many words there are, overlapping ones included. The counts add up to it; it is 0 for a sequence that is
 * shorter than the word. 31 looks at the whole sequence, also then. Refusals 30, 32, 34, 31. */
uint16_t filing_sequence(const uint8_t *sequence, size_t sequence_len, size_t word_length, uint32_t *table,
                         size_t table_len, size_t *words, size_t *place);

#ifdef __cplusplus
}
#endif

#endif
