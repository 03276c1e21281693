/* Written arithmetic units, judged by what they do and not by their bytes. */
#ifndef ALUS_H
#define ALUS_H

#include <stddef.h>
#include <stdint.h>

/* Has every width written once; the plain reading counts it and runs it against C arithmetic: all sixteen operations,
 * both carries, every pair of numbers up to width 5, corners and random numbers above. */
void judge_alus(void);

/* The judged bytes of a width, 0 for a width that has none. */
size_t judged_alu_length(size_t width);

/* As shelf_alu, with the judged bytes. */
uint16_t judged_alu(size_t width, uint8_t *out, size_t out_len, size_t *written, size_t *place);

#endif
