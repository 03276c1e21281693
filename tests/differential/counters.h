/* Written counters, judged by what they do and not by their bytes. */
#ifndef COUNTERS_H
#define COUNTERS_H

#include <stddef.h>
#include <stdint.h>

/* Has every width written once and judged. */
void judge_counters(void);

/* The judged bytes of a width, 0 for a width that has none. */
size_t judged_counter_length(size_t width);

/* As shelf_counter, with the judged bytes. */
uint16_t judged_counter(size_t width, uint8_t *out, size_t out_len, size_t *written, size_t *place);

#endif
