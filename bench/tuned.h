/* The calls of include/shelf.h in ordinary C, made for speed, under names of their own: what the proved library is
 * measured against. With TUNED_AS_SHELF the same code takes the library's names instead, so that the tests can be
 * tried with it in the library's place. */
#ifndef TUNED_H
#define TUNED_H

#include <stddef.h>
#include <stdint.h>

#ifdef TUNED_AS_SHELF
#define TUNED(name) shelf_##name
#else
#define TUNED(name) tuned_##name
#endif

uint16_t TUNED(check)(const uint8_t *file, size_t file_len, size_t *place);
uint16_t TUNED(strict_check)(const uint8_t *file, size_t file_len, size_t *place);
uint16_t TUNED(rewrite)(const uint8_t *file, size_t file_len, uint8_t *out, size_t out_len, size_t *written,
                        size_t *place);
uint16_t TUNED(modules)(const uint8_t *file, size_t file_len, size_t *modules, size_t *place);
uint16_t TUNED(number_at)(const uint8_t *file, size_t file_len, size_t position, uint16_t *number, size_t *place);
uint16_t TUNED(evaluate)(const uint8_t *file, size_t file_len, uint16_t number, const uint8_t *values,
                         size_t values_len, uint32_t *scratch, size_t scratch_len, uint8_t *out, size_t out_len,
                         size_t *written, uint32_t *work, size_t *place);
uint16_t TUNED(evaluate_rows)(const uint8_t *file, size_t file_len, uint16_t number, size_t rows,
                              const uint8_t *values, size_t values_len, uint32_t *scratch, size_t scratch_len,
                              uint8_t *out, size_t out_len, size_t *written, uint32_t *work, size_t *place);
uint16_t TUNED(count)(const uint8_t *file, size_t file_len, uint16_t number, const uint8_t family[16],
                      uint32_t *scratch, size_t scratch_len, uint32_t figures[8], uint32_t tally[16], size_t *place);
uint16_t TUNED(flatten)(const uint8_t *file, size_t file_len, uint16_t number, uint32_t *scratch,
                        size_t scratch_len, uint8_t *out, size_t out_len, size_t *written, size_t *place);
uint16_t TUNED(look_up)(const uint8_t *group, size_t group_len, const uint8_t *house, size_t house_len,
                        uint16_t number, uint16_t *which, size_t *start, size_t *length, size_t *place);
uint16_t TUNED(join)(const uint8_t *group, size_t group_len, const uint8_t *house, size_t house_len, uint8_t *out,
                     size_t out_len, uint16_t *which, size_t *written, size_t *place);
uint16_t TUNED(write_ndl)(const uint8_t *file, size_t file_len, const uint8_t *names, size_t names_len, uint8_t *out,
                          size_t out_len, size_t *written, size_t *place);
uint16_t TUNED(read_text)(const uint8_t *text, size_t text_len, uint8_t *out, size_t out_len, size_t *written, size_t *place);
uint16_t TUNED(print_text)(const uint8_t *file, size_t file_len, uint8_t *out, size_t out_len, size_t *written, size_t *place);
uint16_t TUNED(adder)(size_t width, uint8_t *out, size_t out_len, size_t *written, size_t *place);
uint16_t TUNED(fast_adder)(size_t width, uint8_t *out, size_t out_len, size_t *written, size_t *place);
uint16_t TUNED(alu)(size_t width, uint8_t *out, size_t out_len, size_t *written, size_t *place);
uint16_t TUNED(counter)(size_t width, uint8_t *out, size_t out_len, size_t *written, size_t *place);

#endif
