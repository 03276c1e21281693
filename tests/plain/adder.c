/* The written adder: refusals 23, 22, then every byte as the scope gives it. */
#include "plain.h"

#include <string.h>

/* Modules 17 and 16, the full and the half adder, as they stand in the scope's 67 bytes. */
static const uint8_t full_and_half[] = {
    0x11, 3, 0, 1, 2, 2, 3, 4, 3, 2, 5, 6, 0x10, 2, 0, 1, 2, 3, 7, 0x10, 2, 5, 2, 1, 4, 5, 2, 6, 7,
    0x10, 2, 0, 1, 2, 2, 3, 2, 1, 2, 9, 2, 0, 1, 1, 3, 0x0A, 2, 0, 1};

uint16_t plain_adder(size_t width, uint8_t *out, size_t out_len, size_t *written, size_t *place)
{
    static struct bytes answer;
    uint32_t n = (uint32_t)width;

    if (width < 1 || width > 64)
        return plain_end(place, 23, 0);
    answer.length = 0;
    plain_put(&answer, 3);
    plain_put(&answer, 18);
    plain_put_range(&answer, 0, 2 * n + 1);
    plain_put(&answer, n + 1);
    for (uint32_t i = 0; i < n; i++)
        plain_put(&answer, 2 * n + 1 + i);
    plain_put(&answer, 4 * n);
    plain_put(&answer, n);
    for (uint32_t i = 0; i < n; i++) {
        plain_put(&answer, 2);
        plain_put(&answer, 2 * n + 1 + i);
        plain_put(&answer, 3 * n + 1 + i);
        plain_put(&answer, 17);
        plain_put(&answer, 3);
        plain_put(&answer, 1 + i);
        plain_put(&answer, n + 1 + i);
        plain_put(&answer, i == 0 ? 0 : 3 * n + i);
    }
    memcpy(answer.byte + answer.length, full_and_half, sizeof full_and_half);
    answer.length += sizeof full_and_half;
    return plain_give(&answer, out, out_len, written, place);
}
