/* Buffers to lend: bytes that must not change stand before each, and behind it comes memory that may not be touched
 * at all, so that a read or a write past the end stops the test. */
#ifndef LEND_H
#define LEND_H

#include <stddef.h>
#include <stdint.h>

enum { GUARD = 64 };

struct lender {
    uint8_t *end; /* of the memory that may be touched */
    size_t most;  /* how much may be lent */
};

struct lender make_lender(size_t most);

/* The last `length` bytes, with what `from` holds, or a pattern where it is null. */
uint8_t *lend(const struct lender *lender, size_t length, const uint8_t *from);

/* Are the bytes before the lent ones as they were? */
int guard_kept(const struct lender *lender, size_t length);

#endif
