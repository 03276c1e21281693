/* Listings for the board maker, ours against the plain reading's. */
#ifndef LISTINGS_H
#define LISTINGS_H

#include <stddef.h>
#include <stdint.h>

/* Writes a file's listing under names, good or spoilt, into buffers long enough or not. */
void compare_listing(const uint8_t *file, size_t length);

/* Prints how often each number was given; says whether every number that can be given was met. */
int listings_summary(void);

#endif
