/* Look-ups and joined files, ours against the plain reading's. */
#ifndef SHELVES_H
#define SHELVES_H

#include <stddef.h>
#include <stdint.h>

/* Looks numbers up in a group's file before the house's, and joins the two. */
void compare_shelves(const uint8_t *group, size_t group_len, const uint8_t *house, size_t house_len);

/* Prints how often each number was given; says whether every number that can be given was met. */
int shelves_summary(void);

#endif
