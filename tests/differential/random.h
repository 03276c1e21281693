/* Random choices that a seed fixes (splitmix64). */
#ifndef RANDOM_H
#define RANDOM_H

#include <stdint.h>

void random_start(uint64_t seed);
uint64_t random_word(void);
int below(int n);              /* 0 to n - 1; n at least 1 */
int between(int low, int high); /* low to high, both included */
int percent(int p);            /* 1 in p cases of a hundred */

#endif
