/* See random.h. */
#include "random.h"

static uint64_t state;

void random_start(uint64_t seed)
{
    state = seed;
}

uint64_t random_word(void)
{
    uint64_t z = state += 0x9E3779B97F4A7C15u;

    z = (z ^ z >> 30) * 0xBF58476D1CE4E5B9u;
    z = (z ^ z >> 27) * 0x94D049BB133111EBu;
    return z ^ z >> 31;
}

int below(int n)
{
    return (int)(random_word() % (uint64_t)n);
}

int between(int low, int high)
{
    return low + below(high - low + 1);
}

int percent(int p)
{
    return below(100) < p;
}
