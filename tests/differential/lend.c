/* See lend.h. */
#define _DEFAULT_SOURCE
#include "lend.h"

#include <stdio.h>
#include <stdlib.h>
#include <string.h>
#include <sys/mman.h>

/* Large enough for any page of the machines that may run this. */
enum { PAGE = 65536 };

struct lender make_lender(size_t most)
{
    size_t room = (most + GUARD + PAGE - 1) / PAGE * PAGE;
    uint8_t *all = mmap(NULL, room + 3 * (size_t)PAGE, PROT_READ | PROT_WRITE, MAP_PRIVATE | MAP_ANONYMOUS, -1, 0);
    uint8_t *start = all + (PAGE - (uintptr_t)all % PAGE);

    if (all == MAP_FAILED || mprotect(start + room, PAGE, PROT_NONE) != 0) {
        perror("memory to lend");
        exit(2);
    }
    return (struct lender){start + room, most};
}

static uint8_t pattern(size_t from_end)
{
    return (uint8_t)(0xA5 + 29 * from_end + from_end / 256);
}

uint8_t *lend(const struct lender *lender, size_t length, const uint8_t *from)
{
    uint8_t *start = lender->end - length;

    if (length > lender->most)
        abort();
    for (size_t i = 1; i <= GUARD; i++)
        start[-(ptrdiff_t)i] = pattern(length + i);
    if (from != NULL && length > 0)
        memcpy(start, from, length);
    else
        for (size_t i = 1; i <= length; i++)
            lender->end[-(ptrdiff_t)i] = pattern(i);
    return start;
}

int guard_kept(const struct lender *lender, size_t length)
{
    const uint8_t *start = lender->end - length;

    for (size_t i = 1; i <= GUARD; i++)
        if (start[-(ptrdiff_t)i] != pattern(length + i))
            return 0;
    return 1;
}
