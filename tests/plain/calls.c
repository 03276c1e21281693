/* The file that a call is about, checked, and the calls that ask no more of it. A call that is refused writes its
 * place and nothing else. */
#include "plain.h"

struct file plain_file;
uint32_t plain_sizes[MOST_MODULES];

uint16_t plain_end(size_t *place, int number, size_t at)
{
    *place = at;
    return (uint16_t)number;
}

uint16_t plain_check(const uint8_t *bytes, size_t length, size_t *place)
{
    struct refusal refusal = plain_checked(bytes, length, &plain_file, plain_sizes);

    return plain_end(place, refusal.number, refusal.place);
}

/* 28: the first module that uses one of the four gates with four inputs, reached or not. */
uint16_t plain_strict_check(const uint8_t *bytes, size_t length, size_t *place)
{
    uint16_t refused = plain_check(bytes, length, place);
    int at, i;

    if (refused != 0)
        return refused;
    for (at = 0; at < plain_file.count; at++) {
        const struct module *module = &plain_file.modules[at];

        for (i = 0; i < module->count; i++) {
            int refers = module->occurrences[i].refers;

            if (refers == 4 || refers == 7 || refers == 12 || refers == 15)
                return plain_end(place, 28, (size_t)at);
        }
    }
    return 0;
}

uint16_t plain_modules(const uint8_t *bytes, size_t length, size_t *modules, size_t *place)
{
    uint16_t refused = plain_check(bytes, length, place);

    if (refused != 0)
        return refused;
    *modules = (size_t)plain_file.count;
    return 0;
}

uint16_t plain_number_at(const uint8_t *bytes, size_t length, size_t position, uint16_t *number, size_t *place)
{
    uint16_t refused = plain_check(bytes, length, place);

    if (refused != 0)
        return refused;
    if (position >= (size_t)plain_file.count)
        return plain_end(place, 18, 0);
    *number = (uint16_t)plain_file.modules[position].number;
    return 0;
}
