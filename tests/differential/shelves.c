/* See shelves.h. */
#include "shelves.h"

#include "../plain/plain.h"
#include "compare.h"
#include "random.h"
#include "shelf.h"

#include <stdio.h>
#include <string.h>

enum { REFUSALS = 23, OUT = 70000, GUARD = 0xA5 };

static long met_look_up[REFUSALS], met_join[REFUSALS], about[3];
static uint8_t our_out[OUT], plain_out[OUT];

/* A number that one of the files may hold: two bytes of it, or any. */
static uint16_t some_number(const uint8_t *file, size_t length)
{
    size_t at = length < 2 ? 0 : (size_t)below((int)length - 1);

    if (length < 2 || percent(10))
        return (uint16_t)below(65536);
    return file[at] < 128 ? file[at] : (uint16_t)(file[at] - 128 + 128 * file[at + 1]);
}

static void compare_look_up(const uint8_t *group, size_t group_len, const uint8_t *house, size_t house_len,
                            uint16_t number)
{
    uint16_t our_which = 7, plain_which = 8;
    size_t our_part[3] = {11, 11, 12}, plain_part[3] = {11, 11, 13};
    uint16_t ours = shelf_look_up(group, group_len, house, house_len, number, &our_which, &our_part[0], &our_part[1],
                                  &our_part[2]);
    uint16_t plain = plain_look_up(group, group_len, house, house_len, number, &plain_which, &plain_part[0],
                                   &plain_part[1], &plain_part[2]);

    if (ours != plain || our_which != plain_which || memcmp(our_part, plain_part, sizeof our_part) != 0)
        report("a look-up differs");
    met_look_up[ours]++;
    about[our_which]++;
}

static void compare_join(const uint8_t *group, size_t group_len, const uint8_t *house, size_t house_len,
                         size_t out_len)
{
    uint16_t our_which = 7, plain_which = 8;
    size_t our_result[2] = {11, 12}, plain_result[2] = {11, 13};
    uint16_t ours, plain;

    memset(our_out, GUARD, sizeof our_out);
    memset(plain_out, GUARD, sizeof plain_out);
    ours = shelf_join(group, group_len, house, house_len, our_out, out_len, &our_which, &our_result[0], &our_result[1]);
    plain = plain_join(group, group_len, house, house_len, plain_out, out_len, &plain_which, &plain_result[0],
                       &plain_result[1]);
    if (ours != plain || our_which != plain_which || memcmp(our_result, plain_result, sizeof our_result) != 0)
        report("joining differs");
    if (memcmp(our_out, plain_out, sizeof our_out) != 0)
        report("a joined file differs, or a buffer was changed");
    met_join[ours]++;
}

void compare_shelves(const uint8_t *group, size_t group_len, const uint8_t *house, size_t house_len)
{
    size_t both = group_len + house_len;

    compare_look_up(group, group_len, house, house_len, some_number(group, group_len));
    compare_look_up(group, group_len, house, house_len, some_number(house, house_len));
    compare_join(group, group_len, house, house_len,
                 percent(80) ? OUT : (size_t)below(both < OUT ? (int)both + 1 : OUT));
}

static int all_met(const char *call, const long *met, int most)
{
    int complete = 1;

    printf("%s:", call);
    for (int number = 0; number < most; number++) {
        if (most > 19 && number >= 18 && number <= 21)
            continue;
        if (most == 19 && number >= 6 && number <= 17)
            continue;
        printf(" %d %ld", number, met[number]);
        complete &= met[number] > 0;
    }
    printf("\n");
    return complete;
}

int shelves_summary(void)
{
    int complete = all_met("look_up", met_look_up, 19) & all_met("join", met_join, 23);

    printf("about neither file %ld, the group's %ld, the house's %ld\n", about[0], about[1], about[2]);
    return complete && about[0] > 0 && about[1] > 0 && about[2] > 0;
}
