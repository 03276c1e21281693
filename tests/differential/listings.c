/* See listings.h. */
#include "listings.h"

#include "../plain/plain.h"
#include "compare.h"
#include "lend.h"
#include "random.h"
#include "shelf.h"

#include <stdio.h>
#include <string.h>

enum { REFUSALS = 30, NAMES = 128 };

static long met[REFUSALS], bad_at[16], straight, through;
static uint8_t plain_out[SHELF_NDL_MOST];

/* Good names of any length: a letter for the gate and random ones, no M in front. */
static void make_names(uint8_t *names)
{
    static const char letters[] = "ABCDEFGHIJKLMNOPQRSTUVWXYZ0123456789";

    memset(names, ' ', NAMES);
    for (int k = 0; k < 16; k++) {
        int length = between(1, 8);

        names[8 * k] = (uint8_t)('N' + k % 10);
        for (int i = 1; i < length; i++)
            names[8 * k + i] = (uint8_t)letters[below(36)];
        if (k >= 10)
            names[8 * k] = (uint8_t)('0' + k - 10);
    }
}

/* One name spoilt, or just within the rule. */
static void spoil_name(uint8_t *name, const uint8_t *other)
{
    switch (below(9)) {
    case 0:
        memcpy(name, other, 8);
        break;
    case 1:
        memcpy(name, "M0      ", 8);
        break;
    case 2:
        memcpy(name, "M1234567", 8);
        break;
    case 3:
        memcpy(name, percent(50) ? "M       " : "M1A     ", 8);
        break;
    case 4:
        memcpy(name, percent(50) ? "END     " : "MM1     ", 8);
        break;
    case 5:
        memset(name, ' ', 8);
        break;
    case 6:
        memcpy(name, "A B     ", 8);
        break;
    case 7:
        name[below(8)] = (uint8_t)below(256);
        break;
    default:
        name[0] = (uint8_t)("/:@[a \0"[below(7)]);
    }
}

static size_t text_length(const uint8_t *file, size_t length, const uint8_t *names)
{
    size_t written = 0, place;

    plain_write_ndl(file, length, names, NAMES, plain_out, sizeof plain_out, &written, &place);
    return written;
}

/* What any text of a file of so many bytes has at most. */
static size_t most_text(size_t length)
{
    return length > MOST_BYTES ? SHELF_NDL_MOST : 8 * length + SHELF_NDL_MOST - 8 * MOST_BYTES;
}

static size_t some_room(const uint8_t *file, size_t length, const uint8_t *names)
{
    size_t needed;

    if (percent(40))
        return most_text(length);
    needed = text_length(file, length, names);
    if (needed == 0 || percent(20))
        return most_text(length) - 1;
    if (percent(40))
        return needed;
    return percent(50) ? needed - 1 : (size_t)below((int)needed);
}

void compare_listing(const uint8_t *file, size_t length)
{
    static struct lender lender;
    uint8_t names[NAMES + 1], *our_out;
    size_t names_len = NAMES, out_len, our_result[2] = {11, 12}, plain_result[2] = {11, 13};
    uint16_t ours, plain;

    if (lender.most == 0)
        lender = make_lender(SHELF_NDL_MOST);
    make_names(names);
    out_len = some_room(file, length, names);
    if (percent(25))
        spoil_name(names + 8 * below(16), names + 8 * below(16));
    if (percent(3))
        names_len = (size_t)(percent(50) ? below(NAMES) : NAMES + 1);
    our_out = lend(&lender, out_len, NULL);
    memcpy(plain_out, our_out, out_len);
    ours = shelf_write_ndl(file, length, names, names_len, our_out, out_len, &our_result[0], &our_result[1]);
    plain = plain_write_ndl(file, length, names, names_len, plain_out, out_len, &plain_result[0], &plain_result[1]);
    if (ours != plain || memcmp(our_result, plain_result, sizeof our_result) != 0)
        report("a listing's answer differs");
    if (memcmp(our_out, plain_out, out_len) != 0 || !guard_kept(&lender, out_len))
        report("a listing differs, or a buffer was changed");
    met[ours]++;
    if (ours == 29)
        bad_at[our_result[1]]++;
    if (ours == 0)
        *(out_len == most_text(length) ? &straight : &through) += 1;
}

int listings_summary(void)
{
    int complete = straight > 0 && through > 0;

    printf("write_ndl:");
    for (int number = 0; number < REFUSALS; number++) {
        if ((number >= 18 && number <= 21) || (number >= 23 && number <= 28))
            continue;
        printf(" %d %ld", number, met[number]);
        complete &= met[number] > 0;
    }
    printf("; 29 at 0 to 15:");
    for (int k = 0; k < 16; k++) {
        printf(" %ld", bad_at[k]);
        complete &= bad_at[k] > 0;
    }
    printf("; in a buffer for any text %ld, in a shorter one %ld\n", straight, through);
    return complete;
}
