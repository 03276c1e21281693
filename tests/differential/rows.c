/* The rows that the scope itself lists, word for word, and some of the requests, asked of the library: nothing here
 * comes from a program. */
#include "rows.h"
#include "family.h"

#include "shelf.h"

#include <stdio.h>
#include <stdlib.h>
#include <string.h>

enum { MOST = 70000 };

static uint32_t scratch[MOST];
static uint8_t file[MOST], out[MOST];

static const uint8_t adder_1[67] = {
    0x03, 0x12, 0x03, 0x00, 0x01, 0x02, 0x02, 0x03, 0x04, 0x01, 0x02, 0x03, 0x04, 0x11, 0x03, 0x01, 0x02,
    0x00, 0x11, 0x03, 0x00, 0x01, 0x02, 0x02, 0x03, 0x04, 0x03, 0x02, 0x05, 0x06, 0x10, 0x02, 0x00, 0x01,
    0x02, 0x03, 0x07, 0x10, 0x02, 0x05, 0x02, 0x01, 0x04, 0x05, 0x02, 0x06, 0x07, 0x10, 0x02, 0x00, 0x01,
    0x02, 0x02, 0x03, 0x02, 0x01, 0x02, 0x09, 0x02, 0x00, 0x01, 0x01, 0x03, 0x0A, 0x02, 0x00, 0x01};

static const uint8_t flat_adder_1[] = {
    0x01, 0x12, 0x03, 0x00, 0x01, 0x02, 0x02, 0x05, 0x07, 0x05, 0x01, 0x03, 0x09, 0x02, 0x01, 0x02, 0x01, 0x04, 0x0A,
    0x02, 0x01, 0x02, 0x01, 0x05, 0x09, 0x02, 0x03, 0x00, 0x01, 0x06, 0x0A, 0x02, 0x03, 0x00, 0x01, 0x07, 0x05, 0x02,
    0x04, 0x06};

static void expect(int holds, const char *row)
{
    if (holds)
        return;
    printf("DIFFERENCE: the row '%s' does not come out\n", row);
    exit(1);
}

static void check_verdict(const char *row, const uint8_t *bytes, size_t length, uint16_t number, size_t at)
{
    size_t place = 77;

    expect(shelf_check(bytes, length, &place) == number && place == at, row);
}

static void check_readings(void)
{
    check_verdict("no bytes", file, 0, 2, 0);
    check_verdict("00", (const uint8_t[]){0x00}, 1, 0, 0);
    check_verdict("80 00", (const uint8_t[]){0x80, 0x00}, 2, 3, 0);
    check_verdict("80", (const uint8_t[]){0x80}, 1, 2, 1);
    check_verdict("00 00", (const uint8_t[]){0x00, 0x00}, 2, 5, 1);
    check_verdict("81 01", (const uint8_t[]){0x81, 0x01}, 2, 4, 0);
    check_verdict("adder 1", adder_1, sizeof adder_1, 0, 0);
}

static void check_sum(const char *row, const uint8_t *in, const uint8_t *sum)
{
    size_t written = 77, place = 77;
    uint32_t work = 77;

    expect(shelf_evaluate(adder_1, sizeof adder_1, 18, in, 3, scratch, 17, out, 2, &written, &work, &place) == 0 &&
               written == 2 && work == 8 && place == 0 && memcmp(out, sum, 2) == 0,
           row);
}

/* 20 is for values above 3. */
static void check_too_high(void)
{
    size_t written = 77, place = 77;
    uint32_t work = 77;

    expect(shelf_evaluate(adder_1, sizeof adder_1, 18, (const uint8_t[]){3, 0, 4}, 3, scratch, 17, out, 2, &written,
                          &work, &place) == 20 &&
               written == 77 && work == 77 && place == 2,
           "3 0 4");
}

static void check_adder_1(void)
{
    size_t written = 77, place = 77;

    check_sum("0 1 1", (const uint8_t[]){0, 1, 1}, (const uint8_t[]){0, 1});
    check_sum("1 1 1", (const uint8_t[]){1, 1, 1}, (const uint8_t[]){1, 1});
    check_sum("2 0 0", (const uint8_t[]){2, 0, 0}, (const uint8_t[]){2, 0});
    check_sum("2 1 1", (const uint8_t[]){2, 1, 1}, (const uint8_t[]){2, 1});
    check_sum("2 1 0", (const uint8_t[]){2, 1, 0}, (const uint8_t[]){2, 2});
    check_sum("3 1 1, an input that floats", (const uint8_t[]){3, 1, 1}, (const uint8_t[]){2, 1});
    check_sum("3 1 2", (const uint8_t[]){3, 1, 2}, (const uint8_t[]){2, 2});
    check_too_high();
    expect(shelf_flatten(adder_1, sizeof adder_1, 18, scratch, 17, out, MOST, &written, &place) == 0 &&
               written == sizeof flat_adder_1 && memcmp(out, flat_adder_1, written) == 0,
           "adder 1 flattened");
    expect(shelf_adder(1, out, MOST, &written, &place) == 0 && written == sizeof adder_1 &&
               memcmp(out, adder_1, written) == 0,
           "adder 1 written");
}

static void check_figures(uint16_t number, const uint32_t *listed)
{
    uint32_t figures[8], tally[16];
    size_t place;

    expect(shelf_count(adder_1, sizeof adder_1, number, unit_family, scratch, MOST, figures, tally, &place) == 0 &&
               memcmp(figures, listed, sizeof figures) == 0,
           "the listing of adder 1");
}

static void check_adder_64(void)
{
    uint32_t figures[8], tally[16];
    size_t length, place;

    expect(shelf_adder(64, file, MOST, &length, &place) == 0 &&
               shelf_count(file, length, 18, unit_family, scratch, MOST, figures, tally, &place) == 0 &&
               figures[2] == 320 && figures[3] == 512 && figures[4] == 269 && figures[5] == 129 && figures[7] == 129,
           "adder 64");
}

static uint32_t counted(size_t width, uint32_t value)
{
    uint8_t bits[64] = {0};
    size_t length, written, place;
    uint32_t work, count = 0;

    bits[0] = (uint8_t)value;
    expect(shelf_counter(width, file, MOST, &length, &place) == 0 &&
               shelf_evaluate(file, length, 32, bits, width, scratch, MOST, out, MOST, &written, &work,
                              &place) == 0,
           "counter");
    for (size_t i = 0; i < written; i++)
        count |= (uint32_t)out[i] << i;
    return count;
}

static void check_counters(void)
{
    expect(counted(32, 1) == 31, "counter 32 of 1");
    expect(counted(32, 0) == 32, "counter 32 of 0");
    expect(counted(64, 1) == 63, "counter 64 of 1");
    expect(counted(64, 0) == 64, "counter 64 of 0");
}

static void check_widths(void)
{
    size_t written, place;

    expect(shelf_adder(0, out, MOST, &written, &place) == 23, "adder 0");
    expect(shelf_adder(65, out, MOST, &written, &place) == 23, "adder 65");
    expect(shelf_counter(0, out, MOST, &written, &place) == 23, "counter 0");
    expect(shelf_counter(65, out, MOST, &written, &place) == 23, "counter 65");
}

void check_rows(void)
{
    check_readings();
    check_adder_1();
    check_figures(18, (const uint32_t[]){3, 2, 5, 8, 17, 3, 2, 3});
    check_figures(17, (const uint32_t[]){3, 2, 5, 7, 12, 3, 2, 3});
    check_figures(16, (const uint32_t[]){2, 2, 2, 2, 4, 1, 2, 1});
    check_adder_64();
    check_counters();
    check_widths();
}
