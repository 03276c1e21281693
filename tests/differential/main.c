/* The differential test: random files, good and spoilt, through every call of the library and of the plain reading.
 *
 *     differential [--seed S] [--cases N] [--first F]
 *
 * A case is one file; all calls are made on it, each with random numbers, values and lengths. Case i of a seed is
 * always the same, so `--seed S --first i --cases 1` repeats it. Without a seed the clock gives one. */
#include "alus.h"
#include "compare.h"
#include "counters.h"
#include "fast_adders.h"
#include "damage.h"
#include "listings.h"
#include "make.h"
#include "random.h"
#include "shelves.h"
#include "rows.h"
#include "texts.h"

#include <stdio.h>
#include <stdlib.h>
#include <string.h>
#include <time.h>

enum { QUICK = 100000, ENOUGH = 50000 };

static struct draft draft;
static struct encoded file, house;

static void too_long(void)
{
    int length = between(65536, FILE_ROOM);

    for (file.length = 0; file.length < (size_t)length;)
        file.byte[file.length++] = (uint8_t)(percent(50) ? 0 : below(256));
}

/* One rule broken, often with a neighbour, in the same file. */
static void break_rules(void)
{
    int rule = between(6, 15);

    break_rule(&draft, rule);
    if (percent(35))
        break_rule(&draft, rule < 15 ? rule + 1 : 14);
    if (percent(10))
        break_rule(&draft, between(6, 15));
}

static void break_bytes(void)
{
    if (percent(20))
        break_reading(&file, 4);
    break_reading(&file, between(2, 5));
    if (percent(20))
        break_reading(&file, 2);
}

/* At a ceiling or large; some of these spoilt too, where it may show far from the front. */
static void make_big(int at_ceiling)
{
    if (at_ceiling)
        make_at_ceiling(&draft);
    else
        make_large(&draft);
    if (percent(20))
        break_rules();
    encode(&draft, &file);
    if (percent(10))
        break_bytes();
    if (percent(5))
        damage_blindly(&file);
}

static void make_small(int spoil_rules, int spoil_bytes, int spoil_blindly)
{
    make_random(&draft);
    if (spoil_rules)
        break_rules();
    encode(&draft, &file);
    if (spoil_bytes)
        break_bytes();
    if (spoil_blindly)
        damage_blindly(&file);
}

static void make_case(void)
{
    int roll = below(1000);

    if (roll < 1)
        too_long();
    else if (roll < 5)
        make_big(1);
    else if (roll < 11)
        make_big(0);
    else if (roll < 450)
        make_small(0, 0, 0);
    else if (roll < 750)
        make_small(1, 0, 0);
    else if (roll < 850)
        make_small(percent(30), 1, 0);
    else if (roll < 940)
        make_small(0, 0, 1);
    else
        make_noise(&file);
}

/* The file of the case and another, as a group's file and the house's, in either order. */
static void compare_two_files(void)
{
    house = file;
    make_case();
    if (percent(50))
        compare_shelves(file.byte, file.length, house.byte, house.length);
    else
        compare_shelves(house.byte, house.length, file.byte, file.length);
}

static void run_case(uint64_t seed, long number)
{
    random_start(seed * 0x2545F4914F6CDD1Du + (uint64_t)number);
    random_start(random_word());
    compare_case(number);
    make_case();
    compare_file(file.byte, file.length);
    if (percent(25))
        compare_listing(file.byte, file.length);
    if (percent(50))
        compare_printed(file.byte, file.length);
    if (percent(50))
        compare_a_text();
    if (percent(5))
        compare_writers();
    if (percent(20))
        compare_two_files();
}

static uint64_t number_after(int argc, char **argv, const char *name, uint64_t otherwise)
{
    for (int i = 1; i + 1 < argc; i += 2)
        if (strcmp(argv[i], name) == 0)
            return strtoull(argv[i + 1], NULL, 10);
    return otherwise;
}

int main(int argc, char **argv)
{
    uint64_t seed = number_after(argc, argv, "--seed", (uint64_t)time(NULL));
    long cases = (long)number_after(argc, argv, "--cases", QUICK);
    long first = (long)number_after(argc, argv, "--first", 0);

    printf("differential: seed %llu, cases %ld to %ld\n", (unsigned long long)seed, first, first + cases - 1);
    fflush(stdout);
    compare_start(seed);
    random_start(seed);
    check_rows();
    judge_counters();
    judge_fast_adders();
    judge_alus();
    for (long i = 0; i < cases; i++)
        run_case(seed, first + i);
    if ((!compare_summary() | !shelves_summary() | !listings_summary() | !texts_summary()) && cases >= ENOUGH) {
        printf("differential: FAILED: some number that a call can give was never met\n");
        return 1;
    }
    printf("differential: %ld cases, no difference\n", cases);
    return 0;
}
