/* The benchmark: the proved library against tuned C, the same calls in the same run.
 *
 * Each row is timed in many rounds, the two taking turns; the least time of each counts, as everything that disturbs
 * a run makes it longer. Before a row is timed, both must give the same answer. bench/run makes the table of the rows:
 * call|on|bytes|ours, ns|theirs, ns|units|unit */
#define _POSIX_C_SOURCE 200809L
#include "files.h"
#include "shelf.h"
#include "tuned.h"

#include <stdio.h>
#include <stdlib.h>
#include <string.h>
#include <time.h>

enum { ROUNDS = 25, ROUND_NS = 2000000, MOST = 65536, BLOCK = 1024, MOST_OUT = SHELF_NDL_MOST };

/* The calls of one side. */
struct side {
    uint16_t (*check)(const uint8_t *, size_t, size_t *);
    uint16_t (*evaluate)(const uint8_t *, size_t, uint16_t, const uint8_t *, size_t, uint32_t *, size_t, uint8_t *,
                         size_t, size_t *, uint32_t *, size_t *);
    uint16_t (*evaluate_rows)(const uint8_t *, size_t, uint16_t, size_t, const uint8_t *, size_t, uint32_t *, size_t,
                              uint8_t *, size_t, size_t *, uint32_t *, size_t *);
    uint16_t (*count)(const uint8_t *, size_t, uint16_t, const uint8_t *, uint32_t *, size_t, uint32_t *, uint32_t *,
                      size_t *);
    uint16_t (*flatten)(const uint8_t *, size_t, uint16_t, uint32_t *, size_t, uint8_t *, size_t, size_t *, size_t *);
    uint16_t (*adder)(size_t, uint8_t *, size_t, size_t *, size_t *);
    uint16_t (*fast_adder)(size_t, uint8_t *, size_t, size_t *, size_t *);
    uint16_t (*counter)(size_t, uint8_t *, size_t, size_t *, size_t *);
    uint16_t (*join)(const uint8_t *, size_t, const uint8_t *, size_t, uint8_t *, size_t, uint16_t *, size_t *, size_t *);
    uint16_t (*write_ndl)(const uint8_t *, size_t, const uint8_t *, size_t, uint8_t *, size_t, size_t *, size_t *);
    uint16_t (*strict_check)(const uint8_t *, size_t, size_t *);
    uint16_t (*rewrite)(const uint8_t *, size_t, uint8_t *, size_t, size_t *, size_t *);
    uint16_t (*read_text)(const uint8_t *, size_t, uint8_t *, size_t, size_t *, size_t *);
    uint16_t (*print_text)(const uint8_t *, size_t, uint8_t *, size_t, size_t *, size_t *);
};

static const struct side ours = {shelf_check,   shelf_evaluate, shelf_evaluate_rows, shelf_count,
                                 shelf_flatten, shelf_adder,    shelf_fast_adder, shelf_counter, shelf_join,
                                 shelf_write_ndl, shelf_strict_check, shelf_rewrite, shelf_read_text,
                                 shelf_print_text};
static const struct side theirs = {tuned_check,   tuned_evaluate, tuned_evaluate_rows, tuned_count,
                                   tuned_flatten, tuned_adder,    tuned_fast_adder, tuned_counter, tuned_join,
                                   tuned_write_ndl, tuned_strict_check, tuned_rewrite, tuned_read_text,
                                   tuned_print_text};

/* What a row works on, and what it leaves for comparison. */
static struct bench_file file;
static size_t width, inputs, rows;
static uint8_t values[192 * BLOCK], out[MOST_OUT];
static uint32_t scratch[MOST], work, figures[8], tally[16];
static const uint8_t family[16] = {1, 1, 2, 3, 4, 2, 3, 4, 3, 3, 2, 3, 4, 2, 3, 4};
static size_t written, place;

typedef uint16_t task(const struct side *side);

static uint16_t check(const struct side *side)
{
    return side->check(file.bytes, file.length, &place);
}

static uint16_t strict_check(const struct side *side)
{
    return side->strict_check(file.bytes, file.length, &place);
}

static uint16_t rewrite(const struct side *side)
{
    return side->rewrite(file.bytes, file.length, out, MOST, &written, &place);
}

static uint16_t read_text(const struct side *side)
{
    return side->read_text(file.bytes, file.length, out, MOST, &written, &place);
}

static uint16_t print_text(const struct side *side)
{
    return side->print_text(file.bytes, file.length, out, MOST_OUT, &written, &place);
}

static uint16_t evaluate(const struct side *side)
{
    return side->evaluate(file.bytes, file.length, file.module, values, inputs, scratch, MOST, out, MOST, &written,
                          &work, &place);
}

/* A file before itself: all of it is read twice, and written once. */
static uint16_t join(const struct side *side)
{
    uint16_t which;

    return side->join(file.bytes, file.length, file.bytes, file.length, out, MOST, &which, &written, &place);
}

/* The names of docs/NDL.md. */
static const uint8_t names[] = "BUF     IV      ND2     ND3     ND4     OR2     OR3     OR4     "
                               "EN      EO      AN2     AN3     AN4     NR2     NR3     NR4     ";

static uint16_t write_ndl(const struct side *side)
{
    return side->write_ndl(file.bytes, file.length, names, 128, out, MOST_OUT, &written, &place);
}

static uint16_t evaluate_block(const struct side *side)
{
    return side->evaluate_rows(file.bytes, file.length, file.module, rows, values, rows * inputs, scratch, MOST, out,
                               MOST_OUT, &written, &work, &place);
}

/* Each row of the block by a call of its own. */
static uint16_t evaluate_each(const struct side *side)
{
    size_t at = 0;

    for (size_t i = 0; i < rows; i++, at += written) {
        uint16_t refused = side->evaluate(file.bytes, file.length, file.module, values + i * inputs, inputs, scratch,
                                          MOST, out + at, MOST_OUT - at, &written, &work, &place);

        if (refused != 0)
            return refused;
    }
    written = at;
    return 0;
}

static uint16_t count(const struct side *side)
{
    return side->count(file.bytes, file.length, file.module, family, scratch, MOST, figures, tally, &place);
}

/* Every module of a file whose modules are numbered from 16 on. */
static uint16_t count_all(const struct side *side)
{
    for (uint16_t number = 16; number < 16 + 128; number++) {
        uint16_t refused =
            side->count(file.bytes, file.length, number, family, scratch, MOST, figures, tally, &place);

        if (refused != 0)
            return refused;
    }
    return 0;
}

static uint16_t flatten(const struct side *side)
{
    return side->flatten(file.bytes, file.length, file.module, scratch, MOST, out, MOST, &written, &place);
}

static uint16_t write_adder(const struct side *side)
{
    return side->adder(width, out, MOST, &written, &place);
}

static uint16_t write_fast_adder(const struct side *side)
{
    return side->fast_adder(width, out, MOST, &written, &place);
}

static uint16_t write_counter(const struct side *side)
{
    return side->counter(width, out, MOST, &written, &place);
}

/* ---- timing */

static double now(void)
{
    struct timespec time;

    clock_gettime(CLOCK_MONOTONIC, &time);
    return 1e9 * (double)time.tv_sec + (double)time.tv_nsec;
}

static double time_of(task *run, const struct side *side, int times)
{
    double start = now();

    for (int i = 0; i < times; i++)
        run(side);
    return (now() - start) / times;
}

static int repetitions(task *run)
{
    double once = time_of(run, &theirs, 3);

    return once > ROUND_NS ? 1 : (int)(ROUND_NS / once) + 1;
}

struct pair {
    double ours, theirs;
};

static double less(double a, double b)
{
    return a < b ? a : b;
}

static struct pair measure(task *run)
{
    int times = repetitions(run);
    struct pair least = {1e18, 1e18};

    for (int i = 0; i < ROUNDS; i++) {
        least.ours = less(least.ours, time_of(run, &ours, times));
        least.theirs = less(least.theirs, time_of(run, &theirs, times));
    }
    return least;
}

/* ---- the table */

/* Both sides must answer, and alike. */
static void agree(task *run, const char *name)
{
    static uint8_t our_out[MOST_OUT];
    uint32_t our_figures[8];
    size_t our_written;
    uint16_t refused;

    written = 0;
    memset(out, 0, sizeof out);
    memset(figures, 0, sizeof figures);
    refused = run(&ours);
    our_written = written;
    memcpy(our_out, out, sizeof out);
    memcpy(our_figures, figures, sizeof figures);
    memset(out, 0, sizeof out);
    if (run(&theirs) != 0 || refused != 0 || written != our_written || memcmp(out, our_out, sizeof out) != 0 ||
        memcmp(figures, our_figures, sizeof figures) != 0) {
        printf("%s: refused, or the two answers differ\n", name);
        exit(1);
    }
}

/* `units` is what a time is also given by: numbers of the file, occurrences run, calls; 0 for none. */
static void row(const char *call, const char *on, task *run, int units, const char *unit)
{
    struct pair pair;

    agree(run, call);
    pair = measure(run);
    printf("%s|%s|%zu|%.1f|%.1f|%d|%s\n", call, on, file.length, pair.ours, pair.theirs, units, unit);
    fflush(stdout);
}

static void row_on(const char *call, struct bench_file with, task *run, int units, const char *unit)
{
    file = with;
    row(call, file.name, run, units, unit);
}

static struct bench_file written_adder(size_t bits)
{
    static uint8_t bytes[2048];
    struct bench_file adder = {bits == 1 ? "adder 1, the smallest" : "adder 64", bytes, 0, 0, 18};

    if (tuned_adder(bits, bytes, sizeof bytes, &adder.length, &place) != 0)
        exit(1);
    return adder;
}

static void check_rows(void)
{
    struct bench_file files[] = {one_module(), many_modules(), long_lists(), many_references(), empty_references()};

    for (size_t i = 0; i < sizeof files / sizeof *files; i++)
        row_on("check", files[i], check, files[i].numbers, " number");
    row_on("check", written_adder(1), check, 0, "");
}

static void evaluate_rows(void)
{
    for (size_t i = 0; i < sizeof values; i++)
        values[i] = (uint8_t)(i % 3);
    inputs = 3;
    row_on("evaluate", written_adder(1), evaluate, 0, "");
    inputs = 129;
    row_on("evaluate", written_adder(64), evaluate, 512, "n occurrence");
    rows = 1;
    row_on("1 row", written_adder(64), evaluate_block, 512, "n occurrence");
    rows = BLOCK;
    row_on("1,024 rows", written_adder(64), evaluate_block, BLOCK, " row");
    row_on("row by row", written_adder(64), evaluate_each, BLOCK, " row");
    inputs = 2;
    row_on("evaluate", full_size(), evaluate, 65535, "n occurrence");
    inputs = 16;
    row_on("evaluate", one_module(), evaluate, 4080, "n occurrence");
    row_on("1,024 rows", one_module(), evaluate_block, BLOCK, " row");
    row_on("row by row", one_module(), evaluate_each, BLOCK, " row");
}

static void count_rows(void)
{
    row_on("count", written_adder(1), count, 0, "");
    row_on("count", written_adder(64), count, 0, "");
    row_on("count all", many_modules(), count_all, 128, " module");
    row_on("count", full_size(), count, 65535, "n occurrence");
    row_on("count", doubling(), count, 65535, "n occurrence");
}

static void flatten_rows(void)
{
    row_on("flatten", written_adder(64), flatten, 320, " gate");
    row_on("flatten", one_module(), flatten, 4080, " gate");
    row_on("flatten", deep_when_flat(), flatten, 3840, " gate");
}

static void writer_rows(void)
{
    file = (struct bench_file){0};
    width = 1;
    row("adder", "width 1", write_adder, 0, "");
    row("fast adder", "width 1", write_fast_adder, 0, "");
    row("counter", "width 1", write_counter, 0, "");
    width = 64;
    row("adder", "width 64", write_adder, 0, "");
    row("fast adder", "width 64", write_fast_adder, 0, "");
    row("counter", "width 64", write_counter, 0, "");
}

static void listing_rows(void)
{
    struct bench_file files[] = {one_module(), many_modules(), long_lists(), many_references()};

    for (size_t i = 0; i < sizeof files / sizeof *files; i++)
        row_on("ndl", files[i], write_ndl, files[i].numbers, " number");
    row_on("ndl", written_adder(1), write_ndl, 0, "");
    for (size_t i = 0; i < sizeof files / sizeof *files; i++)
        row_on("print", files[i], print_text, files[i].numbers, " number");
    row_on("print", written_adder(1), print_text, 0, "");
}

static void withdrawn_rows(void)
{
    row_on("strict", many_modules(), strict_check, many_modules().numbers, " number");
    row_on("strict", written_adder(1), strict_check, 0, "");
    row_on("rewrite", four_input_gates(), rewrite, four_input_gates().numbers, " number");
    row_on("rewrite", many_modules(), rewrite, many_modules().numbers, " number");
    row_on("rewrite", written_adder(1), rewrite, 0, "");
}

static void text_rows(void)
{
    row_on("read", drafted_text(262144), read_text, 262144, " byte");
    row_on("read", alike_text(262144), read_text, 262144, " byte");
    row_on("read", drafted_text(2048), read_text, 2048, " byte");
}

int main(void)
{
    check_rows();
    evaluate_rows();
    count_rows();
    flatten_rows();
    writer_rows();
    withdrawn_rows();
    row_on("join", many_modules(), join, 128, " module");
    row_on("join", written_adder(1), join, 0, "");
    listing_rows();
    text_rows();
    return 0;
}
