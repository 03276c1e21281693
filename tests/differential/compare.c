/* See compare.h. What is lent to the two readings is laid out alike, so that whole buffers can be compared. */
#define _DEFAULT_SOURCE
#include "compare.h"
#include "family.h"

#include "../plain/plain.h"
#include "alus.h"
#include "counters.h"
#include "lend.h"
#include "random.h"
#include "shelf.h"
#include "spell.h"

#include <signal.h>
#include <stdio.h>
#include <stdlib.h>
#include <string.h>

/* A block of 1,024 rows of 192 values or outputs each is the largest, and the text of a file, with some to spare. */
enum { REFUSALS = 34, SCRATCH_MOST = 70000, OUT_MOST = SHELF_TEXT_MOST + 1000, VALUES_MOST = 200000 };

static const char *const call_names[CALLS] = {"check",      "strict", "rewrite",    "modules", "number_at",
                                              "evaluate",   "rows",   "count",      "flatten", "read_text",
                                              "print_text", "adder",  "fast_adder", "alu",     "counter"};
static long met[CALLS][REFUSALS];

/* Flattened files that were counted, and counts of such of several levels, one by each reading. */
static long flattened, flattened_deep;

/* What is lent to the library (`ours`) and to the plain reading (`plain`). */
static struct lender file_lender, values_lender, our_scratch, plain_scratch, our_out, plain_out;

/* The case at hand: what was passed, and what came back. */
struct given {
    enum call call;
    uint16_t number;
    size_t position, width, rows, values_len, scratch_len, out_len;
    uint8_t family[16];
};

struct outcome {
    uint16_t number;
    size_t place, result;
    uint32_t work, figures[8], tally[16];
};

static uint64_t seed;
static long case_number;
static const uint8_t *file, *lent_file;
static size_t file_len;
static uint8_t values[VALUES_MOST];
static struct given given;
static struct outcome ours, plain;

static void dump(const char *name, const uint8_t *bytes, size_t length)
{
    printf("%s, %zu bytes:", name, length);
    for (size_t i = 0; i < length; i++)
        printf("%s%02X", i % 32 == 0 ? "\n  " : " ", bytes[i]);
    printf("\n");
}

static void print_outcome(const char *name, const struct outcome *outcome)
{
    printf("%s: number %u place %zu result %zu work %u figures", name, outcome->number, outcome->place,
           outcome->result, outcome->work);
    for (int i = 0; i < 8; i++)
        printf(" %u", outcome->figures[i]);
    printf(" tally");
    for (int i = 0; i < 16; i++)
        printf(" %u", outcome->tally[i]);
    printf("\n");
}

void report(const char *what)
{
    printf("DIFFERENCE: %s\nseed %llu case %ld call %s\n", what, (unsigned long long)seed, case_number,
           call_names[given.call]);
    printf("module %u position %zu width %zu rows %zu values %zu scratch %zu out %zu\n", given.number, given.position,
           given.width, given.rows, given.values_len, given.scratch_len, given.out_len);
    print_outcome("library", &ours);
    print_outcome("plain  ", &plain);
    dump("values", values, given.values_len);
    dump("family", given.family, sizeof given.family);
    dump("file", file, file_len);
    exit(1);
}

static void on_trap(int signal_number)
{
    (void)signal_number;
    report("memory was touched that was not lent");
}

void compare_start(uint64_t with_seed)
{
    seed = with_seed;
    file_lender = make_lender(TEXT_ROOM);
    values_lender = make_lender(VALUES_MOST);
    our_scratch = make_lender(SCRATCH_MOST * sizeof(uint32_t));
    plain_scratch = make_lender(SCRATCH_MOST * sizeof(uint32_t));
    our_out = make_lender(OUT_MOST);
    plain_out = make_lender(OUT_MOST);
    signal(SIGSEGV, on_trap);
    signal(SIGBUS, on_trap);
}

void compare_case(long number)
{
    case_number = number;
}

/* Before a call: the place holds rubbish, which each side must overwrite; results hold rubbish that is the same on both
 * sides, since a refusal leaves them and an answer does not. */
static void begin(enum call call)
{
    memset(&given, 0, sizeof given);
    memset(&ours, 0x11, sizeof ours);
    memset(&plain, 0x11, sizeof plain);
    given.call = call;
    ours.place = 77;
    plain.place = 88;
}

static int same_outcome(void)
{
    return ours.number == plain.number && ours.place == plain.place && ours.result == plain.result &&
           ours.work == plain.work && memcmp(ours.figures, plain.figures, sizeof ours.figures) == 0 &&
           memcmp(ours.tally, plain.tally, sizeof ours.tally) == 0;
}

static int same_memory(const struct lender *a, const struct lender *b, size_t length)
{
    return memcmp(a->end - length, b->end - length, length) == 0 && guard_kept(a, length);
}

/* After a call: the answer, and every byte of what was lent. */
static void end_call(void)
{
    if (!same_outcome())
        report("the answers differ");
    if (memcmp(lent_file, file, file_len) != 0 || !guard_kept(&file_lender, file_len))
        report("the file was changed");
    if (ours.number < REFUSALS)
        met[given.call][ours.number]++;
}

static void end_call_with_buffers(void)
{
    if (!same_memory(&our_scratch, &plain_scratch, given.scratch_len * sizeof(uint32_t)))
        report("scratch differs");
    if (!same_memory(&our_out, &plain_out, given.out_len))
        report("the output buffer differs");
    end_call();
}

static void compare_check(void)
{
    begin(CHECK);
    ours.number = shelf_check(lent_file, file_len, &ours.place);
    plain.number = plain_check(file, file_len, &plain.place);
    end_call();
}

static void compare_strict_check(void)
{
    begin(STRICT_CHECK);
    ours.number = shelf_strict_check(lent_file, file_len, &ours.place);
    plain.number = plain_strict_check(file, file_len, &plain.place);
    end_call();
}

static void compare_modules(void)
{
    begin(MODULES);
    ours.number = shelf_modules(lent_file, file_len, &ours.result, &ours.place);
    plain.number = plain_modules(file, file_len, &plain.result, &plain.place);
    end_call();
}

static void compare_number_at(size_t position)
{
    uint16_t our_number = 1077, plain_number = 1077;

    begin(NUMBER_AT);
    given.position = position;
    ours.number = shelf_number_at(lent_file, file_len, position, &our_number, &ours.place);
    plain.number = plain_number_at(file, file_len, position, &plain_number, &plain.place);
    ours.result = our_number;
    plain.result = plain_number;
    end_call();
}

/* As many entries as `given` says, the same in both lenders. */
static uint32_t *lend_scratch(const struct lender *lender)
{
    return (uint32_t *)(void *)lend(lender, given.scratch_len * sizeof(uint32_t), NULL);
}

/* Both sides of the highest value: runs that were answered on a 3, and runs that were refused for a 4. */
static long met_three, met_four;

static void note_highest(size_t values_len)
{
    met_three += plain.number == 0 && memchr(values, 3, values_len) != NULL;
    met_four += plain.number == 20 && values[plain.place] == 4;
}

static void compare_evaluate(uint16_t number, size_t values_len, size_t scratch_len, size_t out_len)
{
    const uint8_t *lent_values = lend(&values_lender, values_len, values);

    begin(EVALUATE);
    given.number = number;
    given.values_len = values_len;
    given.scratch_len = scratch_len;
    given.out_len = out_len;
    ours.number = shelf_evaluate(lent_file, file_len, number, lent_values, values_len, lend_scratch(&our_scratch),
                                 scratch_len, lend(&our_out, out_len, NULL), out_len, &ours.result, &ours.work,
                                 &ours.place);
    plain.number = plain_evaluate(file, file_len, number, values, values_len, lend_scratch(&plain_scratch),
                                  scratch_len, lend(&plain_out, out_len, NULL), out_len, &plain.result,
                                  &plain.work, &plain.place);
    if (memcmp(lent_values, values, values_len) != 0 || !guard_kept(&values_lender, values_len))
        report("the values were changed");
    note_highest(values_len);
    end_call_with_buffers();
}

static void compare_rows(uint16_t number, size_t rows, size_t values_len, size_t scratch_len, size_t out_len)
{
    const uint8_t *lent_values = lend(&values_lender, values_len, values);

    begin(EVALUATE_ROWS);
    given.number = number;
    given.rows = rows;
    given.values_len = values_len;
    given.scratch_len = scratch_len;
    given.out_len = out_len;
    ours.number = shelf_evaluate_rows(lent_file, file_len, number, rows, lent_values, values_len,
                                      lend_scratch(&our_scratch), scratch_len, lend(&our_out, out_len, NULL),
                                      out_len, &ours.result, &ours.work, &ours.place);
    plain.number = plain_evaluate_rows(file, file_len, number, rows, values, values_len,
                                       lend_scratch(&plain_scratch), scratch_len, lend(&plain_out, out_len, NULL),
                                       out_len, &plain.result, &plain.work, &plain.place);
    if (memcmp(lent_values, values, values_len) != 0 || !guard_kept(&values_lender, values_len))
        report("the values were changed");
    end_call_with_buffers();
}

/* The unit family, or delays of 0 to 255, the ends more often than others. */
static void pick_family(void)
{
    int unit = percent(25);

    for (int i = 0; i < 16; i++)
        given.family[i] = (uint8_t)(unit ? 1 : percent(20) ? 255 * below(2) : below(256));
}

static void compare_count(uint16_t number, size_t scratch_len)
{
    begin(COUNT);
    given.number = number;
    given.scratch_len = scratch_len;
    pick_family();
    lend(&our_out, 0, NULL);
    lend(&plain_out, 0, NULL);
    ours.number = shelf_count(lent_file, file_len, number, given.family, lend_scratch(&our_scratch), scratch_len,
                              ours.figures, ours.tally, &ours.place);
    plain.number = plain_count(file, file_len, number, given.family, lend_scratch(&plain_scratch), scratch_len,
                               plain.figures, plain.tally, &plain.place);
    if (ours.number == 0 && memcmp(given.family, unit_family, sizeof unit_family) == 0 &&
        ours.figures[5] != ours.figures[7])
        report("the delay by the unit family is not the unit delay");
    if (ours.number == 0 && ours.figures[7] > 255 * ours.figures[2])
        report("the delay by the family is above 255 times the gates");
    end_call_with_buffers();
}

static void compare_flatten(uint16_t number, size_t scratch_len, size_t out_len)
{
    begin(FLATTEN);
    given.number = number;
    given.scratch_len = scratch_len;
    given.out_len = out_len;
    ours.number = shelf_flatten(lent_file, file_len, number, lend_scratch(&our_scratch), scratch_len,
                                lend(&our_out, out_len, NULL), out_len, &ours.result, &ours.place);
    plain.number = plain_flatten(file, file_len, number, lend_scratch(&plain_scratch), scratch_len,
                                 lend(&plain_out, out_len, NULL), out_len, &plain.result, &plain.place);
    end_call_with_buffers();
}

static void take_file(const uint8_t *bytes, size_t length)
{
    file = bytes;
    file_len = length;
    lent_file = lend(&file_lender, length, bytes);
}

struct made compare_making(enum call call, making *library, making *plainly, const uint8_t *bytes, size_t length,
                           size_t out_len)
{
    take_file(bytes, length);
    begin(call);
    given.out_len = out_len;
    lend_scratch(&our_scratch);
    lend_scratch(&plain_scratch);
    ours.number = library(lent_file, file_len, lend(&our_out, out_len, NULL), out_len, &ours.result, &ours.place);
    plain.number = plainly(file, file_len, lend(&plain_out, out_len, NULL), out_len, &plain.result, &plain.place);
    end_call_with_buffers();
    return (struct made){ours.number, ours.place, our_out.end - out_len, ours.result};
}

/* What flattening keeps of a module's figures, and what it makes plain: room and expanded size. */
struct kept {
    uint32_t inputs, gates, size, room, delay, load, family;
};

typedef uint16_t count_call(const uint8_t *, size_t, uint16_t, const uint8_t[16], uint32_t *, size_t, uint32_t *,
                            uint32_t *, size_t *);

static struct kept kept_of(count_call *count, const uint8_t *bytes, size_t length, uint16_t number)
{
    static uint32_t scratch[SCRATCH_MOST];
    static const uint8_t slow[16] = {0, 1, 2, 3, 5, 8, 13, 21, 34, 55, 89, 144, 233, 255, 254, 253};
    uint32_t figures[8], tally[16];
    size_t place;

    if (count(bytes, length, number, slow, scratch, SCRATCH_MOST, figures, tally, &place) != 0)
        report("a file that flattening answers, or its flattened file, has no figures");
    return (struct kept){figures[0], figures[2], figures[3], figures[4], figures[5], figures[6], figures[7]};
}

/* A file that was just flattened, whose bytes stand in `out`, has the figures of its module that flattening keeps. */
static void flattened_alike(count_call *count, const uint8_t *bytes, const struct lender *out, uint16_t number)
{
    struct kept whole = kept_of(count, bytes, file_len, number);
    struct kept flat = kept_of(count, out->end - given.out_len, ours.result, number);

    if (flat.gates != whole.gates || flat.delay != whole.delay || flat.load != whole.load ||
        flat.family != whole.family)
        report("the figures of the flattened file differ");
    if (flat.size != whole.gates || flat.room != whole.inputs + whole.gates)
        report("the size of the flattened file is not its gates, or its room not its inputs and gates");
    if (whole.size != whole.gates)
        flattened_deep++;
}

static void compare_flattened(uint16_t number)
{
    if (ours.number != 0)
        return;
    flattened_alike(shelf_count, lent_file, &our_out, number);
    flattened_alike(plain_count, file, &plain_out, number);
    flattened++;
}

/* ---- what to pass */

size_t near(size_t right)
{
    int roll = below(100);

    if (roll < 60)
        return right;
    if (roll < 75)
        return right > 0 ? right - 1 : 0;
    if (roll < 80)
        return 0;
    return right + (size_t)below(roll < 95 ? 20 : 300);
}

static uint16_t any_number(void)
{
    switch (below(4)) {
    case 0:
        return (uint16_t)below(16);
    case 1:
        return (uint16_t)between(16384, 65535);
    default:
        return (uint16_t)between(16, percent(50) ? 150 : 16383);
    }
}

/* Mostly a module of the file; now and then its number with bits added that no number of a file has. */
static uint16_t choose_number(size_t modules)
{
    size_t place;
    uint16_t number = any_number();

    if (modules > 0 && percent(92)) {
        plain_number_at(file, file_len, (size_t)below((int)modules), &number, &place);
        if (percent(2))
            number = (uint16_t)(number + 16384 * between(1, 3));
    }
    return number;
}

/* Values of one mood: anything, known only, mostly unknown or floating; now and then some that are none. */
static void choose_values(size_t length)
{
    int mood = below(3), bad = percent(8) && length > 0;

    for (size_t i = 0; i < length; i++)
        values[i] = (uint8_t)(mood == 0 ? below(4) : mood == 1 ? below(2) : percent(80) ? between(2, 3) : below(2));
    for (int i = bad ? between(1, 3) : 0; i > 0; i--)
        values[below((int)length)] = (uint8_t)(percent(50) ? 4 : between(4, 255));
}

/* What the right lengths are, by asking the plain reading with plenty of memory. */
struct right {
    size_t inputs, outputs, room, flat;
};

static struct right right_lengths(uint16_t number)
{
    static uint32_t scratch[SCRATCH_MOST];
    static uint8_t out[OUT_MOST];
    uint32_t figures[8], tally[16];
    size_t flat = 0, place;
    uint16_t refused = plain_count(file, file_len, number, unit_family, scratch, SCRATCH_MOST, figures, tally, &place);

    if (refused != 0)
        return (struct right){(size_t)below(10), (size_t)below(10), (size_t)below(30), (size_t)below(60)};
    plain_flatten(file, file_len, number, scratch, SCRATCH_MOST, out, OUT_MOST, &flat, &place);
    return (struct right){figures[0], figures[1], figures[4], flat};
}

/* Of the refusals 1, 4, 16 and 17 of a rewriting, those that are about the new file; and files that changed. */
static long met_new[REFUSALS], rewritten;

/* A rewritten file passes the strict check, comes back as it is when it is rewritten again, and its modules answer as
 * those of the file do. */
static void judge_rewritten(uint16_t number, size_t values_len)
{
    uint32_t work;
    static uint32_t scratch[SCRATCH_MOST];
    static uint8_t again[OUT_MOST], before[OUT_MOST], after[OUT_MOST];
    const uint8_t *new_file = our_out.end - given.out_len;
    size_t new_len = ours.result, length = 0, outputs = 0, new_outputs = 0, place;
    uint16_t answer, new_answer;

    if (shelf_strict_check(new_file, new_len, &place) != 0)
        report("the strict check does not pass a rewritten file");
    if (shelf_rewrite(new_file, new_len, again, OUT_MOST, &length, &place) != 0 || length != new_len ||
        memcmp(again, new_file, length) != 0)
        report("a rewritten file changes when it is rewritten again");
    answer = shelf_evaluate(lent_file, file_len, number, values, values_len, scratch, SCRATCH_MOST, before, OUT_MOST,
                            &outputs, &work, &place);
    new_answer = shelf_evaluate(new_file, new_len, number, values, values_len, scratch, SCRATCH_MOST, after, OUT_MOST,
                                &new_outputs, &work, &place);
    if (answer != new_answer || outputs != new_outputs || memcmp(before, after, outputs) != 0)
        report("a module of the rewritten file answers otherwise");
    rewritten += new_len != file_len;
}

static void compare_rewrite(uint16_t number, size_t values_len)
{
    static uint8_t out[OUT_MOST];
    size_t right = 0, place;

    plain_rewrite(file, file_len, out, OUT_MOST, &right, &place);
    begin(REWRITE);
    given.number = number;
    given.values_len = values_len;
    given.out_len = near(right);
    lend_scratch(&our_scratch);
    lend_scratch(&plain_scratch);
    ours.number = shelf_rewrite(lent_file, file_len, lend(&our_out, given.out_len, NULL), given.out_len, &ours.result,
                                &ours.place);
    plain.number = plain_rewrite(file, file_len, lend(&plain_out, given.out_len, NULL), given.out_len, &plain.result,
                                 &plain.place);
    end_call_with_buffers();
    met_new[ours.number] += plain_check(file, file_len, &place) == 0;
    if (ours.number == 0)
        judge_rewritten(number, values_len);
}

/* None, one, a few, the most, one more, or any number at all. Many rows are for modules that run fast. */
static size_t choose_rows(int fast)
{
    int roll = below(100);

    if (roll < 10)
        return 0;
    if (roll < 25)
        return 1;
    if (roll < 80)
        return (size_t)between(2, 9);
    if (roll < 92)
        return (size_t)(fast ? between(10, 600) : 10);
    if (roll < 95)
        return fast ? 1024 : 10;
    return roll < 98 ? 1025 : (size_t)random_word();
}

/* A block whose buffers are those of its rows, or of the most rows where it has too many, now and then off by some. */
static void compare_block(uint16_t number, struct right right)
{
    size_t rows = choose_rows(right.flat < 2000), laid = rows <= 1025 ? rows : 2;
    size_t values_len = percent(90) ? laid * right.inputs : near(laid * right.inputs);

    choose_values(values_len);
    compare_rows(number, rows, values_len, near(right.room), near(laid * right.outputs));
}

static void compare_module_calls(size_t modules)
{
    uint16_t number = choose_number(modules);
    struct right right = right_lengths(number);
    size_t values_len = percent(90) ? right.inputs : near(right.inputs);

    choose_values(values_len);
    compare_evaluate(number, values_len, near(right.room), near(right.outputs));
    compare_rewrite(number, values_len);
    compare_block(number, right);
    compare_count(number, near(right.room));
    compare_flatten(number, near(right.room), near(right.flat));
    compare_flattened(number);
}

void compare_file(const uint8_t *bytes, size_t length)
{
    size_t modules = 0, place;

    take_file(bytes, length);
    plain_modules(file, file_len, &modules, &place);
    compare_check();
    compare_strict_check();
    compare_modules();
    compare_number_at(percent(95) ? (size_t)below((int)modules + 2) : (size_t)random_word());
    compare_module_calls(modules);
    if (modules > 0)
        compare_module_calls(modules);
}

/* ---- the writers */

static size_t any_width(void)
{
    int roll = below(100);

    if (roll < 90)
        return (size_t)below(67);
    return roll < 95 ? (size_t)random_word() : (size_t)1 << (roll % 64) | (size_t)below(65);
}

static void begin_writer(enum call call, size_t width, size_t right)
{
    begin(call);
    file_len = 0;
    lent_file = lend(&file_lender, 0, NULL);
    given.width = width;
    given.out_len = near(right);
    lend_scratch(&our_scratch);
    lend_scratch(&plain_scratch);
}

static void compare_adder(void)
{
    static uint8_t out[OUT_MOST];
    size_t width = any_width(), right = 0, place;

    plain_adder(width, out, OUT_MOST, &right, &place);
    begin_writer(ADDER, width, right);
    ours.number =
        shelf_adder(width, lend(&our_out, given.out_len, NULL), given.out_len, &ours.result, &ours.place);
    plain.number =
        plain_adder(width, lend(&plain_out, given.out_len, NULL), given.out_len, &plain.result, &plain.place);
    end_call_with_buffers();
}

static void compare_fast_adder(void)
{
    static uint8_t out[OUT_MOST];
    size_t width = any_width(), right = 0, place;

    plain_fast_adder(width, out, OUT_MOST, &right, &place);
    begin_writer(FAST_ADDER, width, right);
    ours.number =
        shelf_fast_adder(width, lend(&our_out, given.out_len, NULL), given.out_len, &ours.result, &ours.place);
    plain.number = plain_fast_adder(width, lend(&plain_out, given.out_len, NULL), given.out_len, &plain.result,
                                    &plain.place);
    end_call_with_buffers();
}

/* As with counters, the bytes have been judged once. */
static void compare_alu(void)
{
    size_t width = any_width();

    begin_writer(ALU, width, judged_alu_length(width));
    ours.number = shelf_alu(width, lend(&our_out, given.out_len, NULL), given.out_len, &ours.result, &ours.place);
    plain.number =
        judged_alu(width, lend(&plain_out, given.out_len, NULL), given.out_len, &plain.result, &plain.place);
    end_call_with_buffers();
}

/* The bytes of a counter are the library's own; they have been judged once, and must come again. */
static void compare_counter(void)
{
    size_t width = any_width();

    begin_writer(COUNTER, width, judged_counter_length(width));
    ours.number =
        shelf_counter(width, lend(&our_out, given.out_len, NULL), given.out_len, &ours.result, &ours.place);
    plain.number = judged_counter(width, lend(&plain_out, given.out_len, NULL), given.out_len, &plain.result,
                                  &plain.place);
    end_call_with_buffers();
}

void compare_writers(void)
{
    compare_adder();
    compare_fast_adder();
    compare_alu();
    compare_counter();
}

/* ---- the end */

static int can_give(enum call call, int number)
{
    if (number == 0)
        return 1;
    if (call == ADDER || call == FAST_ADDER || call == ALU || call == COUNTER)
        return number == 22 || number == 23;
    if (call == READ_TEXT && number >= 2 && number <= 5)
        return 0;
    if (number <= 17)
        return 1;
    switch (call) {
    case STRICT_CHECK:
        return number == 28;
    case REWRITE:
    case PRINT_TEXT:
        return number == 22;
    case READ_TEXT:
        return number == 22 || number == 25 || number == 26 || number == 33;
    case NUMBER_AT:
        return number == 18;
    case EVALUATE:
        return number <= 22;
    case EVALUATE_ROWS:
        return number <= 22 || number == 27;
    case COUNT:
        return number == 18 || number == 21;
    case FLATTEN:
        return number == 18 || number == 21 || number == 22 || number == 24;
    default:
        return 0;
    }
}

static int any_can_give(int number)
{
    for (int call = 0; call < CALLS; call++)
        if (can_give((enum call)call, number))
            return 1;
    return 0;
}

int compare_summary(void)
{
    int complete = 1;

    printf("%-8s", "given");
    for (int call = 0; call < CALLS; call++)
        printf(" %10s", call_names[call]);
    printf("\n");
    for (int number = 0; number < REFUSALS; number++) {
        if (!any_can_give(number))
            continue;
        printf("%-8d", number);
        for (int call = 0; call < CALLS; call++) {
            if (!can_give((enum call)call, number)) {
                printf(" %10s", "-");
                continue;
            }
            printf(" %10ld", met[call][number]);
            if (met[call][number] == 0)
                complete = 0;
        }
        printf("\n");
    }
    printf("runs answered on a 3: %ld, refused for a 4: %ld\n", met_three, met_four);
    printf("flattened files with the gates, delays and load of their module: %ld, of several levels %ld\n", flattened,
           flattened_deep / 2);
    printf("rewritten files that changed: %ld; refused for the new file with 4: %ld, 16: %ld, 17: %ld, 1: %ld, 22: %ld\n", rewritten,
           met_new[4], met_new[16], met_new[17], met_new[1], met_new[22]);
    return complete && met_three > 0 && met_four > 0 && flattened_deep > 0 && rewritten > 0 && met_new[4] > 0 &&
           met_new[16] > 0 && met_new[17] > 0 && met_new[1] > 0;
}
