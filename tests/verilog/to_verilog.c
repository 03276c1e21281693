/* Icarus Verilog as a second judge of evaluation: files as structural Verilog, with what the library answers.
 *
 *     to_verilog SEED > judge.v
 *
 * Written adders, fast adders, arithmetic units and counters of every width and random hierarchies become modules of primitive gates and instances,
 * each with a bench that sets rows of 0, 1, x and z and compares the outputs, by !==, with those that shelf_evaluate
 * gave. The turning into Verilog is the test's own; the library only answers.
 *
 * Why the two must agree: Verilog works out a primitive gate from the values at its pins alone, each x by itself,
 * and for and, or, nand, nor, xor, xnor, not and buf its tables give 0 or 1 exactly when every filling of the x pins
 * does: a 0 at an and or a 1 at an or decides, any x at an xor does not. That is the scope's rule, gate by gate. A z at
 * a pin counts as x, at a buf too. Every net has one driver, and only the inputs are ever z: outputs are 0, 1 or x. */
#include "../differential/make.h"
#include "../differential/family.h"
#include "../differential/random.h"
#include "shelf.h"

#include <stdio.h>
#include <stdlib.h>

enum { WIDEST = 64, ROWS = 12, RANDOM_FILES = 400, MOST_BYTES = 65536, MOST_SCRATCH = 65536, MOST_LIST = 200 };

static const char *const primitives[16] = {"buf", "not", "nand", "nand", "nand", "or",  "or",  "or",
                                           "xnor", "xor", "and", "and",  "and",  "nor", "nor", "nor"};

static uint8_t file[MOST_BYTES];
static size_t file_len;
static int files, benches;

/* ---- reading a file that is known to be good */

static size_t at;

static int take(void)
{
    int number = file[at++];

    if (number >= 128)
        number += 128 * (file[at++] - 1);
    return number;
}

struct nets {
    int count, net[MOST_LIST];
};

static struct nets take_nets(void)
{
    struct nets nets;

    nets.count = take();
    for (int i = 0; i < nets.count; i++)
        nets.net[i] = take();
    return nets;
}

/* ---- modules */

static void print_ports(const char *before, struct nets nets)
{
    for (int i = 0; i < nets.count; i++)
        printf("%sn%d", i == 0 ? before : ", ", nets.net[i]);
}

static void print_declaration(const char *kind, struct nets nets)
{
    for (int i = 0; i < nets.count; i++)
        printf("  %s n%d;\n", kind, nets.net[i]);
}

static int is_listed(struct nets nets, int net)
{
    for (int i = 0; i < nets.count; i++)
        if (nets.net[i] == net)
            return 1;
    return 0;
}

static void print_occurrence(struct nets outputs)
{
    struct nets drives = take_nets(), takes;
    int refers = take();

    takes = take_nets();
    for (int i = 0; i < drives.count; i++)
        if (!is_listed(outputs, drives.net[i]))
            printf("  wire n%d;\n", drives.net[i]);
    if (refers < 16)
        printf("  %s (", primitives[refers]);
    else
        printf("  f%dm%d u%zu (", files, refers, at);
    print_ports("", drives);
    print_ports(drives.count > 0 ? ", " : "", takes);
    printf(");\n");
}

/* Ports: outputs, then inputs, as the pins of a primitive stand. */
static void print_module(void)
{
    int number = take(), occurrences;
    struct nets inputs = take_nets(), outputs = take_nets();

    printf("module f%dm%d (", files, number);
    print_ports("", outputs);
    print_ports(outputs.count > 0 ? ", " : "", inputs);
    printf(");\n");
    print_declaration("output", outputs);
    print_declaration("input", inputs);
    occurrences = take();
    for (int i = 0; i < occurrences; i++)
        print_occurrence(outputs);
    printf("endmodule\n");
}

static void print_file(void)
{
    int modules;

    files++;
    at = 0;
    modules = take();
    for (int i = 0; i < modules; i++)
        print_module();
}

/* ---- benches */

static void print_word(const uint8_t *values, size_t count)
{
    printf("%zu'b", count);
    for (size_t i = count; i-- > 0;)
        putchar("01xz"[values[i]]);
}

static void print_pins(const char *name, uint32_t count)
{
    for (uint32_t i = 0; i < count; i++)
        printf("%s%s[%u]", i == 0 ? "" : ", ", name, i);
}

static void print_row(uint16_t number, uint32_t inputs, int mood)
{
    static uint32_t scratch[MOST_SCRATCH];
    uint8_t values[MOST_LIST], outputs[MOST_LIST];
    size_t written, place;
    uint32_t work;

    for (uint32_t i = 0; i < inputs; i++)
        values[i] = (uint8_t)(mood == 0 ? below(2) : mood == 1 ? below(4) : percent(15) ? between(2, 3) : below(2));
    if (shelf_evaluate(file, file_len, number, values, inputs, scratch, MOST_SCRATCH, outputs, MOST_LIST, &written,
                       &work, &place) != 0)
        exit(1);
    printf("    in = ");
    print_word(values, inputs);
    printf("; #1 rows = rows + 1; if (out !== ");
    print_word(outputs, written);
    printf(") begin differ = differ + 1; $display(\"file %d module %u: in %%b out %%b\", in, out); end\n", files,
           number);
}

/* A bench sets a row at each step of time; a module without outputs has nothing to judge. */
static void print_bench(uint16_t number)
{
    static uint32_t scratch[MOST_SCRATCH];
    uint32_t figures[8], tally[16];
    size_t place;

    if (shelf_count(file, file_len, number, unit_family, scratch, MOST_SCRATCH, figures, tally, &place) != 0)
        exit(1);
    if (figures[1] == 0)
        return;
    benches++;
    printf("module bench%d;\n  reg [%u:0] in;\n  wire [%u:0] out;\n", benches, figures[0] - 1, figures[1] - 1);
    printf("  integer rows, differ;\n  f%dm%u dut (", files, number);
    print_pins("out", figures[1]);
    printf(", ");
    print_pins("in", figures[0]);
    printf(");\n  initial begin\n    rows = 0; differ = 0;\n");
    for (int row = 0; row < ROWS; row++)
        print_row(number, figures[0], row % 3);
    printf("  end\nendmodule\n");
}

static void print_top(unsigned long long seed)
{
    printf("module top;\n  integer rows, differ;\n");
    for (int i = 1; i <= benches; i++)
        printf("  bench%d b%d ();\n", i, i);
    printf("  initial begin\n    #%d rows = 0; differ = 0;\n", ROWS + 1);
    for (int i = 1; i <= benches; i++)
        printf("    rows = rows + b%d.rows; differ = differ + b%d.differ;\n", i, i);
    printf("    $display(\"verilog: seed %llu, %d modules, %%0d rows, %%0d differ\", rows, differ);\n", seed,
           benches);
    printf("  end\nendmodule\n");
}

/* ---- what is judged */

static void judge_written(uint16_t number, uint16_t write(size_t, uint8_t *, size_t, size_t *, size_t *))
{
    size_t place;

    for (size_t width = 1; width <= WIDEST; width++) {
        if (write(width, file, MOST_BYTES, &file_len, &place) != 0)
            exit(1);
        print_file();
        print_bench(number);
    }
}

static void judge_random(void)
{
    static struct draft draft;
    static struct encoded encoded;

    for (int i = 0; i < RANDOM_FILES; i++) {
        make_random(&draft);
        encode(&draft, &encoded);
        file_len = encoded.length;
        for (size_t j = 0; j < file_len; j++)
            file[j] = encoded.byte[j];
        print_file();
        for (int m = 0; m < draft.count; m++)
            print_bench((uint16_t)draft.modules[m].number);
    }
}

int main(int argc, char **argv)
{
    unsigned long long seed = argc > 1 ? strtoull(argv[1], NULL, 10) : 1;

    random_start(seed);
    judge_written(18, shelf_adder);
    judge_written(40, shelf_fast_adder);
    judge_written(48, shelf_alu);
    judge_written(32, shelf_counter);
    judge_random();
    print_top(seed);
    return 0;
}
