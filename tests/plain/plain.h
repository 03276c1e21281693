/* The rules of shelf files once more, plain and obvious, to hold the proved library against.
 *
 * Written from the scope alone. Nothing here is fast, lent or clever: a file is read into lists, and each call does
 * what the text says, in its order. The calls have the shape of include/shelf.h, with the prefix plain_. */
#ifndef PLAIN_H
#define PLAIN_H

#include <stddef.h>
#include <stdint.h>

enum {
    MOST_BYTES = 65535,
    MOST_MODULES = 128,
    MOST_IN_LIST = 192,
    MOST_OCCURRENCES = 4096,
    MOST_NETS = 4096,
    MOST_SIZE = 65535,
    MOST_ROWS = 1024,
    NET_NUMBERS = 16384, /* numbers are 0 to 16,383 */
    KINDS = 16           /* gates are 0 to 15, modules from 16 up */
};

struct nets {
    int count;
    const uint16_t *net;
};

struct occurrence {
    struct nets drives;
    int refers;
    struct nets takes;
};

struct module {
    int number;
    struct nets inputs;
    struct nets outputs;
    int count;
    const struct occurrence *occurrences;
};

struct file {
    int count;
    struct module modules[MOST_MODULES];
};

struct refusal {
    int number; /* 0: none */
    size_t place;
};

/* read.c: refusals 1 to 5 */
struct refusal plain_read(const uint8_t *bytes, size_t length, struct file *file);

/* gates.c */
int plain_arity(int kind);
const char *plain_gate_name(int kind);
int plain_gate(int kind, const uint8_t *values);

/* check.c: refusals 1 to 17. `sizes` gets the expanded size of each module */
struct refusal plain_checked(const uint8_t *bytes, size_t length, struct file *file, uint32_t sizes[MOST_MODULES]);
int plain_nearest_later(const struct file *file, int position, int number); /* a position, or -1 */
int plain_find(const struct file *file, int number);                        /* a position, or -1 */

/* run.c: a module on any kind of values; `gate` makes the value of a gate's net */
typedef uint32_t gate_rule(void *state, int kind, const uint32_t *arguments);
extern uint32_t plain_reached; /* occurrences that were run, counted on and on */
void plain_run(const struct file *file, int position, const uint32_t *inputs, uint32_t *outputs, gate_rule *gate,
               void *state);

/* evaluate.c: a module's outputs for one value for each input */
void plain_outputs(const struct file *file, int position, const uint8_t *values, uint8_t *outputs);

/* figures.c: figures of an accepted file's module */
struct figures {
    uint32_t gates, room, load;
    uint32_t tally[KINDS];
};
void plain_figures(const struct file *file, int position, struct figures *figures);

/* calls.c: the file of the call at hand, filled by plain_check, and how a call ends */
extern struct file plain_file;
extern uint32_t plain_sizes[MOST_MODULES];
uint16_t plain_end(size_t *place, int number, size_t at);

/* write.c: a file in the making */
struct bytes {
    size_t length;
    uint8_t byte[MOST_BYTES];
};
void plain_put(struct bytes *bytes, uint32_t number);
void plain_put_range(struct bytes *bytes, uint32_t first, uint32_t count); /* a list of numbers in order */
size_t plain_put_file(struct bytes *bytes, const struct file *file);       /* how many bytes there are, also if too many */
uint16_t plain_give(const struct bytes *answer, uint8_t *out, size_t out_len, size_t *written, size_t *place);

/* say.c: a text in the making. Listings and printed files are far below its room */
void plain_say_nothing(void); /* none so far */
void plain_say(const char *format, ...);
uint16_t plain_give_said(uint8_t *out, size_t out_len, size_t *written, size_t *place);

/* text_names.c: numbers for the names of a text, in the order in which they come */
extern struct names plain_module_names, plain_net_names;
void plain_forget(struct names *names);
void plain_forget_all_but_gates(struct names *names);
int plain_number_of(struct names *names, const uint8_t *letters, size_t length);

/* The calls */
uint16_t plain_check(const uint8_t *file, size_t file_len, size_t *place);
uint16_t plain_strict_check(const uint8_t *file, size_t file_len, size_t *place);
uint16_t plain_rewrite(const uint8_t *file, size_t file_len, uint8_t *out, size_t out_len, size_t *written,
                       size_t *place);
uint16_t plain_modules(const uint8_t *file, size_t file_len, size_t *modules, size_t *place);
uint16_t plain_number_at(const uint8_t *file, size_t file_len, size_t position, uint16_t *number, size_t *place);
uint16_t plain_evaluate(const uint8_t *file, size_t file_len, uint16_t number, const uint8_t *values,
                        size_t values_len, uint32_t *scratch, size_t scratch_len, uint8_t *out, size_t out_len,
                        size_t *written, uint32_t *work, size_t *place);
uint16_t plain_evaluate_rows(const uint8_t *file, size_t file_len, uint16_t number, size_t rows,
                             const uint8_t *values, size_t values_len, uint32_t *scratch, size_t scratch_len,
                             uint8_t *out, size_t out_len, size_t *written, uint32_t *work, size_t *place);
uint16_t plain_count(const uint8_t *file, size_t file_len, uint16_t number, const uint8_t family[16],
                     uint32_t *scratch, size_t scratch_len, uint32_t figures[8], uint32_t tally[16], size_t *place);
uint16_t plain_flatten(const uint8_t *file, size_t file_len, uint16_t number, uint32_t *scratch, size_t scratch_len,
                       uint8_t *out, size_t out_len, size_t *written, size_t *place);
uint16_t plain_look_up(const uint8_t *group, size_t group_len, const uint8_t *house, size_t house_len,
                       uint16_t number, uint16_t *which, size_t *start, size_t *length, size_t *place);
uint16_t plain_join(const uint8_t *group, size_t group_len, const uint8_t *house, size_t house_len, uint8_t *out,
                    size_t out_len, uint16_t *which, size_t *written, size_t *place);
uint16_t plain_write_ndl(const uint8_t *file, size_t file_len, const uint8_t *names, size_t names_len, uint8_t *out,
                         size_t out_len, size_t *written, size_t *place);
uint16_t plain_read_text(const uint8_t *text, size_t text_len, uint8_t *out, size_t out_len, size_t *written,
                         size_t *place);
uint16_t plain_print_text(const uint8_t *file, size_t file_len, uint8_t *out, size_t out_len, size_t *written,
                          size_t *place);
uint16_t plain_adder(size_t width, uint8_t *out, size_t out_len, size_t *written, size_t *place);
uint16_t plain_fast_adder(size_t width, uint8_t *out, size_t out_len, size_t *written, size_t *place);

#endif
