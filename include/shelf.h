/* The shelf library from C.
 *
 * A shelf file is a list of modules built from gates; docs/ and the scope of the project say what its bytes mean.
 * Every function below is total: any bytes, any lengths and any numbers may be passed. Link libshelf_c.a (x86-64).
 *
 * Slices. A lent buffer is passed as a pointer and a length: `file`, `values`, `names` and `out` in bytes, `scratch`
 * in entries. A pointer must be good for that many entries, also where the length is 0 it must not be a null pointer,
 * and no two buffers of one call may overlap. `file`, `values` and `names` are only read.
 *
 * What comes back. Every function returns 0 for an answer, or the number of a refusal, 1 to 29 or 33. `*place`
 * gets 0 with an answer and the refusal's place with a refusal:
 *
 *    1  the file is over 65,535 bytes                        0
 *    2  the file ends where a byte is due                    the file's length
 *    3  a number is not in its shortest form                 first byte of the number
 *    4  a count is over its ceiling                          first byte of the count
 *    5  bytes follow the last module                         the first of them
 *    6  a module's number is under 16                        the module's position, from 0; so too for 7 to 17
 *    7  a later module has the same number
 *    8  an input is listed twice
 *    9  an output is listed twice
 *   10  a net is both input and output
 *   11  an occurrence drives a net twice, or an input, or a net that is driven already
 *   12  an argument is neither an input nor driven earlier
 *   13  an occurrence refers to no gate and no later module
 *   14  the count of arguments or of driven nets does not match
 *   15  an output is not driven
 *   16  more than 4,096 nets
 *   17  the expanded size is over 65,535
 *   18  no module of that number, or at that position       0
 *   19  the count of values differs from the inputs          0
 *   20  a value is above 3                                   index of the first such value
 *   21  scratch has fewer entries than the module's room     0
 *   22  the output buffer is shorter than the answer         0
 *   23  the width is outside 1 to 64                         0
 *   24  flattening needs more than 4,096 nets                0
 *   25  the text is not in the list form                     the first byte at which no such text goes on
 *   26  an atom, a list or a count of names is too long      the first byte that is too much
 *   27  more than 1,024 rows                                 0
 *   28  the module uses a four-input gate                    the module's position
 *   29  not 128 bytes of names, or a name is bad or used     0, or the first such name, 0 to 15
 *   33  the text is over 262,144 bytes                       0
 *
 * What a call leaves. A refusal writes `*place` (and `*which`) and nothing else that was lent: no buffer, none of `*written`,
 * `*work`, `*modules`, `*number`, `figures`, `tally`. An answer writes `*place` and what was asked for; it fills the first bytes
 * of `out` and leaves the rest, and it leaves 0 in the first `room` entries of `scratch` and the rest as it was.
 */
#ifndef SHELF_H
#define SHELF_H

#include <stddef.h>
#include <stdint.h>

#ifdef __cplusplus
extern "C" {
#endif

/* Is this a good file? Refusals 1 to 17; of several, the first in the order of reading and of the rules. */
uint16_t shelf_check(const uint8_t *file, size_t file_len, size_t *place);

/* Is it a good file that the maker still builds, one that uses none of the gates B-NAND4, B-OR4, B-AND4 and B-NOR4?
 * Refusals 1 to 17, then 28 at the first module that uses one, whether anything reaches it or not. */
uint16_t shelf_strict_check(const uint8_t *file, size_t file_len, size_t *place);

/* Writes the file with three gates of two inputs in place of each of those four gates: one on the first two arguments and
 * one on the last two, which drive new nets, and one of the same kind on these, which drives the gate's net. New nets
 * have the lowest numbers unused in their module, occurrences in order. The strict check passes what is written, its
 * modules give the same outputs on all values, and a file that uses none of the four comes back byte for byte.
 * *written is how many bytes there are, at most 65,535.
 * Refusals 1 to 17 of the file; then of the new file 4 (more than 4,096 occurrences in a module, place 0), 16, 17 and
 * 1 (place 0), in that order, each over the whole new file before the next; then 22. */
uint16_t shelf_rewrite(const uint8_t *file, size_t file_len, uint8_t *out, size_t out_len, size_t *written,
                       size_t *place);

/* How many modules the file has, in *modules. Refusals 1 to 17. */
uint16_t shelf_modules(const uint8_t *file, size_t file_len, size_t *modules, size_t *place);

/* The number of the module at a position, counted from 0, in *number. Refusals 1 to 17, then 18 where the file has
 * no such position. */
uint16_t shelf_number_at(const uint8_t *file, size_t file_len, size_t position, uint16_t *number, size_t *place);

/* Runs the module of that number on values 0 (false), 1 (true), 2 (unknown), 3 (floats), one for each input in order.
 * The values of its outputs, in order, come in the first bytes of out; *written is how many there are. Only 0 and 1 are
 * known: what floats is unknown to every gate, and no output is 3. *work is the number of occurrences that the run
 * is, each counted every time it is reached, gate or module: the module's expanded size, whatever the values, at most
 * 65,535. The code may do less than it counts.
 * Refusals 1 to 17, then 18, 19, 20, 21, 22. */
uint16_t shelf_evaluate(const uint8_t *file, size_t file_len, uint16_t number, const uint8_t *values,
                        size_t values_len, uint32_t *scratch, size_t scratch_len, uint8_t *out, size_t out_len,
                        size_t *written, uint32_t *work, size_t *place);

/* Runs the module of that number on a block of rows at once, as many as `rows` says, at most 1,024. The rows of values
 * lie end to end in values, so that values_len is rows times the inputs, and the rows of outputs come end to end in
 * the first bytes of out, each as shelf_evaluate gives it for its row alone; *written is how many outputs there are
 * in all, and *work the sum over the rows of the work that each is alone, at most 67,107,840, though one walk
 * serves many rows. With no rows nothing is written to out, *work is 0, and scratch is asked for and left as for one row.
 * It takes 64 bytes of stack for each of 256, 1,024, 8,192 or 65,536 entries, the fewest that the module's room fits in.
 * Refusals 1 to 17, then 18, 27, 19 where values_len is not rows times the inputs, 20 with the index in all of values,
 * 21, 22 where out is shorter than all rows of outputs. */
uint16_t shelf_evaluate_rows(const uint8_t *file, size_t file_len, uint16_t number, size_t rows,
                             const uint8_t *values, size_t values_len, uint32_t *scratch, size_t scratch_len,
                             uint8_t *out, size_t out_len, size_t *written, uint32_t *work, size_t *place);

/* Counts the module of that number. family: the delays of a chip family's gates, in gate order. figures: inputs,
 * outputs, gates, expanded size, room, unit delay, largest load, delay by the family, which is at most 255 times the
 * gates. tally: how many gates of each kind, in gate order; their sum is the gates. Refusals 1 to 17, then 18, 21. */
uint16_t shelf_count(const uint8_t *file, size_t file_len, uint16_t number, const uint8_t family[16],
                     uint32_t *scratch, size_t scratch_len, uint32_t figures[8], uint32_t tally[16], size_t *place);

/* Writes a file of one module of that number, gates only, that gives the same outputs on all values. The file comes
 * in the first *written bytes of out, at most 53,641. Refusals 1 to 17, then 18, 24, 21, 22. */
uint16_t shelf_flatten(const uint8_t *file, size_t file_len, uint16_t number, uint32_t *scratch, size_t scratch_len,
                       uint8_t *out, size_t out_len, size_t *written, size_t *place);

/* A group's file before the house's. *which gets 1 where the answer or the refusal is about the group's file, 2 where it
 * is about the house's, 0 where it is about neither; it is written with a refusal too. Both files may be the same
 * memory, since they are only read.
 *
 * Looks a module up: in the group's file if that has the number, otherwise in the house's; where a file holds a number
 * twice the first is meant. The module's bytes, from its number to its last occurrence, are the *length bytes from
 * *start on of the file that *which names. Each file needs only to read, and numbers under 16 can be looked up too.
 * Refusals 1 to 5 of the group's file, then of the house's, then 18 with *which 0. */
uint16_t shelf_look_up(const uint8_t *group, size_t group_len, const uint8_t *house, size_t house_len,
                       uint16_t number, uint16_t *which, size_t *start, size_t *length, size_t *place);

/* Joins both into one file: the group's modules in order, then the house's whose numbers the group lacks, in order. A
 * module of the house that refers to a number which the group's file has too finds it in front of itself: that is 13.
 * Refusals 1 to 5 of the group's file, then of the house's; then, with *which 0 and of the joined file, 4 if it has over
 * 128 modules and 1 if it has over 65,535 bytes, both at 0, 6 to 17, and 22. */
uint16_t shelf_join(const uint8_t *group, size_t group_len, const uint8_t *house, size_t house_len, uint8_t *out,
                    size_t out_len, uint16_t *which, size_t *written, size_t *place);

/* What a listing has at most: 8 bytes for each of the file's and 4,654 more, so this for any file. */
#define SHELF_NDL_MOST 528934

/* Writes the file as a listing for a board maker, in the Network Description Language; docs/NDL.md has the text. names are
 * those of the sixteen gates in order, 8 bytes each: 1 to 8 capitals or digits, then spaces; all different, and none an M and
 * one or more digits. The text comes in the first *written bytes of out, at most 8 * file_len + 4,654. A shorter out
 * that the text fits in serves too. It takes about a megabyte of stack. Refusals 1 to 17, then 29, 22. */
uint16_t shelf_write_ndl(const uint8_t *file, size_t file_len, const uint8_t *names, size_t names_len, uint8_t *out,
                         size_t out_len, size_t *written, size_t *place);

/* Makes a file from a text in the published list form (docs/LISTS.md says what such a text is). Nets are numbered in order of
 * first appearance in their module, modules from 16 in order of first mention, gates by their names. The file comes in
 * the first *written bytes of out, at most 65,535, and the check accepts it. Refusals: 33 text over 262,144 bytes, at 0; then 25 at
 * the first byte at which no list of modules goes on, or at the text's length if it only lacks an end, and 26 at the first
 * atom or bracket that is over a ceiling, whichever of the two comes first; then 1 at 0, 6 to 17 of the file, and 22.
 * A text of over 2,048 bytes takes some 6 megabytes of stack while it is read. */
uint16_t shelf_read_text(const uint8_t *text, size_t text_len, uint8_t *out, size_t out_len, size_t *written,
                         size_t *place);

/* What a printed text has at most: 6 bytes for each of the file's, so this for any file. */
#define SHELF_TEXT_MOST 393210

/* Prints the file as a text in the published list form: modules in file order as M and their number, nets as N and theirs, gates by
 * their names, an occurrence a line; docs/LISTS.md shows it. The text comes in the first *written bytes of out, at most
 * 6 * file_len. A shorter out that the text fits in serves too. shelf_read_text makes of it a file that differs from this one in
 * its numbers only, wherever the text has at most 262,144 bytes and that file at most 65,535; both hold for a file of up to 32,767
 * bytes. It takes about a megabyte of stack. Refusals 1 to 17, then 22. */
uint16_t shelf_print_text(const uint8_t *file, size_t file_len, uint8_t *out, size_t out_len, size_t *written,
                          size_t *place);

/* Writes the file of the ripple adder of that width: module 18, inputs carry, a, b, outputs sum, carry, low bits
 * first. The file comes in the first *written bytes of out, at most 1,019. Refusals 23, 22. */
uint16_t shelf_adder(size_t width, uint8_t *out, size_t out_len, size_t *written, size_t *place);

/* Writes the file of the propagate-generate adder of that width: module 40, which gives on all values what module 18
 * of the ripple adder gives, with a delay of at most 12 instead of 129 at 64. The file comes in the first *written
 * bytes of out, at most 86 * width + 132 (3,746 at 64). Refusals 23, 22. */
uint16_t shelf_fast_adder(size_t width, uint8_t *out, size_t out_len, size_t *written, size_t *place);

/* Writes the file of the arithmetic unit of that width: module 48. Inputs: the carry, the bits of a, those of b, four
 * bits of the operation, all low first; outputs: carry, overflow, the bits of the result. docs/ALU.md has the sixteen
 * operations. The file comes in the first *written bytes of out, at most 100 * width + 720. Refusals 23, 22. */
uint16_t shelf_alu(size_t width, uint8_t *out, size_t out_len, size_t *written, size_t *place);

/* Writes the file of the leading-zero counter of that width: module 32, low bits first. The file comes in the first
 * *written bytes of out. Refusals 23, 22. */
uint16_t shelf_counter(size_t width, uint8_t *out, size_t out_len, size_t *written, size_t *place);

#ifdef __cplusplus
}
#endif

#endif
