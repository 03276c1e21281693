/* Each call, made to the library and to the plain reading with the same things lent, and everything compared. */
#ifndef COMPARE_H
#define COMPARE_H

#include <stddef.h>
#include <stdint.h>

enum call {
    CHECK, STRICT_CHECK, REWRITE, MODULES, NUMBER_AT, EVALUATE, EVALUATE_ROWS, COUNT, FLATTEN, READ_TEXT, PRINT_TEXT,
    ADDER, FAST_ADDER, ALU, COUNTER, CALLS
};

void compare_start(uint64_t seed);
void compare_case(long number); /* named in the report of a difference */

/* All calls on a file, with random module numbers, values and lengths near the right ones. */
void compare_file(const uint8_t *bytes, size_t length);

/* All writers, with a random width and length. */
void compare_writers(void);

/* A call that makes bytes of bytes, by the library and by the plain reading, with a buffer of that length. What was made
 * stands until the next call is compared. */
typedef uint16_t making(const uint8_t *bytes, size_t length, uint8_t *out, size_t out_len, size_t *written,
                        size_t *place);
struct made {
    uint16_t number;
    size_t place;
    const uint8_t *bytes;
    size_t length;
};
struct made compare_making(enum call call, making *library, making *plainly, const uint8_t *bytes, size_t length,
                           size_t out_len);

/* The right length, one less, none, or more. */
size_t near(size_t right);

/* Prints how often each call gave each number; says whether every number that a call can give was met. */
int compare_summary(void);

/* Prints what is known of the case at hand, and ends the test. */
void report(const char *what);

#endif
