/* Texts in the list form that are read, and files that are printed as such, ours against the plain reading's. */
#ifndef TEXTS_H
#define TEXTS_H

#include <stddef.h>
#include <stdint.h>

/* Reads a text: one of a random draft, a spoilt one, one at a ceiling, or signs without sense. */
void compare_a_text(void);

/* Prints a file, and reads the text back. */
void compare_printed(const uint8_t *file, size_t length);

/* Prints how often texts at each ceiling, and files that were read back, were met; says whether all were. */
int texts_summary(void);

#endif
