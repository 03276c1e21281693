/* Texts at each ceiling of the list form, and one past it. */
#ifndef TEXT_CEILINGS_H
#define TEXT_CEILINGS_H

#include "spell.h"

enum text_ceiling {
    ATOM, MODULES_IN_TEXT, INPUTS, OUTPUTS, DRIVEN, ARGUMENTS, OCCURRENCES, NETS, NAMES, TEXT_BYTES, FILE_BYTES,
    TEXT_CEILINGS
};

extern const char *const text_ceiling_names[TEXT_CEILINGS];

/* The number that a text gets which is past the ceiling. */
int number_past(enum text_ceiling ceiling);

/* A text that is past the ceiling by `over`, 0 or 1. */
void make_text_at(enum text_ceiling ceiling, int over, struct draft *draft, struct text *to);

#endif
