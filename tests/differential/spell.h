/* Drafts as texts in the list form: names, letters of either case, blanks and the quote mark at random. */
#ifndef SPELL_H
#define SPELL_H

#include "draft.h"

/* A longer text is cut: it is refused for its length anyway. */
enum { TEXT_ROOM = 400000 };

struct text {
    size_t length;
    uint8_t byte[TEXT_ROOM];
};

/* Anything that the form allows; or short names, and blanks only where they must be. */
enum hand { ANY_HAND, TERSE_HAND };

void spell(const struct draft *draft, enum hand hand, struct text *to);

/* Bytes for any text. */
void put_sign(struct text *to, int sign);
int is_of_atoms(int byte);

#endif
