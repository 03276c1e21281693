/* Ways to spoil a text, and texts that are nearly nothing. */
#ifndef TEXT_DAMAGE_H
#define TEXT_DAMAGE_H

#include "spell.h"

/* Signs changed, put in, taken out, doubled; the end cut off; a gate misspelt; a tab; a long atom. */
void damage_text(struct text *text);

/* Short texts of signs that mean something. */
void make_text_noise(struct text *text);
int telling_sign(void);

/* Puts blanks or letters in, so that a text or one of its atoms has that length. */
void pad_with_blanks(struct text *text, size_t length);
void lengthen_atom(struct text *text, size_t length);

#endif
