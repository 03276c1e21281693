/* Ways to spoil a good file: one for each rule, on the draft or on its bytes, and blind ones on the bytes. */
#ifndef DAMAGE_H
#define DAMAGE_H

#include "draft.h"

/* Breaks one of rules 6 to 15 somewhere, if the draft has a place for it. Rules 16 and 17 are broken at ceilings. */
void break_rule(struct draft *draft, int rule);

/* Breaks one of rules 2 to 5. */
void break_reading(struct encoded *file, int rule);

/* Bytes flipped, cut out, put in, doubled. */
void damage_blindly(struct encoded *file);

/* Short files of bytes that mean something. */
void make_noise(struct encoded *file);

#endif
