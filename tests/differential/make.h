/* Drafts of good files: at random in many shapes, and at or one past each ceiling. */
#ifndef MAKE_H
#define MAKE_H

#include "draft.h"

void make_random(struct draft *draft);        /* small, any shape */
void make_large(struct draft *draft);         /* the same with more of everything */
void make_at_ceiling(struct draft *draft);    /* at a ceiling, or one past it */
void pad_to(struct draft *draft, int length); /* unreached modules in front, so that the file has that length */

#endif
