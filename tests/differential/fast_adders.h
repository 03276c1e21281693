/* Written fast adders, judged by what they do. */
#ifndef FAST_ADDERS_H
#define FAST_ADDERS_H

/* Has every width written once; the plain reading counts it and runs it against binary sums, and against the ripple
 * adder on values of which some are unknown. */
void judge_fast_adders(void);

#endif
