/* The sixteen gates: their names, how many arguments, and the value on 0 to 3 by trying all fillings of the places that are not
 * known, which are those of 2 and of 3. */
#include "plain.h"

static const int arities[KINDS] = {1, 1, 2, 3, 4, 2, 3, 4, 2, 2, 2, 3, 4, 2, 3, 4};

static const char *const names[KINDS] = {"B-BUF", "B-NOT", "B-NAND", "B-NAND3", "B-NAND4", "B-OR",  "B-OR3",  "B-OR4",
                                         "B-EQV", "B-XOR", "B-AND",  "B-AND3",  "B-AND4",  "B-NOR", "B-NOR3", "B-NOR4"};

int plain_arity(int kind)
{
    return arities[kind];
}

const char *plain_gate_name(int kind)
{
    return names[kind];
}

/* The Boolean function of the gate's name. */
static int boolean(int kind, const int *bits)
{
    int all = 1, any = 0;

    for (int i = 0; i < arities[kind]; i++) {
        all = all && bits[i];
        any = any || bits[i];
    }
    switch (kind) {
    case 0: /* B-BUF */
        return bits[0];
    case 1: /* B-NOT */
        return !bits[0];
    case 2: /* B-NAND */
    case 3:
    case 4:
        return !all;
    case 5: /* B-OR */
    case 6:
    case 7:
        return any;
    case 8: /* B-EQV */
        return bits[0] == bits[1];
    case 9: /* B-XOR */
        return bits[0] != bits[1];
    case 10: /* B-AND */
    case 11:
    case 12:
        return all;
    default: /* B-NOR */
        return !any;
    }
}

/* Bit i of `filling` is what stands at place i; a filling fits if it agrees with every known value. */
static int fits(int arity, int filling, const uint8_t *values)
{
    for (int i = 0; i < arity; i++)
        if (values[i] < 2 && values[i] != (filling >> i & 1))
            return 0;
    return 1;
}

int plain_gate(int kind, const uint8_t *values)
{
    int arity = arities[kind], may_be_false = 0, may_be_true = 0;

    for (int filling = 0; filling < 1 << arity; filling++) {
        int bits[4];

        if (!fits(arity, filling, values))
            continue;
        for (int i = 0; i < arity; i++)
            bits[i] = filling >> i & 1;
        if (boolean(kind, bits))
            may_be_true = 1;
        else
            may_be_false = 1;
    }
    if (may_be_true && may_be_false)
        return 2;
    return may_be_true;
}
