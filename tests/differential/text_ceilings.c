/* See text_ceilings.h. At the ceiling they are good, but for three: so many nets or names are more than a file may have,
 * and an atom that was lengthened is another. */
#include "text_ceilings.h"

#include "make.h"
#include "random.h"
#include "text_damage.h"

enum {
    MOST_MODULES = 128,
    LIST = 192,
    MOST_RUNS = 4096,
    MOST_NETS = 16384,
    MOST_NAMES = 16368,
    MOST_TEXT = 262144,
    MOST_FILE = 65535,
    MOST_ATOM = 32
};

enum { BUF = 0, NOT = 1, EMPTY = 16 };

const char *const text_ceiling_names[TEXT_CEILINGS] = {"atom",      "modules",     "inputs", "outputs", "driven nets",
                                                       "arguments", "occurrences", "nets",   "names",   "bytes",
                                                       "bytes of the file"};

int number_past(enum text_ceiling ceiling)
{
    return ceiling == TEXT_BYTES ? 33 : ceiling == FILE_BYTES ? 1 : 26;
}

static void a_few_gates(struct draft *draft)
{
    int gates = between(1, 6);

    draft_start(draft, 1);
    add_nets(&draft->modules[0].inputs, 0, 2);
    for (int i = 0; i < gates; i++)
        add_gate(&draft->modules[0], between(BUF, NOT), 2 + i, below(2 + i), 0);
    add_net(&draft->modules[0].outputs, 1 + gates);
}

static void many_modules(struct draft *draft, int modules)
{
    draft_start(draft, modules);
    for (int i = 0; i < modules; i++)
        add_nets(&draft->modules[i].inputs, 0, below(3));
}

/* A module with so many inputs and outputs, which a module in front of it takes and drives. */
static void long_lists(struct draft *draft, int inputs, int outputs, int driven, int arguments)
{
    struct draft_module *outer = &draft->modules[0], *inner = &draft->modules[1];
    struct draft_occurrence *call;

    draft_start(draft, 2);
    add_nets(&outer->inputs, 0, 2);
    call = add_occurrence(outer, inner->number);
    add_nets(&call->drives, 2, driven);
    for (int i = 0; i < arguments; i++)
        add_net(&call->takes, below(2));
    add_nets(&inner->inputs, 0, inputs);
    for (int i = 0; i < outputs; i++)
        add_gate(inner, NOT, 300 + i, below(inputs), 0);
    add_nets(&inner->outputs, 300, outputs);
}

/* A module that refers so many times to an empty one. */
static void refer(struct draft_module *module, int times)
{
    for (int i = 0; i < times; i++)
        add_occurrence(module, EMPTY);
}

static void many_occurrences(struct draft *draft, int occurrences)
{
    draft_start(draft, 2);
    draft->modules[0].number = 17;
    draft->modules[1].number = EMPTY;
    refer(&draft->modules[0], occurrences);
}

/* Driven 192 at a time. */
static void many_nets(struct draft *draft, int nets)
{
    struct draft_module *outer = &draft->modules[0], *wide = &draft->modules[1];
    int next = 1;

    draft_start(draft, 2);
    add_net(&outer->inputs, 0);
    while (next < nets) {
        int driven = nets - next >= LIST ? LIST : 1;
        struct draft_occurrence *call = add_occurrence(outer, driven == LIST ? wide->number : BUF);

        add_nets(&call->drives, next, driven);
        add_net(&call->takes, below(next));
        next += driven;
    }
    add_net(&wide->inputs, 0);
    for (int i = 0; i < LIST; i++)
        add_gate(wide, NOT, 1 + i, i, 0);
    add_nets(&wide->outputs, 1, LIST);
}

/* Modules of 4,096 occurrences, each with a name that is mentioned once. */
static void many_names(struct draft *draft, int names)
{
    int modules = (names + MOST_RUNS) / (MOST_RUNS + 1), next = EMPTY + modules;

    draft_start(draft, modules);
    for (int m = 0; m < modules; m++)
        for (int i = 0; i < MOST_RUNS && next < EMPTY + names; i++)
            add_occurrence(&draft->modules[m], next++);
}

/* A module has 5 bytes, one for each input, and three for each reference to the empty one; this has four. */
static void large_file(struct draft *draft, int length)
{
    enum { FULL = 5, OWN = 5, RUN = 3 };
    int left = length - 1 - 4 - FULL * (OWN + RUN * MOST_RUNS) - OWN;

    draft_start(draft, FULL + 2);
    for (int i = 0; i <= FULL; i++)
        draft->modules[i].number = 20 + i;
    draft->modules[FULL + 1].number = EMPTY;
    for (int i = 0; i < FULL; i++)
        refer(&draft->modules[i], MOST_RUNS);
    add_nets(&draft->modules[FULL].inputs, 0, left % RUN);
    refer(&draft->modules[FULL], left / RUN);
}

static void draft_at(enum text_ceiling ceiling, int over, struct draft *draft)
{
    switch (ceiling) {
    case MODULES_IN_TEXT:
        many_modules(draft, MOST_MODULES + over);
        break;
    case INPUTS:
        long_lists(draft, LIST + over, 3, 3, LIST);
        break;
    case OUTPUTS:
        long_lists(draft, 3, LIST + over, LIST, 3);
        break;
    case DRIVEN:
        long_lists(draft, 3, LIST, LIST + over, 3);
        break;
    case ARGUMENTS:
        long_lists(draft, LIST, 3, 3, LIST + over);
        break;
    case OCCURRENCES:
        many_occurrences(draft, MOST_RUNS + over);
        break;
    case NETS:
        many_nets(draft, MOST_NETS + over);
        break;
    case NAMES:
        many_names(draft, MOST_NAMES + over);
        break;
    case FILE_BYTES:
        large_file(draft, MOST_FILE + over);
        break;
    default:
        a_few_gates(draft);
    }
}

void make_text_at(enum text_ceiling ceiling, int over, struct draft *draft, struct text *to)
{
    int large = ceiling == OCCURRENCES || ceiling == NETS || ceiling == NAMES || ceiling == FILE_BYTES;

    draft_at(ceiling, over, draft);
    spell(draft, large ? TERSE_HAND : ANY_HAND, to);
    if (ceiling == ATOM)
        lengthen_atom(to, (size_t)(MOST_ATOM + over));
    if (ceiling == TEXT_BYTES)
        pad_with_blanks(to, (size_t)(MOST_TEXT + over));
}
