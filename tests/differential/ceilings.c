/* Files at a ceiling, or one past it: bytes, modules, entries of a list, occurrences, nets, expanded size, the nets of
 * a flattened module, and the same of a rewritten file. */
#include "make.h"

#include "random.h"

enum { BUF = 0, EMPTY = 16 };

/* An empty module without nets, the last of the file. */
static void end_with_empty(struct draft *draft)
{
    draft->modules[draft->count - 1].number = EMPTY;
}

static void refer(struct draft_module *module, int number, int times)
{
    for (int i = 0; i < times; i++)
        add_occurrence(module, number);
}

/* Each module refers twice to the next, the first also `more` times to the empty one: size 65,534 + more. */
static void doubled(struct draft *draft, int more)
{
    int doubles = 15;

    draft_start(draft, doubles + 1);
    for (int i = 0; i < doubles; i++)
        draft->modules[i].number = 100 + i;
    end_with_empty(draft);
    for (int i = 0; i < doubles; i++) {
        refer(&draft->modules[i], i + 1 < doubles ? 101 + i : EMPTY, 2);
        if (i == 0)
            refer(&draft->modules[0], EMPTY, more);
    }
}

/* Far past the ceiling: sizes double to the end. */
static void doubled_on(struct draft *draft)
{
    draft_start(draft, 128);
    for (int i = 0; i < 127; i++)
        refer(&draft->modules[i], 17 + i, percent(10) ? 3 : 2);
}

/* 255 times a module of 256 buffers is 65,535; 256 times one of 255 is 65,536. */
static void product(struct draft *draft, int over)
{
    int gates = over ? 255 : 256, times = over ? 256 : 255;
    struct draft_module *outer = &draft->modules[0], *inner = &draft->modules[1];

    draft_start(draft, 2);
    add_net(&inner->inputs, 0);
    for (int i = 0; i < gates; i++)
        add_gate(inner, BUF, i + 1, i, 0);
    add_net(&inner->outputs, gates);
    add_net(&outer->inputs, 0);
    for (int i = 0; i < times; i++) {
        struct draft_occurrence *occurrence = add_occurrence(outer, inner->number);

        add_net(&occurrence->drives, i + 1);
        add_net(&occurrence->takes, i);
    }
    add_net(&outer->outputs, times);
}

/* A module of `nets` nets by gates of all kinds; its flattening is as large. */
static void many_gates(struct draft *draft, int nets)
{
    static const int kinds[] = {0, 1, 2, 5, 8, 9, 10, 13};
    struct draft_module *module = &draft->modules[0];
    int inputs = between(1, 100);

    draft_start(draft, 1);
    add_nets(&module->inputs, 0, inputs);
    for (int i = inputs; i < nets; i++)
        add_gate(module, kinds[below(8)], i, below(i), below(i));
    add_nets(&module->outputs, nets - 50, 50);
}

/* A module whose nets are driven 192 at a time by one with as many outputs. */
static void many_driven(struct draft *draft, int nets)
{
    struct draft_module *outer = &draft->modules[0], *wide = &draft->modules[1];
    int next = 1;

    draft_start(draft, 2);
    for (int i = 0; i < 192; i++)
        add_gate(wide, i % 2, 200 + i, 9, 0);
    add_net(&wide->inputs, 9);
    add_nets(&wide->outputs, 200, 192);
    add_net(&outer->inputs, 0);
    while (next < nets) {
        struct draft_occurrence *occurrence = add_occurrence(outer, nets - next >= 192 ? wide->number : 0);
        int driven = nets - next >= 192 ? 192 : 1;

        add_nets(&occurrence->drives, next, driven);
        add_net(&occurrence->takes, below(next));
        next += driven;
    }
    add_nets(&outer->outputs, nets - 192, 192);
}

/* Every kind of list with `entries` entries. */
static void long_lists(struct draft *draft, int entries)
{
    struct draft_module *outer = &draft->modules[0], *inner = &draft->modules[1];
    struct draft_occurrence *occurrence;

    draft_start(draft, 2);
    add_nets(&inner->inputs, 0, percent(50) ? 192 : entries);
    for (int i = 0; i < entries; i++)
        add_gate(inner, 1, 500 + i, i % inner->inputs.count, 0);
    add_nets(&inner->outputs, 500, percent(50) ? 192 : entries);
    add_nets(&outer->inputs, 1000, percent(50) ? 192 : entries);
    occurrence = add_occurrence(outer, inner->number);
    add_nets(&occurrence->drives, 0, inner->outputs.count);
    for (int i = 0; i < inner->inputs.count; i++)
        add_net(&occurrence->takes, 1000 + below(192));
    add_nets(&outer->outputs, 0, inner->outputs.count);
}

static void many_occurrences(struct draft *draft, int occurrences)
{
    draft_start(draft, 2);
    draft->modules[0].number = 17;
    end_with_empty(draft);
    refer(&draft->modules[0], EMPTY, occurrences);
}

static const int four_kinds[] = {4, 7, 12, 15};

/* A gate of four inputs on nets below `drives`. */
static void add_four(struct draft_module *module, int drives)
{
    struct draft_occurrence *occurrence = add_occurrence(module, four_kinds[below(4)]);

    add_net(&occurrence->drives, drives);
    for (int i = 0; i < 4; i++)
        add_net(&occurrence->takes, below(drives));
}

/* Rewritten, the module has `gates` gates: three for each of four inputs. With its inputs they are its nets. */
static void many_when_rewritten(struct draft *draft, int inputs, int gates)
{
    struct draft_module *module = &draft->modules[0];
    int fours = between(1, gates / 3), next = inputs;

    draft_start(draft, 1);
    add_nets(&module->inputs, 0, inputs);
    for (int i = 0; i < fours; i++)
        add_four(module, next++);
    for (int i = 3 * fours; i < gates; i++, next++)
        add_gate(module, BUF, next, below(next), 0);
    add_net(&module->outputs, next - 1);
}

/* 771 times a module of 28 gates of four inputs: 65,535 when they are rewritten, and `more`. */
static void large_when_rewritten(struct draft *draft, int more)
{
    struct draft_module *outer = &draft->modules[0], *inner = &draft->modules[1];

    draft_start(draft, 2);
    add_nets(&inner->inputs, 0, 4);
    for (int i = 0; i < 28; i++)
        add_four(inner, 4 + i);
    add_net(&inner->outputs, 31);
    add_nets(&outer->inputs, 0, 4);
    for (int i = 0; i < 771; i++) {
        struct draft_occurrence *occurrence = add_occurrence(outer, inner->number);

        add_net(&occurrence->drives, 4 + i);
        for (int j = 0; j < 4; j++)
            add_net(&occurrence->takes, below(4 + i));
    }
    for (int i = 0; i < more; i++)
        add_gate(outer, BUF, 775 + i, i, 0);
    add_net(&outer->outputs, 774);
}

/* At a ceiling that only the rewritten file meets: occurrences, nets, expanded size, bytes. */
static void at_ceiling_when_rewritten(struct draft *draft, int over)
{
    int inputs = between(1, 100);

    switch (below(4)) {
    case 0:
        many_when_rewritten(draft, inputs, 4096 + over);
        break;
    case 1:
        many_when_rewritten(draft, inputs, 4096 - inputs + over);
        break;
    case 2:
        large_when_rewritten(draft, over);
        break;
    default:
        many_when_rewritten(draft, inputs, between(30, 300));
        pad_to(draft, 65535 - between(0, 3000));
    }
}

/* A chain of modules that each have a gate or two and refer to the next. */
static void many_modules(struct draft *draft, int modules)
{
    draft_start(draft, modules);
    for (int i = 0; i < modules; i++) {
        struct draft_module *module = &draft->modules[i];

        add_nets(&module->inputs, 0, 2);
        add_gate(module, 9, 2, 0, 1);
        if (i + 1 < modules) {
            struct draft_occurrence *occurrence = add_occurrence(module, module->number + 1);

            add_net(&occurrence->drives, 3);
            add_nets(&occurrence->takes, 1, 2);
        } else {
            add_gate(module, 10, 3, 1, 2);
        }
        add_net(&module->outputs, 3);
    }
}

/* Inputs plus gates reached are `nets`, though the module itself has few: only flattening is at its ceiling. */
static void wide_when_flat(struct draft *draft, int nets)
{
    struct draft_module *outer = &draft->modules[0], *inner = &draft->modules[1];
    int inputs = between(1, 192), next = inputs, gates = nets - inputs;

    draft_start(draft, 2);
    add_net(&inner->inputs, 0);
    for (int i = 0; i < 64; i++)
        add_gate(inner, 2, i + 1, i, below(i + 1));
    add_net(&inner->outputs, 64);
    add_nets(&outer->inputs, 0, inputs);
    while (gates > 0) {
        int refers = gates >= 64 ? inner->number : 1;
        struct draft_occurrence *occurrence = add_occurrence(outer, refers);

        add_net(&occurrence->drives, next);
        add_net(&occurrence->takes, below(next));
        gates -= gates >= 64 ? 64 : 1;
        next++;
    }
    add_net(&outer->outputs, next - 1);
}

/* A chain in which every frame has 128 nets of one byte: the room is the sum. */
static void much_room(struct draft *draft)
{
    int modules = between(20, 128);

    draft_start(draft, modules);
    for (int i = 0; i < modules; i++) {
        struct draft_module *module = &draft->modules[i];

        add_nets(&module->inputs, 0, 127);
        if (i + 1 < modules) {
            struct draft_occurrence *occurrence = add_occurrence(module, module->number + 1);

            add_net(&occurrence->drives, 127);
            add_nets(&occurrence->takes, 0, 127);
        } else {
            add_gate(module, 9, 127, 0, 126);
        }
        add_net(&module->outputs, 127);
    }
}

static int length_of_number(int number)
{
    return number < 128 ? 1 : 2;
}

static int draft_length(const struct draft *draft)
{
    static struct encoded bytes;

    encode(draft, &bytes);
    return (int)bytes.length;
}

/* The free numbers for padding: above all that the drafts of this file use, and rare among random ones. */
enum { PAD_NUMBER = 16000 };

/* Makes room in front for one more module. */
static struct draft_module *push_front(struct draft *draft)
{
    static const struct draft_module none;

    for (int i = draft->count; i > 0; i--)
        draft->modules[i] = draft->modules[i - 1];
    draft->count++;
    draft->modules[0] = none;
    draft->modules[0].number = PAD_NUMBER + draft->count;
    return &draft->modules[0];
}

/* A padding module has one-byte inputs and 3-byte references to an empty module numbered 127, which is put last. */
void pad_to(struct draft *draft, int length)
{
    enum { FILLER = 127, LEAST = 6, MOST = 12000 };
    int missing;

    if (draft->count > 110)
        return;
    for (int i = 0; i < draft->count; i++)
        if (draft->modules[i].number == FILLER || draft->modules[i].number >= PAD_NUMBER)
            return;
    draft->modules[draft->count] = (struct draft_module){.number = FILLER};
    draft->count++;
    missing = length - draft_length(draft);
    while (missing >= LEAST + 2) {
        int here = missing > MOST ? MOST - 3 * below(100) : missing;
        int references, inputs;
        struct draft_module *module;

        if (missing - here > 0 && missing - here < 3 * LEAST)
            here -= 3 * LEAST;
        references = (here - LEAST) / 3;
        inputs = here - LEAST - 3 * references;
        if (length_of_number(references) == 1)
            inputs++;
        module = push_front(draft);
        add_nets(&module->inputs, 0, inputs);
        refer(module, FILLER, references);
        missing = length - draft_length(draft);
    }
}

void make_at_ceiling(struct draft *draft)
{
    int over = percent(50);

    switch (below(14)) {
    case 0:
        doubled(draft, 1 + over);
        break;
    case 1:
        doubled_on(draft);
        break;
    case 2:
        product(draft, over);
        break;
    case 3:
        many_gates(draft, 4096 + over);
        break;
    case 4:
        many_driven(draft, percent(50) ? 4096 + over : between(4097, 16384));
        break;
    case 5:
        long_lists(draft, 192 + over);
        break;
    case 6:
        many_occurrences(draft, 4096 + over);
        break;
    case 7:
        many_modules(draft, 128 + over);
        break;
    case 8:
        wide_when_flat(draft, 4096 + over);
        break;
    case 9:
        much_room(draft);
        break;
    case 10:
    case 11:
        at_ceiling_when_rewritten(draft, over);
        break;
    default:
        if (percent(50))
            make_random(draft);
        else
            make_large(draft);
        pad_to(draft, 65535 + over);
    }
}
