/* Random good files. Modules are made from the last to the first, so that a reference can go to any later one. */
#include "make.h"

#include "random.h"

enum { NUMBERS = 16384, MOST_SIZE = 65535, MOST_NETS = 4096, MOST_IN_LIST = 192 };

/* Upper bounds for what is drawn, and the percentage of occurrences that refer to modules. */
struct shape {
    int modules, inputs, outputs, occurrences, references;
};

static const struct shape small_shapes[] = {
    {1, 5, 4, 12, 0},    /* gates only */
    {4, 4, 4, 6, 50},    /* a small hierarchy */
    {12, 3, 3, 4, 80},   /* deeper */
    {30, 2, 2, 2, 90},   /* deeper still, and nearly empty */
    {6, 0, 3, 4, 100},   /* no inputs, so nothing driven */
    {3, 40, 30, 20, 60}, /* wide */
    {5, 6, 0, 6, 60},    /* no outputs */
};

static const struct shape large_shapes[] = {
    {1, 60, 60, 1500, 0}, {128, 3, 3, 3, 80}, {128, 2, 1, 4, 60},   {5, 192, 192, 30, 80},
    {20, 20, 20, 60, 50}, {3, 4, 3, 600, 70}, {60, 1, 1, 20, 90}, {128, 0, 0, 12, 100},
};

static const int arities[16] = {1, 1, 2, 3, 4, 2, 3, 4, 2, 2, 2, 3, 4, 2, 3, 4};

/* The module at hand: the nets that may be used, and how the next ones are numbered. */
static int known[NUMBERS], known_count;
static uint8_t taken[NUMBERS];
static int numbering, next_number;

/* Over the file: modules made so far, their sizes, and numbers written. */
static int sizes[DRAFT_MODULES], written;

static void start_nets(void)
{
    for (int i = 0; i < known_count; i++)
        taken[known[i]] = 0;
    known_count = 0;
    numbering = below(4);
    next_number = numbering == 3 ? NUMBERS - 1 : below(3);
}

/* A net that the module does not have yet: in order, in order with gaps, anywhere, or from the top down. */
static int fresh_net(void)
{
    int net = next_number;

    if (numbering == 2)
        do
            net = known_count < 200 && percent(70) ? below(300) : below(NUMBERS);
        while (taken[net]);
    if (numbering == 3)
        next_number--;
    else if (numbering != 2)
        next_number += numbering == 0 ? 1 : between(1, 3);
    taken[net] = 1;
    known[known_count++] = net;
    written++;
    return net;
}

static int old_net(int count)
{
    written++;
    if (count > 6 && percent(50))
        return known[between(count - 6, count - 1)];
    return known[below(count)];
}

static int number_is_free(const struct draft *draft, int position, int number)
{
    for (int i = position + 1; i < draft->count; i++)
        if (draft->modules[i].number == number)
            return 0;
    return 1;
}

static int fresh_module_number(const struct draft *draft, int position)
{
    int number;

    do
        number = percent(50) ? between(16, 160) : between(16, NUMBERS - 1);
    while (!number_is_free(draft, position, number));
    return number;
}

static void add_random_gate(struct draft_module *module, int kind)
{
    struct draft_occurrence *occurrence = add_occurrence(module, kind);
    int before = known_count;

    add_net(&occurrence->drives, fresh_net());
    for (int i = 0; i < arities[kind]; i++)
        add_net(&occurrence->takes, old_net(before));
}

static void add_reference(struct draft_module *module, const struct draft_module *to)
{
    struct draft_occurrence *occurrence = add_occurrence(module, to->number);
    int before = known_count;

    for (int i = 0; i < to->outputs.count; i++)
        add_net(&occurrence->drives, fresh_net());
    for (int i = 0; i < to->inputs.count; i++)
        add_net(&occurrence->takes, old_net(before));
}

/* The later module to refer to: often the next, so that hierarchies get deep. */
static int later_position(const struct draft *draft, int position)
{
    return percent(50) ? position + 1 : between(position + 1, draft->count - 1);
}

static void add_random_occurrence(struct draft *draft, int position, const struct shape *shape)
{
    struct draft_module *module = &draft->modules[position];

    if (position + 1 < draft->count && percent(shape->references)) {
        int later = later_position(draft, position);
        const struct draft_module *to = &draft->modules[later];

        if ((known_count > 0 || to->inputs.count == 0) && known_count + to->outputs.count <= MOST_NETS &&
            sizes[position] + 1 + sizes[later] <= MOST_SIZE) {
            add_reference(module, to);
            sizes[position] += 1 + sizes[later];
        }
    } else if (known_count > 0 && known_count < MOST_NETS && sizes[position] < MOST_SIZE) {
        add_random_gate(module, below(16));
        sizes[position]++;
    }
}

/* Some of the driven nets, each once, in any order. */
static void choose_outputs(struct draft_module *module, int most)
{
    int *driven = known + module->inputs.count, count = known_count - module->inputs.count;
    int wanted = below(most + 1);

    if (wanted > MOST_IN_LIST)
        wanted = MOST_IN_LIST;
    for (int i = 0; i < wanted && i < count; i++) {
        int j = between(i, count - 1), net = driven[j];

        driven[j] = driven[i];
        driven[i] = net;
        add_net(&module->outputs, net);
    }
}

static void make_module(struct draft *draft, int position, const struct shape *shape)
{
    struct draft_module *module = &draft->modules[position];
    int inputs = below(shape->inputs + 1), occurrences = below(shape->occurrences + 1);

    start_nets();
    sizes[position] = 0;
    module->number = fresh_module_number(draft, position);
    for (int i = 0; i < inputs; i++)
        add_net(&module->inputs, fresh_net());
    for (int i = 0; i < occurrences && written < 20000; i++)
        add_random_occurrence(draft, position, shape);
    choose_outputs(module, shape->outputs);
}

static void make_shape(struct draft *draft, const struct shape *shape, int modules)
{
    written = 0;
    draft_start(draft, modules);
    for (int i = modules - 1; i >= 0; i--)
        make_module(draft, i, shape);
}

void make_random(struct draft *draft)
{
    const struct shape *shape = &small_shapes[below(sizeof small_shapes / sizeof *small_shapes)];

    make_shape(draft, shape, percent(2) ? 0 : between(1, shape->modules));
}

void make_large(struct draft *draft)
{
    const struct shape *shape = &large_shapes[below(sizeof large_shapes / sizeof *large_shapes)];

    make_shape(draft, shape, shape->modules);
}
