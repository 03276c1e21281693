/* Gates, tally, room and largest load, worked out for every module from the last to the one that is asked for. */
#include "plain.h"

static uint32_t load_of[MOST_MODULES][NET_NUMBERS];

static uint32_t larger(uint32_t a, uint32_t b)
{
    return a > b ? a : b;
}

static uint32_t count_nets(const struct module *module)
{
    int nets = module->inputs.count;

    for (int i = 0; i < module->count; i++)
        nets += module->occurrences[i].drives.count;
    return (uint32_t)nets;
}

static void clear(struct nets nets, uint32_t *load)
{
    for (int i = 0; i < nets.count; i++)
        load[nets.net[i]] = 0;
}

static uint32_t largest(struct nets nets, const uint32_t *load)
{
    uint32_t most = 0;

    for (int i = 0; i < nets.count; i++)
        most = larger(most, load[nets.net[i]]);
    return most;
}

static void add_gate(struct figures *own, const struct occurrence *occurrence, uint32_t *load)
{
    own->gates += 1;
    own->tally[occurrence->refers] += 1;
    for (int i = 0; i < occurrence->takes.count; i++)
        load[occurrence->takes.net[i]] += 1;
}

static void add_module(struct figures *own, const struct occurrence *occurrence, uint32_t *load,
                       const struct module *inner, const struct figures *of_inner, const uint32_t *inner_load)
{
    own->gates += of_inner->gates;
    for (int kind = 0; kind < KINDS; kind++)
        own->tally[kind] += of_inner->tally[kind];
    own->load = larger(own->load, of_inner->load);
    for (int i = 0; i < occurrence->takes.count; i++)
        load[occurrence->takes.net[i]] += inner_load[inner->inputs.net[i]];
    for (int i = 0; i < occurrence->drives.count; i++)
        load[occurrence->drives.net[i]] += inner_load[inner->outputs.net[i]];
}

static void module_figures(const struct file *file, int position, struct figures *all)
{
    const struct module *module = &file->modules[position];
    struct figures own = {0, 0, 0, {0}};
    uint32_t *load = load_of[position], below = 0;

    clear(module->inputs, load);
    for (int i = 0; i < module->count; i++) {
        const struct occurrence *occurrence = &module->occurrences[i];

        clear(occurrence->drives, load);
        if (occurrence->refers < KINDS) {
            add_gate(&own, occurrence, load);
        } else {
            int inner = plain_nearest_later(file, position, occurrence->refers);

            add_module(&own, occurrence, load, &file->modules[inner], &all[inner], load_of[inner]);
            below = larger(below, all[inner].room);
        }
    }
    own.room = count_nets(module) + below;
    own.load = larger(own.load, largest(module->inputs, load));
    for (int i = 0; i < module->count; i++)
        own.load = larger(own.load, largest(module->occurrences[i].drives, load));
    all[position] = own;
}

void plain_figures(const struct file *file, int position, struct figures *figures)
{
    struct figures all[MOST_MODULES];

    for (int i = file->count - 1; i >= position; i--)
        module_figures(file, i, all);
    *figures = all[position];
}
