/* Running a module on values of any kind: bits with unknowns, arrivals, or the net numbers of a flattened file.
 *
 * A module refers only to later ones, so one table of values for each position is enough. */
#include "plain.h"

uint32_t plain_reached;

static uint32_t value_of[MOST_MODULES][NET_NUMBERS];

void plain_run(const struct file *file, int position, const uint32_t *inputs, uint32_t *outputs, gate_rule *gate,
               void *state)
{
    const struct module *module = &file->modules[position];
    uint32_t *value = value_of[position];

    for (int i = 0; i < module->inputs.count; i++)
        value[module->inputs.net[i]] = inputs[i];
    for (int o = 0; o < module->count; o++) {
        const struct occurrence *occurrence = &module->occurrences[o];
        uint32_t arguments[MOST_IN_LIST], results[MOST_IN_LIST];

        plain_reached++;
        for (int i = 0; i < occurrence->takes.count; i++)
            arguments[i] = value[occurrence->takes.net[i]];
        if (occurrence->refers < KINDS)
            results[0] = gate(state, occurrence->refers, arguments);
        else
            plain_run(file, plain_nearest_later(file, position, occurrence->refers), arguments, results, gate, state);
        for (int i = 0; i < occurrence->drives.count; i++)
            value[occurrence->drives.net[i]] = results[i];
    }
    for (int i = 0; i < module->outputs.count; i++)
        outputs[i] = value[module->outputs.net[i]];
}
