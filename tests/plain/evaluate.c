/* Evaluation: refusals 18 to 22 in order, then the values of the outputs and how many occurrences were run. Only an answer
 * touches what was lent. */
#include "plain.h"

#include <string.h>

static uint32_t value_at_gate(void *state, int kind, const uint32_t *arguments)
{
    uint8_t values[4];

    (void)state;
    for (int i = 0; i < plain_arity(kind); i++)
        values[i] = (uint8_t)arguments[i];
    return (uint32_t)plain_gate(kind, values);
}

void plain_outputs(const struct file *file, int position, const uint8_t *values, uint8_t *outputs)
{
    const struct module *module = &file->modules[position];
    uint32_t given[MOST_IN_LIST], made[MOST_IN_LIST];

    for (int i = 0; i < module->inputs.count; i++)
        given[i] = values[i];
    plain_run(file, position, given, made, value_at_gate, NULL);
    for (int i = 0; i < module->outputs.count; i++)
        outputs[i] = (uint8_t)made[i];
}

uint16_t plain_evaluate(const uint8_t *bytes, size_t length, uint16_t number, const uint8_t *values,
                        size_t values_len, uint32_t *scratch, size_t scratch_len, uint8_t *out, size_t out_len,
                        size_t *written, uint32_t *work, size_t *place)
{
    uint16_t refused = plain_check(bytes, length, place);
    const struct module *module;
    struct figures figures;
    int position;

    if (refused != 0)
        return refused;
    position = plain_find(&plain_file, number);
    if (position < 0)
        return plain_end(place, 18, 0);
    module = &plain_file.modules[position];
    if (values_len != (size_t)module->inputs.count)
        return plain_end(place, 19, 0);
    for (size_t i = 0; i < values_len; i++)
        if (values[i] > 3)
            return plain_end(place, 20, i);
    plain_figures(&plain_file, position, &figures);
    if (scratch_len < figures.room)
        return plain_end(place, 21, 0);
    if (out_len < (size_t)module->outputs.count)
        return plain_end(place, 22, 0);
    plain_reached = 0;
    plain_outputs(&plain_file, position, values, out);
    memset(scratch, 0, figures.room * sizeof *scratch);
    *written = (size_t)module->outputs.count;
    *work = plain_reached;
    return 0;
}
