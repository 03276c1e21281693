/* Flattening: refusals 18, 24, 21, 22, then one module of the same number, its gates in the order of a run. */
#include "plain.h"

#include <string.h>

/* The gates of a flattened module, in the order in which the run reaches them. */
struct flat {
    uint32_t next;
    struct bytes gates;
};

static uint32_t net_at_gate(void *state, int kind, const uint32_t *arguments)
{
    struct flat *flat = state;

    plain_put_range(&flat->gates, flat->next, 1);
    plain_put(&flat->gates, (uint32_t)kind);
    plain_put(&flat->gates, (uint32_t)plain_arity(kind));
    for (int i = 0; i < plain_arity(kind); i++)
        plain_put(&flat->gates, arguments[i]);
    return flat->next++;
}

static void flattened(int position, uint32_t gates, struct bytes *answer)
{
    static struct flat flat;
    const struct module *module = &plain_file.modules[position];
    uint32_t inputs[MOST_IN_LIST], outputs[MOST_IN_LIST];

    for (int i = 0; i < module->inputs.count; i++)
        inputs[i] = (uint32_t)i;
    flat.next = (uint32_t)module->inputs.count;
    flat.gates.length = 0;
    plain_run(&plain_file, position, inputs, outputs, net_at_gate, &flat);
    answer->length = 0;
    plain_put(answer, 1);
    plain_put(answer, (uint32_t)module->number);
    plain_put_range(answer, 0, (uint32_t)module->inputs.count);
    plain_put(answer, (uint32_t)module->outputs.count);
    for (int i = 0; i < module->outputs.count; i++)
        plain_put(answer, outputs[i]);
    plain_put(answer, gates);
    memcpy(answer->byte + answer->length, flat.gates.byte, flat.gates.length);
    answer->length += flat.gates.length;
}

uint16_t plain_flatten(const uint8_t *bytes, size_t length, uint16_t number, uint32_t *scratch, size_t scratch_len,
                       uint8_t *out, size_t out_len, size_t *written, size_t *place)
{
    static struct bytes answer;
    uint16_t refused = plain_check(bytes, length, place);
    struct figures figures;
    int position;

    if (refused != 0)
        return refused;
    position = plain_find(&plain_file, number);
    if (position < 0)
        return plain_end(place, 18, 0);
    plain_figures(&plain_file, position, &figures);
    if ((uint32_t)plain_file.modules[position].inputs.count + figures.gates > MOST_NETS)
        return plain_end(place, 24, 0);
    if (scratch_len < figures.room)
        return plain_end(place, 21, 0);
    flattened(position, figures.gates, &answer);
    refused = plain_give(&answer, out, out_len, written, place);
    if (refused == 0)
        memset(scratch, 0, figures.room * sizeof *scratch);
    return refused;
}
