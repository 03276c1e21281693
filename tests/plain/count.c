/* Counts: refusals 18 and 21, then the figures; a delay is a run on arrivals. */
#include "plain.h"

#include <string.h>

static uint32_t arrival_at_gate(void *state, int kind, const uint32_t *arguments)
{
    const uint8_t *delays = state;
    uint32_t latest = 0;

    for (int i = 0; i < plain_arity(kind); i++)
        if (arguments[i] > latest)
            latest = arguments[i];
    return latest + delays[kind];
}

static uint32_t delay_of(int position, const uint8_t family[16])
{
    uint8_t delays[KINDS];
    static const uint32_t at_inputs[MOST_IN_LIST];
    uint32_t arrivals[MOST_IN_LIST], latest = 0;

    memcpy(delays, family, sizeof delays);
    plain_run(&plain_file, position, at_inputs, arrivals, arrival_at_gate, delays);
    for (int i = 0; i < plain_file.modules[position].outputs.count; i++)
        if (arrivals[i] > latest)
            latest = arrivals[i];
    return latest;
}

uint16_t plain_count(const uint8_t *bytes, size_t length, uint16_t number, const uint8_t family[16],
                     uint32_t *scratch, size_t scratch_len, uint32_t figures[8], uint32_t tally[16], size_t *place)
{
    static const uint8_t ones[KINDS] = {1, 1, 1, 1, 1, 1, 1, 1, 1, 1, 1, 1, 1, 1, 1, 1};
    uint16_t refused = plain_check(bytes, length, place);
    struct figures own;
    int position;

    if (refused != 0)
        return refused;
    position = plain_find(&plain_file, number);
    if (position < 0)
        return plain_end(place, 18, 0);
    plain_figures(&plain_file, position, &own);
    if (scratch_len < own.room)
        return plain_end(place, 21, 0);
    figures[0] = (uint32_t)plain_file.modules[position].inputs.count;
    figures[1] = (uint32_t)plain_file.modules[position].outputs.count;
    figures[2] = own.gates;
    figures[3] = plain_sizes[position];
    figures[4] = own.room;
    figures[5] = delay_of(position, ones);
    figures[6] = own.load;
    figures[7] = delay_of(position, family);
    memcpy(tally, own.tally, sizeof own.tally);
    memset(scratch, 0, own.room * sizeof *scratch);
    return 0;
}
