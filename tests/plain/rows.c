/* A block of rows: refusals 18, 27, 19 to 22 in order, then each row by itself. Only an answer touches what was lent. */
#include "plain.h"

#include <string.h>

uint16_t plain_evaluate_rows(const uint8_t *bytes, size_t length, uint16_t number, size_t rows,
                             const uint8_t *values, size_t values_len, uint32_t *scratch, size_t scratch_len,
                             uint8_t *out, size_t out_len, size_t *written, uint32_t *work, size_t *place)
{
    uint16_t refused = plain_check(bytes, length, place);
    size_t inputs, outputs;
    struct figures figures;
    int position;

    if (refused != 0)
        return refused;
    position = plain_find(&plain_file, number);
    if (position < 0)
        return plain_end(place, 18, 0);
    inputs = (size_t)plain_file.modules[position].inputs.count;
    outputs = (size_t)plain_file.modules[position].outputs.count;
    if (rows > MOST_ROWS)
        return plain_end(place, 27, 0);
    if (values_len != rows * inputs)
        return plain_end(place, 19, 0);
    for (size_t i = 0; i < values_len; i++)
        if (values[i] > 3)
            return plain_end(place, 20, i);
    plain_figures(&plain_file, position, &figures);
    if (scratch_len < figures.room)
        return plain_end(place, 21, 0);
    if (out_len < rows * outputs)
        return plain_end(place, 22, 0);
    plain_reached = 0;
    for (size_t i = 0; i < rows; i++)
        plain_outputs(&plain_file, position, values + i * inputs, out + i * outputs);
    memset(scratch, 0, figures.room * sizeof *scratch);
    *written = rows * outputs;
    *work = plain_reached;
    return 0;
}
