/* Numbers to bytes, for files that are made, and the handing over of such a file. */
#include "plain.h"

#include <string.h>

void plain_put(struct bytes *bytes, uint32_t number)
{
    if (number < 128) {
        bytes->byte[bytes->length++] = (uint8_t)number;
    } else {
        bytes->byte[bytes->length++] = (uint8_t)(128 + number % 128);
        bytes->byte[bytes->length++] = (uint8_t)(number / 128);
    }
}

/* `count` numbers from `first` on, as a list. */
void plain_put_range(struct bytes *bytes, uint32_t first, uint32_t count)
{
    plain_put(bytes, count);
    for (uint32_t i = 0; i < count; i++)
        plain_put(bytes, first + i);
}

static void put_number(struct bytes *bytes, size_t *length, int number)
{
    *length += number < 128 ? 1 : 2;
    if (*length <= MOST_BYTES)
        plain_put(bytes, (uint32_t)number);
}

static void put_nets(struct bytes *bytes, size_t *length, struct nets nets)
{
    put_number(bytes, length, nets.count);
    for (int i = 0; i < nets.count; i++)
        put_number(bytes, length, nets.net[i]);
}

/* The bytes as far as they go, and how many there would be. */
size_t plain_put_file(struct bytes *bytes, const struct file *file)
{
    size_t length = 0;

    bytes->length = 0;
    put_number(bytes, &length, file->count);
    for (int i = 0; i < file->count; i++) {
        const struct module *module = &file->modules[i];

        put_number(bytes, &length, module->number);
        put_nets(bytes, &length, module->inputs);
        put_nets(bytes, &length, module->outputs);
        put_number(bytes, &length, module->count);
        for (int j = 0; j < module->count; j++) {
            put_nets(bytes, &length, module->occurrences[j].drives);
            put_number(bytes, &length, module->occurrences[j].refers);
            put_nets(bytes, &length, module->occurrences[j].takes);
        }
    }
    return length;
}

uint16_t plain_give(const struct bytes *answer, uint8_t *out, size_t out_len, size_t *written, size_t *place)
{
    if (out_len < answer->length)
        return plain_end(place, 22, 0);
    memcpy(out, answer->byte, answer->length);
    *written = answer->length;
    return plain_end(place, 0, 0);
}
