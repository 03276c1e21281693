/* A group's file before the house's (request M-105): a module looked up in both, and both joined into one file. */
#include "plain.h"

#include <string.h>

static struct file group_file, house_file;

/* Where the module at a position stands among the file's bytes: its numbers, written again from the front. */
static void put_nets(struct bytes *bytes, struct nets nets)
{
    plain_put(bytes, (uint32_t)nets.count);
    for (int i = 0; i < nets.count; i++)
        plain_put(bytes, nets.net[i]);
}

static void put_module(struct bytes *bytes, const struct module *module)
{
    plain_put(bytes, (uint32_t)module->number);
    put_nets(bytes, module->inputs);
    put_nets(bytes, module->outputs);
    plain_put(bytes, (uint32_t)module->count);
    for (int i = 0; i < module->count; i++) {
        put_nets(bytes, module->occurrences[i].drives);
        plain_put(bytes, (uint32_t)module->occurrences[i].refers);
        put_nets(bytes, module->occurrences[i].takes);
    }
}

/* Refusals 1 to 5 of one file, saying which. The lists of the file read last are the only ones kept. */
static uint16_t read_one(const uint8_t *bytes, size_t length, struct file *file, uint16_t number, uint16_t *which,
                         size_t *place)
{
    struct refusal refusal = plain_read(bytes, length, file);

    if (refusal.number != 0)
        *which = number;
    return plain_end(place, refusal.number, refusal.place);
}

/* The first module of the number, as a part of the file; 0 if there is none. */
static int part_of(const struct file *file, uint16_t number, size_t *start, size_t *length)
{
    static struct bytes bytes;
    int position = plain_find(file, number);

    if (position < 0)
        return 0;
    bytes.length = 0;
    plain_put(&bytes, (uint32_t)file->count);
    for (int i = 0; i < position; i++)
        put_module(&bytes, &file->modules[i]);
    *start = bytes.length;
    put_module(&bytes, &file->modules[position]);
    *length = bytes.length - *start;
    return 1;
}

uint16_t plain_look_up(const uint8_t *group, size_t group_len, const uint8_t *house, size_t house_len,
                       uint16_t number, uint16_t *which, size_t *start, size_t *length, size_t *place)
{
    uint16_t refused = read_one(group, group_len, &group_file, 1, which, place);
    size_t own_start = 0, own_length = 0;
    int own = refused == 0 && part_of(&group_file, number, &own_start, &own_length);

    if (refused == 0)
        refused = read_one(house, house_len, &house_file, 2, which, place);
    if (refused != 0)
        return refused;
    if (own) {
        *which = 1;
        *start = own_start;
        *length = own_length;
        return plain_end(place, 0, 0);
    }
    if (part_of(&house_file, number, start, length)) {
        *which = 2;
        return plain_end(place, 0, 0);
    }
    *which = 0;
    return plain_end(place, 18, 0);
}

/* The bytes of one module, behind those that are there. Two files have at most twice the bytes of one. */
static uint8_t joined[2 * MOST_BYTES + 2];
static size_t joined_len;

static void join_module(const struct file *file, const uint8_t *bytes, int position)
{
    size_t start = 0, length = 0;
    static struct bytes front;

    front.length = 0;
    plain_put(&front, (uint32_t)file->count);
    for (int i = 0; i < position; i++)
        put_module(&front, &file->modules[i]);
    start = front.length;
    put_module(&front, &file->modules[position]);
    length = front.length - start;
    memcpy(joined + joined_len, bytes + start, length);
    joined_len += length;
}

uint16_t plain_join(const uint8_t *group, size_t group_len, const uint8_t *house, size_t house_len, uint8_t *out,
                    size_t out_len, uint16_t *which, size_t *written, size_t *place)
{
    static uint8_t taken[NET_NUMBERS];
    static struct bytes whole;
    struct refusal refusal;
    int modules;
    uint16_t refused = read_one(group, group_len, &group_file, 1, which, place);

    joined_len = 0;
    memset(taken, 0, sizeof taken);
    if (refused != 0)
        return refused;
    modules = group_file.count;
    for (int i = 0; i < modules; i++) {
        taken[group_file.modules[i].number] = 1;
        join_module(&group_file, group, i);
    }
    refused = read_one(house, house_len, &house_file, 2, which, place);
    if (refused != 0)
        return refused;
    for (int i = 0; i < house_file.count; i++)
        if (!taken[house_file.modules[i].number]) {
            join_module(&house_file, house, i);
            modules++;
        }
    *which = 0;
    if (modules > MOST_MODULES)
        return plain_end(place, 4, 0);
    whole.length = 0;
    plain_put(&whole, (uint32_t)modules);
    if (whole.length + joined_len > MOST_BYTES)
        return plain_end(place, 1, 0);
    memcpy(whole.byte + whole.length, joined, joined_len);
    whole.length += joined_len;
    refusal = plain_checked(whole.byte, whole.length, &plain_file, plain_sizes);
    if (refusal.number != 0)
        return plain_end(place, refusal.number, refusal.place);
    return plain_give(&whole, out, out_len, written, place);
}
