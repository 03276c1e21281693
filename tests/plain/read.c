/* Reading: bytes to lists, front to back over the whole file. Refusals 1 to 5.
 *
 * The first refusal is kept in the cursor; from then on every step reads 0 and changes nothing. */
#include "plain.h"

enum { MOST_NUMBERS = MOST_BYTES, MOST_ALL_OCCURRENCES = MOST_BYTES / 3 };

struct cursor {
    const uint8_t *bytes;
    size_t length, at;
    struct refusal refusal;
};

/* Every list of the file that was read last, one after the other. */
static uint16_t all_numbers[MOST_NUMBERS];
static struct occurrence all_occurrences[MOST_ALL_OCCURRENCES];
static int numbers_used, occurrences_used;

static int refuse(struct cursor *cursor, int number, size_t place)
{
    if (cursor->refusal.number == 0)
        cursor->refusal = (struct refusal){number, place};
    return 0;
}

static int read_number(struct cursor *cursor)
{
    size_t start = cursor->at;
    int first, second;

    if (cursor->refusal.number != 0)
        return 0;
    if (cursor->at == cursor->length)
        return refuse(cursor, 2, cursor->length);
    first = cursor->bytes[cursor->at++];
    if (first < 128)
        return first;
    if (cursor->at == cursor->length)
        return refuse(cursor, 2, cursor->length);
    second = cursor->bytes[cursor->at++];
    if (second == 0 || second >= 128)
        return refuse(cursor, 3, start);
    return first - 128 + 128 * second;
}

static int read_count(struct cursor *cursor, int ceiling)
{
    size_t start = cursor->at;
    int count = read_number(cursor);

    if (count > ceiling)
        return refuse(cursor, 4, start);
    return count;
}

static struct nets read_nets(struct cursor *cursor)
{
    int count = read_count(cursor, MOST_IN_LIST);
    struct nets nets = {count, all_numbers + numbers_used};

    for (int i = 0; i < count && cursor->refusal.number == 0; i++)
        all_numbers[numbers_used++] = (uint16_t)read_number(cursor);
    return nets;
}

static struct occurrence read_occurrence(struct cursor *cursor)
{
    struct occurrence occurrence;

    occurrence.drives = read_nets(cursor);
    occurrence.refers = read_number(cursor);
    occurrence.takes = read_nets(cursor);
    return occurrence;
}

static struct module read_module(struct cursor *cursor)
{
    struct module module;

    module.number = read_number(cursor);
    module.inputs = read_nets(cursor);
    module.outputs = read_nets(cursor);
    module.count = read_count(cursor, MOST_OCCURRENCES);
    module.occurrences = all_occurrences + occurrences_used;
    for (int i = 0; i < module.count; i++) {
        struct occurrence next = read_occurrence(cursor);

        if (cursor->refusal.number != 0)
            break;
        all_occurrences[occurrences_used++] = next;
    }
    return module;
}

struct refusal plain_read(const uint8_t *bytes, size_t length, struct file *file)
{
    struct cursor cursor = {bytes, length, 0, {0, 0}};

    numbers_used = occurrences_used = 0;
    if (length > MOST_BYTES)
        refuse(&cursor, 1, 0);
    file->count = read_count(&cursor, MOST_MODULES);
    for (int i = 0; i < file->count && cursor.refusal.number == 0; i++)
        file->modules[i] = read_module(&cursor);
    if (cursor.at < length)
        refuse(&cursor, 5, cursor.at);
    return cursor.refusal;
}
