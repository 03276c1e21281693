/* See draft.h. Lists and occurrences of a draft stand in two arrays that the next draft uses again. */
#include "draft.h"

#include <stdlib.h>
#include <string.h>

enum { NET_ROOM = 1 << 20, OCCURRENCE_ROOM = 1 << 16 };

static uint16_t all_nets[NET_ROOM];
static struct draft_occurrence all_occurrences[OCCURRENCE_ROOM];
static int nets_used, occurrences_used;

void draft_start(struct draft *draft, int count)
{
    nets_used = occurrences_used = 0;
    draft->count = count;
    for (int i = 0; i < count; i++) {
        memset(&draft->modules[i], 0, sizeof draft->modules[i]);
        draft->modules[i].number = 16 + i;
    }
}

struct draft_occurrence *add_occurrence(struct draft_module *module, int refers)
{
    struct draft_occurrence *occurrence = &all_occurrences[occurrences_used++];

    if (occurrences_used == OCCURRENCE_ROOM)
        abort();
    memset(occurrence, 0, sizeof *occurrence);
    occurrence->refers = refers;
    if (module->count == 0)
        module->occurrences = occurrence;
    if (module->occurrences + module->count != occurrence)
        abort(); /* another module has been added to meanwhile */
    module->count++;
    return occurrence;
}

void add_net(struct list *list, int net)
{
    if (list->count == list->capacity) {
        uint16_t *more = all_nets + nets_used;

        list->capacity = 2 * list->capacity + 4;
        nets_used += list->capacity;
        if (nets_used > NET_ROOM)
            abort();
        if (list->count > 0)
            memcpy(more, list->net, (size_t)list->count * sizeof *more);
        list->net = more;
    }
    list->net[list->count++] = (uint16_t)net;
}

void add_nets(struct list *list, int first, int count)
{
    for (int i = 0; i < count; i++)
        add_net(list, first + i);
}

void add_gate(struct draft_module *module, int kind, int drives, int a, int b)
{
    struct draft_occurrence *occurrence = add_occurrence(module, kind);

    add_net(&occurrence->drives, drives);
    add_net(&occurrence->takes, a);
    if (kind > 1)
        add_net(&occurrence->takes, b);
}

void drop_net(struct list *list, int index)
{
    memmove(list->net + index, list->net + index + 1, (size_t)(list->count - index - 1) * sizeof *list->net);
    list->count--;
}

static void put(struct encoded *to, int number, enum role_of_number role)
{
    if (to->length + 2 > FILE_ROOM)
        abort();
    to->places[to->numbers++] = (struct place_of_number){(uint32_t)to->length, role};
    if (number < 128) {
        to->byte[to->length++] = (uint8_t)number;
    } else {
        to->byte[to->length++] = (uint8_t)(number % 128 + 128);
        to->byte[to->length++] = (uint8_t)(number / 128);
    }
}

static void put_list(struct encoded *to, const struct list *list)
{
    put(to, list->count, LIST_COUNT);
    for (int i = 0; i < list->count; i++)
        put(to, list->net[i], OTHER);
}

void encode(const struct draft *draft, struct encoded *to)
{
    to->length = 0;
    to->numbers = 0;
    put(to, draft->count, MODULE_COUNT);
    for (int m = 0; m < draft->count; m++) {
        const struct draft_module *module = &draft->modules[m];

        put(to, module->number, OTHER);
        put_list(to, &module->inputs);
        put_list(to, &module->outputs);
        put(to, module->count, OCCURRENCE_COUNT);
        for (int i = 0; i < module->count; i++) {
            put_list(to, &module->occurrences[i].drives);
            put(to, module->occurrences[i].refers, OTHER);
            put_list(to, &module->occurrences[i].takes);
        }
    }
}
