/* See damage.h. Damage is aimed at a rule but not certain to break it: the plain reading says what came of it. */
#include "damage.h"

#include "random.h"

#include <string.h>

enum { NUMBERS = 16384 };

/* ---- on the draft */

static struct draft_module *any_module(struct draft *draft)
{
    return draft->count > 0 ? &draft->modules[below(draft->count)] : NULL;
}

static struct draft_occurrence *any_occurrence(struct draft_module *module)
{
    return module->count > 0 ? &module->occurrences[below(module->count)] : NULL;
}

static int any_net_of(const struct list *list)
{
    return list->count > 0 ? list->net[below(list->count)] : below(NUMBERS);
}

/* A net of the module, whatever it is there, or a number that is likely none. */
static int any_net(struct draft_module *module)
{
    struct draft_occurrence *occurrence = any_occurrence(module);

    switch (below(4)) {
    case 0:
        return any_net_of(&module->inputs);
    case 1:
        return any_net_of(&module->outputs);
    case 2:
        return occurrence != NULL ? any_net_of(&occurrence->drives) : below(NUMBERS);
    default:
        return percent(50) ? below(200) : below(NUMBERS);
    }
}

static void replace_one(struct list *list, int net)
{
    if (list->count > 0)
        list->net[below(list->count)] = (uint16_t)net;
}

/* An entry once more: in the place of another, or as a new one at any place. */
static void repeat_one(struct list *list)
{
    if (list->count == 0)
        return;
    if (percent(50)) {
        replace_one(list, any_net_of(list));
    } else {
        add_net(list, any_net_of(list));
        list->net[below(list->count)] = (uint16_t)any_net_of(list);
    }
}

static void break_number(struct draft *draft, struct draft_module *module, int rule)
{
    if (rule == 6)
        module->number = below(16);
    else
        module->number = any_module(draft)->number;
}

static void break_drives(struct draft_module *module, struct draft_occurrence *occurrence)
{
    if (percent(30))
        repeat_one(&occurrence->drives);
    else
        replace_one(&occurrence->drives, any_net(module));
}

static void break_takes(struct draft_module *module, struct draft_occurrence *occurrence)
{
    if (percent(30) && occurrence->drives.count > 0)
        replace_one(&occurrence->takes, any_net_of(&occurrence->drives));
    else
        replace_one(&occurrence->takes, any_net(module));
}

static void break_reference(struct draft *draft, struct draft_module *module, struct draft_occurrence *occurrence)
{
    switch (below(4)) {
    case 0:
        occurrence->refers = module->number;
        break;
    case 1:
        occurrence->refers = any_module(draft)->number;
        break;
    default:
        occurrence->refers = between(16, percent(50) ? 200 : NUMBERS - 1);
    }
}

static void break_counts(struct draft_module *module, struct draft_occurrence *occurrence)
{
    struct list *list = percent(50) ? &occurrence->takes : &occurrence->drives;

    if (percent(30))
        occurrence->refers = below(17);
    else if (percent(50) && list->count > 0)
        drop_net(list, below(list->count));
    else if (list == &occurrence->drives)
        add_net(list, below(NUMBERS));
    else
        add_net(list, any_net(module));
}

/* An output that nothing drives: a new number, or one whose driver is taken away. */
static void break_outputs(struct draft_module *module)
{
    struct draft_occurrence *occurrence = any_occurrence(module);

    if (percent(30) && occurrence != NULL)
        replace_one(&occurrence->drives, below(NUMBERS));
    else if (percent(50))
        replace_one(&module->outputs, below(NUMBERS));
    else
        add_net(&module->outputs, below(NUMBERS));
}

static void swap_occurrences(struct draft_module *module)
{
    struct draft_occurrence *a = any_occurrence(module), *b = any_occurrence(module);

    if (a != NULL) {
        struct draft_occurrence kept = *a;

        *a = *b;
        *b = kept;
    }
}

static void swap_modules(struct draft *draft)
{
    struct draft_module *a = any_module(draft), *b = any_module(draft), kept = *a;

    *a = *b;
    *b = kept;
}

static void break_module(struct draft_module *module, int rule)
{
    switch (rule) {
    case 8:
        repeat_one(&module->inputs);
        break;
    case 9:
        repeat_one(&module->outputs);
        break;
    case 10:
        if (percent(50))
            replace_one(&module->outputs, any_net_of(&module->inputs));
        else
            replace_one(&module->inputs, any_net_of(&module->outputs));
        break;
    default:
        break_outputs(module);
    }
}

static void break_occurrence(struct draft *draft, struct draft_module *module, int rule)
{
    struct draft_occurrence *occurrence = any_occurrence(module);

    if (occurrence == NULL)
        return;
    switch (rule) {
    case 11:
        break_drives(module, occurrence);
        break;
    case 12:
        if (percent(20))
            swap_occurrences(module);
        else
            break_takes(module, occurrence);
        break;
    case 13:
        break_reference(draft, module, occurrence);
        break;
    default:
        break_counts(module, occurrence);
    }
}

void break_rule(struct draft *draft, int rule)
{
    struct draft_module *module = any_module(draft);

    if (module == NULL)
        return;
    if (rule <= 7)
        break_number(draft, module, rule);
    else if (rule == 13 && percent(20))
        swap_modules(draft);
    else if (rule >= 11 && rule <= 14)
        break_occurrence(draft, module, rule);
    else
        break_module(module, rule);
}

/* ---- on the bytes */

static void cut(struct encoded *file, size_t at, size_t count)
{
    memmove(file->byte + at, file->byte + at + count, file->length - at - count);
    file->length -= count;
}

static void insert(struct encoded *file, size_t at, int byte)
{
    if (file->length == FILE_ROOM)
        return;
    memmove(file->byte + at + 1, file->byte + at, file->length - at);
    file->byte[at] = (uint8_t)byte;
    file->length++;
}

static int telling_byte(void)
{
    static const int bytes[] = {0, 1, 2, 3, 4, 9, 15, 16, 17, 127, 128, 129, 192, 193, 255};

    return percent(70) ? bytes[below(sizeof bytes / sizeof *bytes)] : below(256);
}

static size_t somewhere(const struct encoded *file)
{
    return file->length > 0 ? (size_t)below((int)file->length) : 0;
}

/* A number with a needless or a third group. */
static void spoil_number(struct encoded *file)
{
    size_t at = file->places[below(file->numbers)].at;

    if (file->byte[at] < 128) {
        file->byte[at] |= 128;
        insert(file, at + 1, percent(60) ? 0 : between(128, 255));
    } else {
        file->byte[at + 1] = (uint8_t)(percent(50) ? 0 : between(128, 255));
    }
}

static void spoil_count(struct encoded *file)
{
    static const int ceilings[] = {[MODULE_COUNT] = 128, [LIST_COUNT] = 192, [OCCURRENCE_COUNT] = 4096};
    struct place_of_number place;
    int count;

    do
        place = file->places[below(file->numbers)];
    while (place.role == OTHER);
    count = ceilings[place.role] + (percent(50) ? 1 : percent(50) ? 0 : below(200));
    if (file->byte[place.at] < 128)
        insert(file, place.at, 0);
    file->byte[place.at] = (uint8_t)(128 + count % 128);
    file->byte[place.at + 1] = (uint8_t)(count / 128);
}

void break_reading(struct encoded *file, int rule)
{
    switch (rule) {
    case 2:
        file->length = somewhere(file);
        break;
    case 3:
        spoil_number(file);
        break;
    case 4:
        spoil_count(file);
        break;
    default:
        for (int i = between(1, 3); i > 0; i--)
            insert(file, file->length, telling_byte());
    }
}

void damage_blindly(struct encoded *file)
{
    for (int i = between(1, 3); i > 0; i--) {
        size_t at = somewhere(file);

        switch (file->length > 0 ? below(6) : 0) {
        case 0:
            insert(file, percent(90) ? at : file->length, telling_byte());
            break;
        case 1:
            file->byte[at] ^= (uint8_t)(1 << below(8));
            break;
        case 2:
            file->byte[at] = (uint8_t)telling_byte();
            break;
        case 3:
            cut(file, at, 1);
            break;
        case 4:
            cut(file, at, file->length - at < 4 ? 1 : (size_t)between(1, 4));
            break;
        default:
            insert(file, at, file->byte[at]);
        }
    }
}

void make_noise(struct encoded *file)
{
    int length = percent(50) ? below(5) : below(40);

    file->numbers = 0;
    file->length = 0;
    while (length-- > 0)
        file->byte[file->length++] = (uint8_t)(percent(60) ? below(4) : telling_byte());
}
