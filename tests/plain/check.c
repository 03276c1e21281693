/* The check: modules from first to last, refusals 6 to 16, then expanded sizes from the last to the first, 17. */
#include "plain.h"

/* What a net of the module at hand is so far. */
enum role { UNKNOWN, INPUT, DRIVEN };

static uint8_t role_of[NET_NUMBERS];

int plain_nearest_later(const struct file *file, int position, int number)
{
    for (int i = position + 1; i < file->count; i++)
        if (file->modules[i].number == number)
            return i;
    return -1;
}

int plain_find(const struct file *file, int number)
{
    return plain_nearest_later(file, -1, number);
}

/* All pairs count. */
static int has_twice(struct nets nets)
{
    for (int i = 0; i < nets.count; i++)
        for (int j = i + 1; j < nets.count; j++)
            if (nets.net[i] == nets.net[j])
                return 1;
    return 0;
}

static int has_role(struct nets nets, enum role role)
{
    for (int i = 0; i < nets.count; i++)
        if (role_of[nets.net[i]] == role)
            return 1;
    return 0;
}

static void set_role(struct nets nets, enum role role)
{
    for (int i = 0; i < nets.count; i++)
        role_of[nets.net[i]] = (uint8_t)role;
}

/* Every net that the module names, wherever it stands. */
static void forget_roles(const struct module *module)
{
    set_role(module->inputs, UNKNOWN);
    set_role(module->outputs, UNKNOWN);
    for (int i = 0; i < module->count; i++) {
        set_role(module->occurrences[i].drives, UNKNOWN);
        set_role(module->occurrences[i].takes, UNKNOWN);
    }
}

/* Rules 11 to 14 for one occurrence of the module at `position`. */
static int check_occurrence(const struct file *file, int position, const struct occurrence *occurrence)
{
    int arguments, driven;

    if (has_twice(occurrence->drives) || has_role(occurrence->drives, INPUT) || has_role(occurrence->drives, DRIVEN))
        return 11;
    if (has_role(occurrence->takes, UNKNOWN))
        return 12;
    if (occurrence->refers < KINDS) {
        arguments = plain_arity(occurrence->refers);
        driven = 1;
    } else {
        int later = plain_nearest_later(file, position, occurrence->refers);

        if (later < 0)
            return 13;
        arguments = file->modules[later].inputs.count;
        driven = file->modules[later].outputs.count;
    }
    if (occurrence->takes.count != arguments || occurrence->drives.count != driven)
        return 14;
    return 0;
}

static int all_driven(struct nets nets)
{
    return !has_role(nets, UNKNOWN) && !has_role(nets, INPUT);
}

static int check_module(const struct file *file, int position)
{
    const struct module *module = &file->modules[position];
    int nets = module->inputs.count;

    if (module->number < 16)
        return 6;
    if (plain_nearest_later(file, position, module->number) >= 0)
        return 7;
    if (has_twice(module->inputs))
        return 8;
    if (has_twice(module->outputs))
        return 9;
    forget_roles(module);
    set_role(module->inputs, INPUT);
    if (has_role(module->outputs, INPUT))
        return 10;
    for (int i = 0; i < module->count; i++) {
        int number = check_occurrence(file, position, &module->occurrences[i]);

        if (number != 0)
            return number;
        set_role(module->occurrences[i].drives, DRIVEN);
        nets += module->occurrences[i].drives.count;
    }
    if (!all_driven(module->outputs))
        return 15;
    if (nets > MOST_NETS)
        return 16;
    return 0;
}

/* Later sizes are at most 65,535 when they are added, and there are at most 4,096 of them: no overflow. */
static uint32_t expanded_size(const struct file *file, int position, const uint32_t *sizes)
{
    const struct module *module = &file->modules[position];
    uint32_t size = 0;

    for (int i = 0; i < module->count; i++) {
        int refers = module->occurrences[i].refers;

        size += 1;
        if (refers >= KINDS)
            size += sizes[plain_nearest_later(file, position, refers)];
    }
    return size;
}

struct refusal plain_checked(const uint8_t *bytes, size_t length, struct file *file, uint32_t sizes[MOST_MODULES])
{
    struct refusal refusal = plain_read(bytes, length, file);

    for (int i = 0; i < file->count && refusal.number == 0; i++)
        refusal = (struct refusal){check_module(file, i), (size_t)i};
    for (int i = file->count - 1; i >= 0 && refusal.number == 0; i--) {
        sizes[i] = expanded_size(file, i, sizes);
        if (sizes[i] > MOST_SIZE)
            refusal = (struct refusal){17, (size_t)i};
    }
    if (refusal.number == 0)
        refusal.place = 0;
    return refusal;
}
