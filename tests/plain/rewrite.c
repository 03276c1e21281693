/* Four-input gates withdrawn (request M-109): a file rewritten into one that the strict check passes. In place of
 * each of B-NAND4, B-OR4, B-AND4 and B-NOR4 stand three gates of two inputs, the first two on new nets. */
#include "plain.h"

enum { MOST_NEW = 3 * MOST_BYTES };

/* The new file, and what it is made of: occurrences, and the nets of those that are new. */
static struct file new_file;
static struct occurrence made[MOST_NEW];
static uint16_t made_nets[MOST_NEW];
static int occurrences_made, nets_made;

static struct nets nets_of(int count, uint16_t a, uint16_t b)
{
    struct nets nets = {count, &made_nets[nets_made]};

    made_nets[nets_made++] = a;
    if (count == 2)
        made_nets[nets_made++] = b;
    return nets;
}

static void add(struct nets drives, int refers, struct nets takes)
{
    made[occurrences_made++] = (struct occurrence){drives, refers, takes};
}

/* The gate of two inputs of the same kind, 0 where the gate stays. */
static int two_for(int kind)
{
    switch (kind) {
    case 4:
        return 2;
    case 7:
        return 5;
    case 12:
        return 10;
    case 15:
        return 13;
    default:
        return 0;
    }
}

/* The two-input AND or OR that takes a pair. */
static int pair_for(int kind)
{
    return kind == 7 || kind == 15 ? 5 : 10;
}

static void use(uint8_t *used, struct nets nets)
{
    for (int i = 0; i < nets.count; i++)
        used[nets.net[i]] = 1;
}

/* The lowest number unused in the module, which is used from now on. */
static uint16_t unused(uint8_t *used)
{
    int net = 0;

    while (used[net])
        net++;
    used[net] = 1;
    return (uint16_t)net;
}

static void rewrite_module(const struct module *module, struct module *new_module)
{
    static uint8_t used[NET_NUMBERS];
    int first_made = occurrences_made;

    for (int i = 0; i < NET_NUMBERS; i++)
        used[i] = 0;
    use(used, module->inputs);
    use(used, module->outputs);
    for (int i = 0; i < module->count; i++) {
        use(used, module->occurrences[i].drives);
        use(used, module->occurrences[i].takes);
    }
    for (int i = 0; i < module->count; i++) {
        const struct occurrence *o = &module->occurrences[i];

        if (two_for(o->refers) == 0) {
            add(o->drives, o->refers, o->takes);
        } else {
            uint16_t first = unused(used), second = unused(used);
            const uint16_t *net = o->takes.net;

            add(nets_of(1, first, 0), pair_for(o->refers), nets_of(2, net[0], net[1]));
            add(nets_of(1, second, 0), pair_for(o->refers), nets_of(2, net[2], net[3]));
            add(o->drives, two_for(o->refers), nets_of(2, first, second));
        }
    }
    *new_module = *module;
    new_module->count = occurrences_made - first_made;
    new_module->occurrences = made + first_made;
}

/* ---- what the new file may break: 4, 16, 17 and 1 in that order, each over the whole file */

static int has_many_occurrences(void)
{
    for (int i = 0; i < new_file.count; i++)
        if (new_file.modules[i].count > MOST_OCCURRENCES)
            return 1;
    return 0;
}

/* The first module with too many nets, or -1. */
static int crowded(void)
{
    for (int i = 0; i < new_file.count; i++) {
        const struct module *module = &new_file.modules[i];
        int nets = module->inputs.count;

        for (int j = 0; j < module->count; j++)
            nets += module->occurrences[j].drives.count;
        if (nets > MOST_NETS)
            return i;
    }
    return -1;
}

/* From the last to the first, the first module so met whose expanded size is over, or -1. */
static int too_large(void)
{
    static uint32_t size[MOST_MODULES];

    for (int i = new_file.count - 1; i >= 0; i--) {
        const struct module *module = &new_file.modules[i];
        uint64_t sum = 0;

        for (int j = 0; j < module->count; j++) {
            int refers = module->occurrences[j].refers;

            sum += 1 + (refers < KINDS ? 0 : size[plain_nearest_later(&new_file, i, refers)]);
        }
        if (sum > MOST_SIZE)
            return i;
        size[i] = (uint32_t)sum;
    }
    return -1;
}

uint16_t plain_rewrite(const uint8_t *file, size_t file_len, uint8_t *out, size_t out_len, size_t *written,
                       size_t *place)
{
    static struct bytes answer;
    uint16_t refused = plain_check(file, file_len, place);
    int at;

    if (refused != 0)
        return refused;
    occurrences_made = nets_made = 0;
    new_file.count = plain_file.count;
    for (int i = 0; i < plain_file.count; i++)
        rewrite_module(&plain_file.modules[i], &new_file.modules[i]);
    if (has_many_occurrences())
        return plain_end(place, 4, 0);
    at = crowded();
    if (at >= 0)
        return plain_end(place, 16, (size_t)at);
    at = too_large();
    if (at >= 0)
        return plain_end(place, 17, (size_t)at);
    if (plain_put_file(&answer, &new_file) > MOST_BYTES)
        return plain_end(place, 1, 0);
    return plain_give(&answer, out, out_len, written, place);
}
