/* Listings for the board maker (request M-112): a checked file in the Network Description Language, the lines of document 002. */
#include "plain.h"

#include <string.h>

enum { NAMES = 16, NAME = 8 };

static void say_nets(struct nets nets)
{
    for (int i = 0; i < nets.count; i++)
        plain_say(i == 0 ? "N%d" : ",N%d", nets.net[i]);
}

static void say_line(const char *keyword, struct nets nets)
{
    plain_say("%s%s", keyword, nets.count > 0 ? " " : "");
    say_nets(nets);
    plain_say(";\n");
}

/* A gate by its name, which ends in front of the first space. */
static void say_reference(const uint8_t *names, int number)
{
    if (number >= KINDS) {
        plain_say("M%d", number);
        return;
    }
    for (int i = 0; i < NAME && names[NAME * number + i] != ' '; i++)
        plain_say("%c", names[NAME * number + i]);
}

static void say_module(const uint8_t *names, const struct module *module)
{
    plain_say("MODULE M%d;\n", module->number);
    say_line("INPUTS", module->inputs);
    say_line("OUTPUTS", module->outputs);
    plain_say("LEVEL FUNCTION;\nDEFINE\n");
    for (int i = 0; i < module->count; i++) {
        plain_say("G%d(", i);
        say_nets(module->occurrences[i].drives);
        plain_say(") = ");
        say_reference(names, module->occurrences[i].refers);
        plain_say("(");
        say_nets(module->occurrences[i].takes);
        plain_say(");\n");
    }
    plain_say("END MODULE;\n\n");
}

static int is_digit(uint8_t byte)
{
    return byte >= '0' && byte <= '9';
}

/* 1 to 8 capitals or digits, then spaces; none an M and one or more digits. */
static int is_good(const uint8_t *name)
{
    int letters = 0, digits = 0;

    while (letters < NAME && name[letters] != ' ')
        letters++;
    for (int i = 0; i < letters; i++) {
        if (!is_digit(name[i]) && (name[i] < 'A' || name[i] > 'Z'))
            return 0;
        digits += i > 0 && is_digit(name[i]);
    }
    for (int i = letters; i < NAME; i++)
        if (name[i] != ' ')
            return 0;
    return letters > 0 && !(name[0] == 'M' && letters > 1 && digits == letters - 1);
}

/* The first name that is bad or used before; NAMES where all are good. */
static int first_bad(const uint8_t *names)
{
    for (int k = 0; k < NAMES; k++) {
        if (!is_good(names + NAME * k))
            return k;
        for (int j = 0; j < k; j++)
            if (memcmp(names + NAME * j, names + NAME * k, NAME) == 0)
                return k;
    }
    return NAMES;
}

uint16_t plain_write_ndl(const uint8_t *file, size_t file_len, const uint8_t *names, size_t names_len, uint8_t *out,
                         size_t out_len, size_t *written, size_t *place)
{
    uint16_t refused = plain_check(file, file_len, place);

    if (refused != 0)
        return refused;
    if (names_len != NAMES * NAME)
        return plain_end(place, 29, 0);
    if (first_bad(names) < NAMES)
        return plain_end(place, 29, (size_t)first_bad(names));
    plain_say_nothing();
    plain_say("COMPILE;\nDIRECTORY MASTER;\n\n");
    for (int i = 0; i < plain_file.count; i++)
        say_module(names, &plain_file.modules[i]);
    plain_say("END COMPILE;\nEND;\n");
    return plain_give_said(out, out_len, written, place);
}
