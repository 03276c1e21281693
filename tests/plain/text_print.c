/* Files printed in the published list form (request M-100): names by number, an occurrence a line. */
#include "plain.h"

static void say_nets(struct nets nets)
{
    plain_say("(");
    for (int i = 0; i < nets.count; i++)
        plain_say(i == 0 ? "N%d" : " N%d", nets.net[i]);
    plain_say(")");
}

static void say_occurrence(const struct occurrence *occurrence)
{
    plain_say("(");
    say_nets(occurrence->drives);
    if (occurrence->refers < KINDS)
        plain_say(" (%s", plain_gate_name(occurrence->refers));
    else
        plain_say(" (M%d", occurrence->refers);
    for (int i = 0; i < occurrence->takes.count; i++)
        plain_say(" N%d", occurrence->takes.net[i]);
    plain_say("))");
}

static void say_module(const struct module *module)
{
    plain_say("(M%d ", module->number);
    say_nets(module->inputs);
    plain_say(" ");
    say_nets(module->outputs);
    plain_say("\n  (");
    for (int i = 0; i < module->count; i++) {
        if (i > 0)
            plain_say("\n   ");
        say_occurrence(&module->occurrences[i]);
    }
    plain_say("))");
}

uint16_t plain_print_text(const uint8_t *file, size_t file_len, uint8_t *out, size_t out_len, size_t *written,
                          size_t *place)
{
    uint16_t refused = plain_check(file, file_len, place);

    if (refused != 0)
        return refused;
    plain_say_nothing();
    plain_say("(");
    for (int i = 0; i < plain_file.count; i++) {
        if (i > 0)
            plain_say("\n ");
        say_module(&plain_file.modules[i]);
    }
    plain_say(")\n");
    return plain_give_said(out, out_len, written, place);
}
