/* See spell.h. */
#include "spell.h"

#include "../plain/plain.h"
#include "random.h"

#include <ctype.h>
#include <stdio.h>

enum { NAME = 64 };

enum { SHORT_FORMS = 5 };

/* Names by number, short ones first, the last of 32 bytes. Nets may be named like gates; modules from 16 on are not. */
static const char *const net_forms[] = {"N%d", "%d", "-%d", "M%d", "%X", "CARRY-%d-OUT", "B-OR%d", "B-%d-", "SUM--BIT-%d",
                                        "NETS-ARE-ALIKE-BUT-FOR-THE-%05d", "%032d"};
static const char *const module_forms[] = {"M%d", "%d", "N%d-", "FULL-ADDER-%d", "B-%d", "B-AND%d", "-B-OR%d",
                                           "MODULES-ALIKE-BUT-FOR-THE-%06d"};

enum { NET_FORMS = sizeof net_forms / sizeof *net_forms, MODULE_FORMS = sizeof module_forms / sizeof *module_forms };

/* How the text at hand is written. */
static enum { NO_BLANKS, ONE_BLANK, ANY_BLANKS } blanks;
static enum { CAPITALS, SMALL, EITHER } letters;
static const char *net_form, *module_form;

int is_of_atoms(int byte)
{
    return isalnum(byte) || byte == '-';
}

void put_sign(struct text *to, int sign)
{
    if (to->length < TEXT_ROOM)
        to->byte[to->length++] = (uint8_t)sign;
}

static void put_blanks(struct text *to)
{
    static const char *const some[] = {"", "", " ", "  ", "\n", "\r\n", "\r", " \n   "};

    if (blanks == ONE_BLANK)
        put_sign(to, ' ');
    if (blanks == ANY_BLANKS)
        for (const char *blank = some[below(8)]; *blank != 0; blank++)
            put_sign(to, *blank);
}

static void put_bracket(struct text *to, int bracket)
{
    put_blanks(to);
    put_sign(to, bracket);
}

static int letter(int of_name)
{
    int small = letters == SMALL || (letters == EITHER && percent(50));

    return small ? tolower(of_name) : toupper(of_name);
}

static void put_atom(struct text *to, const char *name)
{
    put_blanks(to);
    if (is_of_atoms(to->byte[to->length - 1]))
        put_sign(to, " \n\r"[below(3)]);
    for (; *name != 0; name++)
        put_sign(to, letter(*name));
}

static void put_net_name(struct text *to, int net)
{
    char name[NAME];

    snprintf(name, sizeof name, net_form, net);
    put_atom(to, name);
}

static void put_module_name(struct text *to, int number)
{
    char name[NAME];

    snprintf(name, sizeof name, module_form, number);
    put_atom(to, number < KINDS ? plain_gate_name(number) : name);
}

static void put_net_names(struct text *to, const struct list *list)
{
    for (int i = 0; i < list->count; i++)
        put_net_name(to, list->net[i]);
}

static void put_list(struct text *to, const struct list *list)
{
    put_bracket(to, '(');
    put_net_names(to, list);
    put_bracket(to, ')');
}

static void put_occurrence(struct text *to, const struct draft_occurrence *occurrence)
{
    put_bracket(to, '(');
    put_list(to, &occurrence->drives);
    put_bracket(to, '(');
    put_module_name(to, occurrence->refers);
    put_net_names(to, &occurrence->takes);
    put_bracket(to, ')');
    put_bracket(to, ')');
}

static void put_module(struct text *to, const struct draft_module *module)
{
    put_bracket(to, '(');
    put_module_name(to, module->number);
    put_list(to, &module->inputs);
    put_list(to, &module->outputs);
    put_bracket(to, '(');
    for (int i = 0; i < module->count; i++)
        put_occurrence(to, &module->occurrences[i]);
    put_bracket(to, ')');
    put_bracket(to, ')');
}

static void choose_hand(enum hand hand)
{
    blanks = hand == TERSE_HAND ? NO_BLANKS : below(3);
    letters = below(3);
    module_form = module_forms[hand == TERSE_HAND ? 0 : below(MODULE_FORMS)];
    net_form = net_forms[hand == TERSE_HAND ? below(SHORT_FORMS) : below(NET_FORMS)];
}

void spell(const struct draft *draft, enum hand hand, struct text *to)
{
    choose_hand(hand);
    to->length = 0;
    if (percent(30))
        put_bracket(to, '\'');
    put_bracket(to, '(');
    for (int i = 0; i < draft->count; i++) {
        if (hand == ANY_HAND)
            net_form = net_forms[below(NET_FORMS)];
        put_module(to, &draft->modules[i]);
    }
    put_bracket(to, ')');
    put_blanks(to);
}
