/* The names of a text and their numbers (request M-100), as a tree: each name is a way from the front, a letter a step. So
 * names that begin alike share steps, and many are found in little time. Letters of either case are alike. */
#include "plain.h"

#include <string.h>

/* A text has at most 262,144 letters; the front and the letters of the gates come before them. */
enum { MOST_STEPS = 262144 + 100 };

struct step {
    int letter, number; /* of the name that ends here, or -1 */
    int beside, behind; /* another letter in this one's place, and one that follows it; 0 where there is none */
};

struct names {
    int count, steps;
    struct step step[MOST_STEPS];
};

struct names plain_module_names, plain_net_names;

void plain_forget(struct names *names)
{
    names->count = 0;
    names->steps = 1;
    names->step[0] = (struct step){0, -1, 0, 0};
}

/* The step by a letter, a new one where no name has gone there. */
static int follow(struct names *names, int from, int letter)
{
    int to = names->step[from].behind;

    while (to != 0 && names->step[to].letter != letter)
        to = names->step[to].beside;
    if (to == 0) {
        to = names->steps++;
        names->step[to] = (struct step){letter, -1, names->step[from].behind, 0};
        names->step[from].behind = to;
    }
    return to;
}

static int capital(int letter)
{
    return letter >= 'a' && letter <= 'z' ? letter - 'a' + 'A' : letter;
}

/* The number of a name, the next one where it is new; -1 where all numbers are used. */
int plain_number_of(struct names *names, const uint8_t *letters, size_t length)
{
    int at = 0;

    for (size_t i = 0; i < length; i++)
        at = follow(names, at, capital(letters[i]));
    if (names->step[at].number < 0 && names->count < NET_NUMBERS)
        names->step[at].number = names->count++;
    return names->step[at].number;
}

/* Gates are the first names, so that they have their numbers and the next name has 16. */
void plain_forget_all_but_gates(struct names *names)
{
    plain_forget(names);
    for (int kind = 0; kind < KINDS; kind++)
        plain_number_of(names, (const uint8_t *)plain_gate_name(kind), strlen(plain_gate_name(kind)));
}
