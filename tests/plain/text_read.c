/* Texts in the published list form (request M-100) to files: a function for each part of the grammar, front to back.
 *
 * The first refusal is kept in the reader; from then on there is nothing more to read. 25 and 26 are both found at the
 * byte that is their place, so that the first found is the one at the lower place. */
#include "plain.h"

enum {
    MOST_TEXT = 262144,
    MOST_ATOM = 32,
    LEAST_OCCURRENCE = 7, /* bytes: (()(A)) */
    NOTHING = -1
};

struct reader {
    const uint8_t *text;
    size_t length, at;
    struct refusal refusal;
};

/* Every list of the text that was read last, one after the other. */
static struct file text_file;
static uint16_t all_nets[MOST_TEXT];
static struct occurrence all_occurrences[MOST_TEXT / LEAST_OCCURRENCE + 1];
static int nets_used, occurrences_used;

static void refuse(struct reader *reader, int number)
{
    if (reader->refusal.number == 0)
        reader->refusal = (struct refusal){number, reader->at};
}

static int is_blank(int byte)
{
    return byte == ' ' || byte == '\n' || byte == '\r';
}

static int is_of_atoms(int byte)
{
    return (byte >= 'A' && byte <= 'Z') || (byte >= 'a' && byte <= 'z') || (byte >= '0' && byte <= '9') || byte == '-';
}

/* The next byte that is not blank, where the reader then is. */
static int next(struct reader *reader)
{
    if (reader->refusal.number != 0)
        return NOTHING;
    while (reader->at < reader->length && is_blank(reader->text[reader->at]))
        reader->at++;
    return reader->at < reader->length ? reader->text[reader->at] : NOTHING;
}

static void take(struct reader *reader, int bracket)
{
    if (next(reader) == bracket)
        reader->at++;
    else
        refuse(reader, 25);
}

static int read_atom(struct reader *reader, struct names *names)
{
    size_t end;
    int number = -1;

    if (!is_of_atoms(next(reader))) {
        refuse(reader, 25);
        return 0;
    }
    end = reader->at;
    while (end < reader->length && is_of_atoms(reader->text[end]))
        end++;
    if (end - reader->at <= MOST_ATOM)
        number = plain_number_of(names, reader->text + reader->at, end - reader->at);
    if (number < 0) {
        refuse(reader, 26);
        return 0;
    }
    reader->at = end;
    return number;
}

/* Atoms up to the end of their list. */
static struct nets read_nets(struct reader *reader)
{
    struct nets nets = {0, all_nets + nets_used};

    while (is_of_atoms(next(reader))) {
        if (nets.count == MOST_IN_LIST)
            refuse(reader, 26);
        else
            all_nets[nets_used++] = (uint16_t)read_atom(reader, &plain_net_names);
        nets.count++;
    }
    take(reader, ')');
    return nets;
}

static struct occurrence read_occurrence(struct reader *reader)
{
    struct occurrence occurrence;

    take(reader, '(');
    take(reader, '(');
    occurrence.drives = read_nets(reader);
    take(reader, '(');
    occurrence.refers = read_atom(reader, &plain_module_names);
    occurrence.takes = read_nets(reader);
    take(reader, ')');
    return occurrence;
}

static struct module read_module(struct reader *reader)
{
    struct module module;

    plain_forget(&plain_net_names);
    take(reader, '(');
    module.number = read_atom(reader, &plain_module_names);
    take(reader, '(');
    module.inputs = read_nets(reader);
    take(reader, '(');
    module.outputs = read_nets(reader);
    take(reader, '(');
    module.occurrences = all_occurrences + occurrences_used;
    for (module.count = 0; next(reader) == '('; module.count++) {
        if (module.count == MOST_OCCURRENCES)
            refuse(reader, 26);
        else
            all_occurrences[occurrences_used++] = read_occurrence(reader);
    }
    take(reader, ')');
    take(reader, ')');
    return module;
}

static struct refusal read_modules(const uint8_t *text, size_t length)
{
    struct reader reader = {text, length, 0, {0, 0}};

    plain_forget_all_but_gates(&plain_module_names);
    nets_used = occurrences_used = 0;
    if (next(&reader) == '\'')
        reader.at++;
    take(&reader, '(');
    for (text_file.count = 0; next(&reader) == '('; text_file.count++) {
        if (text_file.count == MOST_MODULES)
            refuse(&reader, 26);
        else
            text_file.modules[text_file.count] = read_module(&reader);
    }
    take(&reader, ')');
    if (next(&reader) != NOTHING)
        refuse(&reader, 25);
    return reader.refusal;
}

uint16_t plain_read_text(const uint8_t *text, size_t text_len, uint8_t *out, size_t out_len, size_t *written,
                         size_t *place)
{
    static struct bytes answer;
    struct refusal refusal;
    uint16_t refused;

    if (text_len > MOST_TEXT)
        return plain_end(place, 33, 0);
    refusal = read_modules(text, text_len);
    if (refusal.number != 0)
        return plain_end(place, refusal.number, refusal.place);
    if (plain_put_file(&answer, &text_file) > MOST_BYTES)
        return plain_end(place, 1, 0);
    refused = plain_check(answer.byte, answer.length, place);
    if (refused != 0)
        return refused;
    return plain_give(&answer, out, out_len, written, place);
}
