/* See text_damage.h. As with files, the plain reading says what came of it. */
#include "text_damage.h"

#include "random.h"

#include <string.h>

/* The signs of a text, the bytes beside them, and others that a list might be thought to have. */
int telling_sign(void)
{
    static const char often[] = "(()) a'", seldom[] = "()' \n\r-AZaz09\t\v\f&*,./:;@[`{\"|#_\\!\x1f\x7f\x80\xff";
    int roll = below(100);

    if (roll < 60)
        return often[below(sizeof often - 1)];
    return roll < 95 ? (uint8_t)seldom[below(sizeof seldom)] : below(256);
}

static void insert(struct text *text, size_t at, int sign, size_t times)
{
    if (text->length + times > TEXT_ROOM)
        return;
    memmove(text->byte + at + times, text->byte + at, text->length - at);
    memset(text->byte + at, sign, times);
    text->length += times;
}

static void cut(struct text *text, size_t at, size_t count)
{
    memmove(text->byte + at, text->byte + at + count, text->length - at - count);
    text->length -= count;
}

static size_t somewhere(const struct text *text)
{
    return (size_t)below((int)text->length);
}

static int is_bracket(int byte)
{
    return byte == '(' || byte == ')';
}

/* A byte of that sort, the first behind some place; the text's length where there is none. */
static size_t find(const struct text *text, int (*sort)(int byte))
{
    size_t start = somewhere(text);

    for (size_t i = 0; i < text->length; i++)
        if (sort(text->byte[(start + i) % text->length]))
            return (start + i) % text->length;
    return text->length;
}

static void spoil_bracket(struct text *text)
{
    size_t at = find(text, is_bracket);

    if (at == text->length)
        return;
    switch (below(3)) {
    case 0:
        insert(text, at, text->byte[at], 1);
        break;
    case 1:
        cut(text, at, 1);
        break;
    default:
        text->byte[at] ^= '(' ^ ')';
    }
}

/* B-EQV is often written so; it is no gate then. */
static void misspell_gate(struct text *text)
{
    for (size_t at = somewhere(text); at + 2 < text->length; at++)
        if ((text->byte[at] | 32) == 'b' && text->byte[at + 1] == '-') {
            insert(text, at + (size_t)between(1, 3), "BUNX-2"[below(6)], 1);
            return;
        }
}

static int is_space(int byte)
{
    return byte == ' ';
}

static void put_tab(struct text *text)
{
    size_t at = find(text, is_space);

    insert(text, at, '\t', 1);
    if (at + 1 < text->length && percent(50))
        cut(text, at + 1, 1);
}

void lengthen_atom(struct text *text, size_t length)
{
    size_t start = find(text, is_of_atoms), end = start;

    while (start > 0 && is_of_atoms(text->byte[start - 1]))
        start--;
    while (end < text->length && is_of_atoms(text->byte[end]))
        end++;
    if (start < end && end - start < length)
        insert(text, percent(50) ? start : end, 'x', length - (end - start));
}

void pad_with_blanks(struct text *text, size_t length)
{
    size_t at = percent(30) ? 0 : percent(50) ? text->length : find(text, is_bracket);

    if (text->length < length)
        insert(text, at, " \n\r"[below(3)], length - text->length);
}

static void damage_once(struct text *text)
{
    size_t at = somewhere(text);

    switch (below(9)) {
    case 0:
        text->byte[at] = (uint8_t)telling_sign();
        break;
    case 1:
        insert(text, percent(90) ? at : text->length, telling_sign(), 1);
        break;
    case 2:
        cut(text, at, 1);
        break;
    case 3:
        text->length = at;
        break;
    case 4:
        misspell_gate(text);
        break;
    case 5:
        put_tab(text);
        break;
    case 6:
        lengthen_atom(text, (size_t)between(31, 40));
        break;
    default:
        spoil_bracket(text);
    }
}

void damage_text(struct text *text)
{
    for (int i = between(1, 3); i > 0 && text->length > 0; i--)
        damage_once(text);
}

void make_text_noise(struct text *text)
{
    int length = percent(50) ? below(6) : below(40);

    text->length = 0;
    while (length-- > 0)
        put_sign(text, telling_sign());
}
