/* See texts.h. The table of compare.h counts the numbers that were given. */
#include "texts.h"

#include "../plain/plain.h"
#include "compare.h"
#include "damage.h"
#include "family.h"
#include "make.h"
#include "random.h"
#include "shelf.h"
#include "text_ceilings.h"
#include "text_damage.h"

#include <stdio.h>
#include <string.h>

enum { FILE_MOST = 65536, SCRATCH = 65536, LIST = 192 };

static struct draft draft;
static struct text text;

/* Texts at a ceiling and one past it, and those that only lack an end; files printed into a buffer for any text and into a
 * shorter one, and their texts read back. */
static long at_ceiling[TEXT_CEILINGS][2], lacking_an_end, straight, through, read_back, too_long_to_read;

/* ---- reading */

static struct made compare_text(void)
{
    static uint8_t out[FILE_MOST];
    size_t right = 0, place;
    uint16_t refused = plain_read_text(text.byte, text.length, out, sizeof out, &right, &place);
    struct made made = compare_making(READ_TEXT, shelf_read_text, plain_read_text, text.byte, text.length,
                                      near(refused == 0 ? right : (size_t)below(60)));

    lacking_an_end += made.number == 25 && made.place == text.length;
    return made;
}

static void compare_at_ceiling(void)
{
    enum text_ceiling ceiling = (enum text_ceiling)below(TEXT_CEILINGS);
    int over = percent(50);

    make_text_at(ceiling, over, &draft, &text);
    if (percent(20)) {
        damage_text(&text);
        compare_text();
        return;
    }
    if ((compare_text().number == number_past(ceiling)) != over)
        report("a text at a ceiling is refused for it, or one past it is not");
    at_ceiling[ceiling][over]++;
}

/* A sign at a time, now and then many of it. What no text goes on with is taken away again, so that each sign is tried
 * at each part of a text. */
static void compare_growing(void)
{
    text.length = 0;
    for (int steps = between(5, 60); steps > 0; steps--) {
        size_t before = text.length;
        int sign = telling_sign();
        struct made made;

        for (int times = percent(5) ? between(31, 34) : 1; times > 0; times--)
            put_sign(&text, sign);
        made = compare_text();
        if (made.number == 26 || (made.number == 25 && made.place < text.length))
            text.length = before;
    }
}

static void break_rules(void)
{
    for (int i = between(1, 2); i > 0; i--)
        break_rule(&draft, between(6, 15));
}

static void compare_large(void)
{
    if (percent(70))
        make_at_ceiling(&draft);
    else
        make_large(&draft);
    if (percent(20))
        break_rules();
    spell(&draft, percent(90) ? TERSE_HAND : ANY_HAND, &text);
    if (percent(10))
        damage_text(&text);
    compare_text();
}

static void compare_small(int spoil_rules, int spoil_text)
{
    make_random(&draft);
    if (spoil_rules)
        break_rules();
    spell(&draft, ANY_HAND, &text);
    if (spoil_text)
        damage_text(&text);
    compare_text();
}

void compare_a_text(void)
{
    int roll = below(1000);

    if (roll < 15) {
        compare_at_ceiling();
    } else if (roll < 25) {
        compare_large();
    } else if (roll < 50) {
        compare_growing();
    } else if (roll < 110) {
        make_text_noise(&text);
        compare_text();
    } else {
        compare_small(roll < 400, roll >= 400 && roll < 650);
    }
}

/* ---- printing */

/* What a module answers: its figures, its outputs for some values, and its flattened gates. */
struct answers {
    uint16_t refused, refused_flat;
    uint32_t figures[8], tally[16];
    uint8_t outputs[LIST], flat[FILE_MOST];
    size_t flat_length;
};

static void ask(const uint8_t *file, size_t length, size_t position, const uint8_t *values, struct answers *answers)
{
    static uint32_t scratch[SCRATCH];
    size_t outputs, place;
    uint32_t work;
    uint16_t number = 0;

    memset(answers, 0, sizeof *answers);
    answers->refused = shelf_number_at(file, length, position, &number, &place);
    if (answers->refused != 0)
        return;
    answers->refused = shelf_count(file, length, number, unit_family, scratch, SCRATCH, answers->figures,
                                   answers->tally, &place);
    shelf_evaluate(file, length, number, values, answers->figures[0], scratch, SCRATCH, answers->outputs, LIST,
                   &outputs, &work, &place);
    answers->refused_flat = shelf_flatten(file, length, number, scratch, SCRATCH, answers->flat, FILE_MOST,
                                          &answers->flat_length, &place);
    if (answers->refused_flat != 0)
        return;
    /* The number itself, one or two bytes behind the count of modules, is another. */
    answers->flat_length -= number < 128 ? 2 : 3;
    memmove(answers->flat, answers->flat + (number < 128 ? 2 : 3), answers->flat_length);
}

/* Any module of the file that comes back answers as the one that was printed. */
static void judge_read_back(const uint8_t *file, size_t length, const uint8_t *back, size_t back_length)
{
    static struct answers printed, answered;
    uint8_t values[LIST];
    size_t modules = 0, place, position;

    shelf_modules(file, length, &modules, &place);
    position = (size_t)below((int)modules + 1);
    for (int i = 0; i < LIST; i++)
        values[i] = (uint8_t)below(4);
    ask(file, length, position, values, &printed);
    ask(back, back_length, position, values, &answered);
    if (printed.refused != answered.refused || printed.refused_flat != answered.refused_flat ||
        memcmp(printed.figures, answered.figures, sizeof printed.figures) != 0 ||
        memcmp(printed.tally, answered.tally, sizeof printed.tally) != 0 ||
        memcmp(printed.outputs, answered.outputs, sizeof printed.outputs) != 0 ||
        printed.flat_length != answered.flat_length ||
        memcmp(printed.flat, answered.flat, printed.flat_length) != 0)
        report("a module of a file that was printed and read back answers otherwise");
}

static void compare_read_back(const uint8_t *file, size_t length)
{
    struct made made = compare_making(READ_TEXT, shelf_read_text, plain_read_text, text.byte, text.length, FILE_MOST);

    if (made.number != 0 && made.number != 33 && made.number != 1)
        report("a printed text is refused for another reason than its length");
    if (made.number == 0)
        judge_read_back(file, length, made.bytes, made.length);
    *(made.number == 0 ? &read_back : &too_long_to_read) += 1;
}

/* What any text of a file of so many bytes has at most. */
static size_t most_text(size_t length)
{
    return length > MOST_BYTES ? SHELF_TEXT_MOST : 6 * length;
}

static size_t some_room(const uint8_t *file, size_t length)
{
    static uint8_t out[SHELF_TEXT_MOST];
    size_t right = 0, place;

    if (percent(30))
        return most_text(length);
    plain_print_text(file, length, out, sizeof out, &right, &place);
    return near(right);
}

void compare_printed(const uint8_t *file, size_t length)
{
    size_t room = some_room(file, length);
    struct made made = compare_making(PRINT_TEXT, shelf_print_text, plain_print_text, file, length, room);

    if (made.number != 0)
        return;
    *(room >= most_text(length) ? &straight : &through) += 1;
    text.length = made.length;
    memcpy(text.byte, made.bytes, made.length);
    compare_read_back(file, length);
}

int texts_summary(void)
{
    int complete = lacking_an_end > 0 && straight > 0 && through > 0 && read_back > 0;

    printf("texts at a ceiling and one past it:");
    for (int i = 0; i < TEXT_CEILINGS; i++) {
        printf("%s %s %ld %ld", i == 0 ? "" : ",", text_ceiling_names[i], at_ceiling[i][0], at_ceiling[i][1]);
        complete &= at_ceiling[i][0] > 0 && at_ceiling[i][1] > 0;
    }
    printf("; that only lack an end: %ld\n", lacking_an_end);
    printf("printed into a buffer for any text %ld, into a shorter one %ld; read back %ld, too long for it %ld\n",
           straight, through, read_back, too_long_to_read);
    return complete;
}
