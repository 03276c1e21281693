/* The calls on shelf files as a good engineer would write them for speed: one pass decodes the bytes, one resolves
 * every net to its slot and every reference to its position, and all memory is static. Tables over net numbers are
 * never cleared: an entry counts only if it bears the stamp of the module at hand. Not for two threads at once. */
#include "tuned.h"

#include <string.h>

enum {
    BYTES = 65535,
    MODULES = 128,
    LIST = 192,
    NUMBERS = 16384,
    NETS = 4096,
    OCCURRENCES = 4096,
    SIZE = 65535,
    ROWS = 1024,
    BLOCK = 256, /* rows in one walk */
    GATES = 16,
    ROOM = 40959, /* at most so in a good file, which lists every net of every frame */
    TEXT_BYTES = 262144
};

struct module {
    uint32_t byte;    /* of its number in the file */
    uint32_t start;   /* of its number in `numbers` */
    uint32_t outputs; /* of its output list */
    uint32_t body;    /* of its count of occurrences */
    uint32_t image;   /* of its first occurrence in `image` */
    uint32_t references;
    uint32_t gates, size, room, nets, load;
    uint16_t number, ins, outs, runs, calls;
    uint8_t again; /* a later module has the same number */
};

static uint16_t numbers[TEXT_BYTES]; /* of a text there may be more than of any file */
static struct module modules[MODULES];
static uint32_t module_count;

/* For each occurrence what it refers to (a gate, or 16 + position), then the slots of its arguments. What it drives
 * are the next slots of the frame. Outputs stand apart, one row a module. */
static uint16_t image[BYTES + 1];
static uint16_t output_slots[MODULES][LIST];
static uint8_t references[BYTES / 3 + 1];

/* Stamped tables: stamp in the high half, slot or position in the low half. */
static uint32_t slot_of[NUMBERS], listed[NUMBERS], position_of[NUMBERS];
static uint32_t stamp;

static const uint8_t arity[GATES] = {1, 1, 2, 3, 4, 2, 3, 4, 2, 2, 2, 3, 4, 2, 3, 4};

static uint32_t next_stamp(void)
{
    if (++stamp == 0x10000) {
        memset(slot_of, 0, sizeof slot_of);
        memset(listed, 0, sizeof listed);
        memset(position_of, 0, sizeof position_of);
        stamp = 1;
    }
    return stamp << 16;
}

static uint16_t end(size_t *place, uint16_t number, size_t at)
{
    *place = at;
    return number;
}

/* ---- reading */

/* Kept in registers: everything that takes a cursor is put into read_file. A step that fails gives minus the number of
 * the refusal and leaves `at` on the number that it is about. */
struct cursor {
    const uint8_t *at, *end;
    uint16_t *to;
};

#define INTO static inline __attribute__((always_inline))

INTO int long_number(const uint8_t *at, const uint8_t *file_end)
{
    if (file_end - at < 2)
        return -2;
    if (at[1] == 0 || at[1] >= 128)
        return -3;
    return at[0] - 128 + 128 * at[1];
}

INTO int take(struct cursor *c)
{
    int n;

    if (c->at < c->end && *c->at < 128) {
        n = *c->at++;
    } else {
        n = long_number(c->at, c->end);
        if (n < 0)
            return n;
        c->at += 2;
    }
    *c->to++ = (uint16_t)n;
    return n;
}

INTO int take_count(struct cursor *c, int ceiling)
{
    int n = take(c);

    if (n > ceiling) {
        c->at -= n < 128 ? 1 : 2;
        return -4;
    }
    return n;
}

INTO int take_list(struct cursor *c)
{
    int n = take_count(c, LIST), last;

    for (int i = 0; i < n; i++)
        if ((last = take(c)) < 0)
            return last;
    return n;
}

INTO int take_occurrence(struct cursor *c)
{
    int last;

    if ((last = take_list(c)) < 0 || (last = take(c)) < 0)
        return last;
    return take_list(c);
}

INTO int take_module(struct cursor *c, struct module *m)
{
    int number, ins, outs, runs, last;

    m->start = (uint32_t)(c->to - numbers);
    if ((number = take(c)) < 0)
        return number;
    if ((ins = take_list(c)) < 0)
        return ins;
    m->outputs = (uint32_t)(c->to - numbers) + 1;
    if ((outs = take_list(c)) < 0)
        return outs;
    m->body = (uint32_t)(c->to - numbers) + 1;
    if ((runs = take_count(c, OCCURRENCES)) < 0)
        return runs;
    for (int i = 0; i < runs; i++)
        if ((last = take_occurrence(c)) < 0)
            return last;
    m->number = (uint16_t)number;
    m->ins = (uint16_t)ins;
    m->outs = (uint16_t)outs;
    m->runs = (uint16_t)runs;
    return 0;
}

static uint16_t read_file(const uint8_t *file, size_t length, size_t *place)
{
    struct cursor c = {file, file + length, numbers};
    int count, last;

    if (length > BYTES)
        return end(place, 1, 0);
    last = count = take_count(&c, MODULES);
    for (int i = 0; i < count && last >= 0; i++) {
        modules[i].byte = (uint32_t)(c.at - file);
        last = take_module(&c, &modules[i]);
    }
    if (last < 0)
        return end(place, (uint16_t)-last, last == -2 ? length : (size_t)(c.at - file));
    if (c.at < c.end)
        return end(place, 5, (size_t)(c.at - file));
    module_count = (uint32_t)count;
    return 0;
}

/* ---- the check */

static void find_positions(uint32_t mark)
{
    for (uint32_t k = module_count; k-- > 0;) {
        uint32_t *entry = &position_of[modules[k].number];

        modules[k].again = (*entry & 0xFFFF0000) == mark;
        *entry = mark | k;
    }
}

static uint16_t check_lists(const struct module *m, uint32_t mark)
{
    const uint16_t *in = numbers + m->start + 2, *out = numbers + m->outputs;

    if (m->number < 16)
        return 6;
    if (m->again)
        return 7;
    for (uint32_t i = 0; i < m->ins; i++) {
        if ((slot_of[in[i]] & 0xFFFF0000) == mark)
            return 8;
        slot_of[in[i]] = mark | i;
    }
    for (uint32_t i = 0; i < m->outs; i++) {
        if (listed[out[i]] == mark)
            return 9;
        listed[out[i]] = mark;
    }
    for (uint32_t i = 0; i < m->outs; i++)
        if ((slot_of[out[i]] & 0xFFFF0000) == mark)
            return 10;
    return 0;
}

/* Rules 11 to 14 for every occurrence, and the image of the module. */
static uint16_t check_body(uint32_t k, uint32_t mark, uint32_t positions, uint16_t **image_end,
                           uint8_t **references_end)
{
    struct module *m = &modules[k];
    const uint16_t *at = numbers + m->body;
    uint16_t *to = *image_end;
    uint8_t *calls = *references_end;
    uint32_t slot = m->ins;

    for (uint32_t i = 0; i < m->runs; i++) {
        uint32_t drives = *at++, limit = mark | slot, refers, takes, ins, outs;

        for (uint32_t j = 0; j < drives; j++) {
            uint32_t *entry = &slot_of[*at++];

            if ((*entry & 0xFFFF0000) == mark)
                return 11;
            *entry = mark | slot++;
        }
        refers = *at++;
        takes = *at++;
        *to++ = (uint16_t)refers;
        for (uint32_t j = 0; j < takes; j++) {
            uint32_t entry = slot_of[*at++];

            /* An older stamp gives a huge difference, a net of this occurrence one not below its first slot. */
            if (entry - mark >= limit - mark)
                return 12;
            *to++ = (uint16_t)entry;
        }
        if (refers < GATES) {
            ins = arity[refers];
            outs = 1;
        } else {
            uint32_t entry = position_of[refers], later = entry & 0xFFFF;

            if ((entry & 0xFFFF0000) != positions || later <= k)
                return 13;
            to[-1 - (int)takes] = (uint16_t)(GATES + later);
            *calls++ = (uint8_t)later;
            ins = modules[later].ins;
            outs = modules[later].outs;
        }
        if (takes != ins || drives != outs)
            return 14;
    }
    m->nets = slot;
    m->calls = (uint16_t)(calls - *references_end);
    *image_end = to;
    *references_end = calls;
    return 0;
}

static uint16_t check_outputs(uint32_t k, uint32_t mark)
{
    const struct module *m = &modules[k];

    for (uint32_t i = 0; i < m->outs; i++) {
        uint32_t entry = slot_of[numbers[m->outputs + i]];

        if ((entry & 0xFFFF0000) != mark)
            return 15;
        output_slots[k][i] = (uint16_t)entry;
    }
    return m->nets > NETS ? 16 : 0;
}

static uint16_t measure(size_t *place)
{
    for (uint32_t k = module_count; k-- > 0;) {
        struct module *m = &modules[k];
        uint32_t size = m->runs, room = 0, gates = (uint32_t)m->runs - m->calls;

        for (uint32_t i = 0; i < m->calls; i++) {
            const struct module *inner = &modules[references[m->references + i]];

            size += inner->size;
            gates += inner->gates;
            if (inner->room > room)
                room = inner->room;
        }
        if (size > SIZE)
            return end(place, 17, k);
        m->size = size;
        m->gates = gates;
        m->room = m->nets + room;
    }
    return end(place, 0, 0);
}

/* 6 to 17, of modules that stand in `numbers`. */
static uint16_t check_modules(size_t *place)
{
    uint16_t no, *image_end = image;
    uint8_t *references_end = references;
    uint32_t positions = next_stamp();

    find_positions(positions);
    for (uint32_t k = 0; k < module_count; k++) {
        uint32_t mark = next_stamp();

        if (mark < positions) { /* the stamps began anew and took the positions with them */
            positions = mark;
            find_positions(positions);
            mark = next_stamp();
        }
        modules[k].image = (uint32_t)(image_end - image);
        modules[k].references = (uint32_t)(references_end - references);
        if ((no = check_lists(&modules[k], mark)) != 0 ||
            (no = check_body(k, mark, positions, &image_end, &references_end)) != 0 ||
            (no = check_outputs(k, mark)) != 0)
            return end(place, no, k);
    }
    return measure(place);
}

static uint16_t open_file(const uint8_t *file, size_t length, size_t *place)
{
    uint16_t no = read_file(file, length, place);

    return no != 0 ? no : check_modules(place);
}

static int find(uint16_t number)
{
    for (uint32_t k = 0; k < module_count; k++)
        if (modules[k].number == number)
            return (int)k;
    return -1;
}

uint16_t TUNED(check)(const uint8_t *file, size_t file_len, size_t *place)
{
    return open_file(file, file_len, place);
}

uint16_t TUNED(modules)(const uint8_t *file, size_t file_len, size_t *count, size_t *place)
{
    uint16_t no = open_file(file, file_len, place);

    if (no != 0)
        return no;
    *count = module_count;
    return 0;
}

uint16_t TUNED(number_at)(const uint8_t *file, size_t file_len, size_t position, uint16_t *number, size_t *place)
{
    uint16_t no = open_file(file, file_len, place);

    if (no != 0)
        return no;
    if (position >= module_count)
        return end(place, 18, 0);
    *number = modules[position].number;
    return 0;
}

/* ---- evaluation */

/* A gate's value by kind and up to four values of two bits, the first argument lowest. */
static uint8_t gate_values[GATES][256];

static int three_valued(int kind, uint32_t values)
{
    int zeros = 0, unknowns = 0, ones = 0, all, any;

    for (int i = 0; i < arity[kind]; i++, values >>= 2) {
        zeros += (values & 3) == 0;
        ones += (values & 3) == 1;
        unknowns += (values & 3) >= 2;
    }
    all = zeros ? 0 : unknowns ? 2 : 1;
    any = ones ? 1 : unknowns ? 2 : 0;
    switch (kind) {
    case 0: case 5: case 6: case 7:
        return any;
    case 1: case 13: case 14: case 15:
        return any == 2 ? 2 : 1 - any;
    case 2: case 3: case 4:
        return all == 2 ? 2 : 1 - all;
    case 8:
        return unknowns ? 2 : ones != 1;
    case 9:
        return unknowns ? 2 : ones == 1;
    default:
        return all;
    }
}

static void make_gate_values(void)
{
    static int made;

    if (made)
        return;
    for (int kind = 0; kind < GATES; kind++)
        for (uint32_t values = 0; values < 256; values++)
            gate_values[kind][values] = (uint8_t)three_valued(kind, values);
    made = 1;
}

static uint8_t frame_values[ROOM];

static void run_values(uint32_t k, uint8_t *frame)
{
    const struct module *m = &modules[k];
    const uint16_t *at = image + m->image;
    uint8_t *next = frame + m->ins, *inner_frame = frame + m->nets;

    for (uint32_t i = 0; i < m->runs; i++) {
        uint32_t refers = *at++;

        if (refers < GATES) {
            uint32_t index = frame[at[0]];

            switch (arity[refers]) {
            case 4:
                index |= (uint32_t)frame[at[3]] << 6; /* fall through */
            case 3:
                index |= (uint32_t)frame[at[2]] << 4; /* fall through */
            case 2:
                index |= (uint32_t)frame[at[1]] << 2;
            }
            at += arity[refers];
            *next++ = gate_values[refers][index];
        } else {
            uint32_t inner = refers - GATES, ins = modules[inner].ins, outs = modules[inner].outs;

            for (uint32_t j = 0; j < ins; j++)
                inner_frame[j] = frame[*at++];
            run_values(inner, inner_frame);
            for (uint32_t j = 0; j < outs; j++)
                *next++ = inner_frame[output_slots[inner][j]];
        }
    }
}

uint16_t TUNED(evaluate)(const uint8_t *file, size_t file_len, uint16_t number, const uint8_t *values,
                         size_t values_len, uint32_t *scratch, size_t scratch_len, uint8_t *out, size_t out_len,
                         size_t *written, uint32_t *work, size_t *place)
{
    uint16_t no = open_file(file, file_len, place);
    const struct module *m;
    int k;

    if (no != 0)
        return no;
    if ((k = find(number)) < 0)
        return end(place, 18, 0);
    m = &modules[k];
    if (values_len != m->ins)
        return end(place, 19, 0);
    for (size_t i = 0; i < values_len; i++)
        if (values[i] > 3)
            return end(place, 20, i);
    if (scratch_len < m->room)
        return end(place, 21, 0);
    if (out_len < m->outs)
        return end(place, 22, 0);
    make_gate_values();
    memcpy(frame_values, values, values_len);
    run_values((uint32_t)k, frame_values);
    for (uint32_t i = 0; i < m->outs; i++)
        out[i] = frame_values[output_slots[k][i]];
    memset(scratch, 0, m->room * sizeof *scratch);
    *written = m->outs;
    *work = m->size;
    return 0;
}

/* ---- rows, a block of 256 in one walk: a bit for each row says whether a net is surely 1, another whether it may be */

struct rails {
    uint64_t sure[4], may[4];
};

static struct rails frame_rails[ROOM];

static inline struct rails rails_and(struct rails a, struct rails b)
{
    for (int i = 0; i < 4; i++) {
        a.sure[i] &= b.sure[i];
        a.may[i] &= b.may[i];
    }
    return a;
}

static inline struct rails rails_or(struct rails a, struct rails b)
{
    for (int i = 0; i < 4; i++) {
        a.sure[i] |= b.sure[i];
        a.may[i] |= b.may[i];
    }
    return a;
}

static inline struct rails rails_not(struct rails a)
{
    struct rails r;

    for (int i = 0; i < 4; i++) {
        r.sure[i] = ~a.may[i];
        r.may[i] = ~a.sure[i];
    }
    return r;
}

static inline struct rails rails_xor(struct rails a, struct rails b)
{
    return rails_or(rails_and(a, rails_not(b)), rails_and(rails_not(a), b));
}

static struct rails rails_at_gate(uint32_t kind, const struct rails *frame, const uint16_t *at)
{
    struct rails r = frame[at[0]];

    switch (kind) {
    case 0:
        return r;
    case 1:
        return rails_not(r);
    case 4:
    case 12:
        r = rails_and(r, frame[at[3]]); /* fall through */
    case 3:
    case 11:
        r = rails_and(r, frame[at[2]]); /* fall through */
    case 2:
    case 10:
        r = rails_and(r, frame[at[1]]);
        return kind < 5 ? rails_not(r) : r;
    case 7:
    case 15:
        r = rails_or(r, frame[at[3]]); /* fall through */
    case 6:
    case 14:
        r = rails_or(r, frame[at[2]]); /* fall through */
    case 5:
    case 13:
        r = rails_or(r, frame[at[1]]);
        return kind > 12 ? rails_not(r) : r;
    case 8:
        return rails_not(rails_xor(r, frame[at[1]]));
    default:
        return rails_xor(r, frame[at[1]]);
    }
}

static void run_rails(uint32_t k, struct rails *frame)
{
    const struct module *m = &modules[k];
    const uint16_t *at = image + m->image;
    struct rails *next = frame + m->ins, *inner_frame = frame + m->nets;

    for (uint32_t i = 0; i < m->runs; i++) {
        uint32_t refers = *at++;

        if (refers < GATES) {
            *next++ = rails_at_gate(refers, frame, at);
            at += arity[refers];
        } else {
            uint32_t inner = refers - GATES, ins = modules[inner].ins, outs = modules[inner].outs;

            for (uint32_t j = 0; j < ins; j++)
                inner_frame[j] = frame[*at++];
            run_rails(inner, inner_frame);
            for (uint32_t j = 0; j < outs; j++)
                *next++ = inner_frame[output_slots[inner][j]];
        }
    }
}

/* Up to 64 rows into a word of each rail of each input: eight rows into a byte, from the last to the first. */
static void pack_word(const uint8_t *values, uint32_t ins, size_t rows, int word)
{
    for (uint32_t j = 0; j < ins; j++)
        frame_rails[j].sure[word] = frame_rails[j].may[word] = 0;
    for (size_t left = rows; left > 0;) {
        size_t some = (left - 1) % 8 + 1;
        uint8_t sure[LIST] = {0}, may[LIST] = {0};

        left -= some;
        for (size_t r = some; r-- > 0;) {
            const uint8_t *row = values + (left + r) * ins;

            for (uint32_t j = 0; j < ins; j++) {
                sure[j] = (uint8_t)(sure[j] << 1 | (row[j] == 1));
                may[j] = (uint8_t)(may[j] << 1 | (row[j] != 0));
            }
        }
        for (uint32_t j = 0; j < ins; j++) {
            frame_rails[j].sure[word] = frame_rails[j].sure[word] << 8 | sure[j];
            frame_rails[j].may[word] = frame_rails[j].may[word] << 8 | may[j];
        }
    }
}

static void unpack(const uint16_t *slots, uint32_t outs, size_t rows, uint8_t *out)
{
    for (size_t from = 0; from < rows; from += 8) {
        size_t some = rows - from < 8 ? rows - from : 8;
        uint8_t sure[LIST], may[LIST];

        for (uint32_t j = 0; j < outs; j++) {
            sure[j] = (uint8_t)(frame_rails[slots[j]].sure[from / 64] >> from % 64);
            may[j] = (uint8_t)(frame_rails[slots[j]].may[from / 64] >> from % 64);
        }
        for (size_t r = 0; r < some; r++, out += outs)
            for (uint32_t j = 0; j < outs; j++)
                out[j] = (uint8_t)((may[j] >> r & 1) * 2 - (sure[j] >> r & 1));
    }
}

static size_t at_most(size_t a, size_t b)
{
    return a < b ? a : b;
}

static size_t first_above(const uint8_t *values, size_t count)
{
    uint8_t most = 0;
    size_t i = 0;

    for (size_t j = 0; j < count; j++)
        most = values[j] > most ? values[j] : most;
    if (most <= 3)
        return count;
    while (values[i] <= 3)
        i++;
    return i;
}

uint16_t TUNED(evaluate_rows)(const uint8_t *file, size_t file_len, uint16_t number, size_t rows,
                              const uint8_t *values, size_t values_len, uint32_t *scratch, size_t scratch_len,
                              uint8_t *out, size_t out_len, size_t *written, uint32_t *work, size_t *place)
{
    uint16_t no = open_file(file, file_len, place);
    const struct module *m;
    size_t above;
    int k;

    if (no != 0)
        return no;
    if ((k = find(number)) < 0)
        return end(place, 18, 0);
    m = &modules[k];
    if (rows > ROWS)
        return end(place, 27, 0);
    if (values_len != rows * m->ins)
        return end(place, 19, 0);
    if ((above = first_above(values, values_len)) < values_len)
        return end(place, 20, above);
    if (scratch_len < m->room)
        return end(place, 21, 0);
    if (out_len < rows * m->outs)
        return end(place, 22, 0);
    for (size_t done = 0; done < rows; done += BLOCK) {
        size_t some = at_most(rows - done, BLOCK);

        for (size_t word = 0; word < 4; word++) {
            size_t from = at_most(64 * word, some);

            pack_word(values + (done + from) * m->ins, m->ins, at_most(some - from, 64), (int)word);
        }
        run_rails((uint32_t)k, frame_rails);
        unpack(output_slots[k], m->outs, some, out + done * m->outs);
    }
    memset(scratch, 0, m->room * sizeof *scratch);
    *written = rows * m->outs;
    *work = (uint32_t)rows * m->size;
    return 0;
}

/* ---- counts */

static uint32_t tallies[MODULES][GATES], loads[NETS];
static uint32_t input_loads[MODULES][LIST], output_loads[MODULES][LIST];

/* Tally and loads of a module, those of later modules being there. What an occurrence drives are the next slots. */
static void count_module(uint32_t k)
{
    struct module *m = &modules[k];
    const uint16_t *at = image + m->image;
    uint32_t *tally = tallies[k], *driven = loads + m->ins, most = 0;

    memset(tally, 0, sizeof tallies[k]);
    memset(loads, 0, m->nets * sizeof *loads);
    for (uint32_t i = 0; i < m->runs; i++) {
        uint32_t refers = *at++;

        if (refers < GATES) {
            tally[refers]++;
            for (uint32_t j = 0; j < arity[refers]; j++)
                loads[*at++]++;
            driven++;
        } else {
            uint32_t inner = refers - GATES;

            for (uint32_t j = 0; j < GATES; j++)
                tally[j] += tallies[inner][j];
            for (uint32_t j = 0; j < modules[inner].ins; j++)
                loads[*at++] += input_loads[inner][j];
            for (uint32_t j = 0; j < modules[inner].outs; j++)
                *driven++ = output_loads[inner][j];
            if (modules[inner].load > most)
                most = modules[inner].load;
        }
    }
    for (uint32_t i = 0; i < m->nets; i++)
        if (loads[i] > most)
            most = loads[i];
    memcpy(input_loads[k], loads, m->ins * sizeof *loads);
    for (uint32_t i = 0; i < m->outs; i++)
        output_loads[k][i] = loads[output_slots[k][i]];
    m->load = most;
}

/* Counts the modules that k reaches, and k itself, the last first. */
static void count_reached(uint32_t k)
{
    static uint8_t reached[MODULES];

    memset(reached, 0, module_count);
    reached[k] = 1;
    for (uint32_t i = k; i < module_count; i++)
        if (reached[i])
            for (uint32_t j = 0; j < modules[i].calls; j++)
                reached[references[modules[i].references + j]] = 1;
    for (uint32_t i = module_count; i-- > k;)
        if (reached[i])
            count_module(i);
}

/* When a net arrives, with one for every gate and by a family: both in one walk. */
struct times {
    uint32_t unit, family;
};

static struct times frame_times[ROOM];

static inline struct times later(struct times a, struct times b)
{
    return (struct times){a.unit < b.unit ? b.unit : a.unit, a.family < b.family ? b.family : a.family};
}

static void run_times(uint32_t k, struct times *frame, const uint8_t *family)
{
    const struct module *m = &modules[k];
    const uint16_t *at = image + m->image;
    struct times *next = frame + m->ins, *inner_frame = frame + m->nets;

    for (uint32_t i = 0; i < m->runs; i++) {
        uint32_t refers = *at++;

        if (refers < GATES) {
            struct times latest = {0, 0};

            for (uint32_t j = 0; j < arity[refers]; j++, at++)
                latest = later(latest, frame[*at]);
            *next++ = (struct times){latest.unit + 1, latest.family + family[refers]};
        } else {
            uint32_t inner = refers - GATES;

            for (uint32_t j = 0; j < modules[inner].ins; j++)
                inner_frame[j] = frame[*at++];
            run_times(inner, inner_frame, family);
            for (uint32_t j = 0; j < modules[inner].outs; j++)
                *next++ = inner_frame[output_slots[inner][j]];
        }
    }
}

static struct times delays(uint32_t k, const uint8_t *family)
{
    struct times latest = {0, 0};

    memset(frame_times, 0, modules[k].ins * sizeof *frame_times);
    run_times(k, frame_times, family);
    for (uint32_t i = 0; i < modules[k].outs; i++)
        latest = later(latest, frame_times[output_slots[k][i]]);
    return latest;
}

uint16_t TUNED(count)(const uint8_t *file, size_t file_len, uint16_t number, const uint8_t family[16],
                      uint32_t *scratch, size_t scratch_len, uint32_t figures[8], uint32_t tally[16], size_t *place)
{
    uint16_t no = open_file(file, file_len, place);
    const struct module *m;
    struct times times;
    int k;

    if (no != 0)
        return no;
    if ((k = find(number)) < 0)
        return end(place, 18, 0);
    m = &modules[k];
    if (scratch_len < m->room)
        return end(place, 21, 0);
    count_reached((uint32_t)k);
    times = delays((uint32_t)k, family);
    figures[0] = m->ins;
    figures[1] = m->outs;
    figures[2] = m->gates;
    figures[3] = m->size;
    figures[4] = m->room;
    figures[5] = times.unit;
    figures[6] = m->load;
    figures[7] = times.family;
    memcpy(tally, tallies[k], sizeof tallies[k]);
    memset(scratch, 0, m->room * sizeof *scratch);
    return 0;
}

/* ---- writing */

static uint8_t made[BYTES];

static inline uint8_t *put(uint8_t *to, uint32_t n)
{
    if (n < 128) {
        *to++ = (uint8_t)n;
        return to;
    }
    *to++ = (uint8_t)(128 | n);
    *to++ = (uint8_t)(n >> 7);
    return to;
}

static uint8_t *put_range(uint8_t *to, uint32_t first, uint32_t count)
{
    to = put(to, count);
    for (uint32_t i = 0; i < count; i++)
        to = put(to, first + i);
    return to;
}

/* Hands over what stands in `made`, up to `made_end`. */
static uint16_t give(const uint8_t *made_end, uint8_t *out, size_t out_len, size_t *written, size_t *place)
{
    size_t length = (size_t)(made_end - made);

    if (out_len < length)
        return end(place, 22, 0);
    memcpy(out, made, length);
    *written = length;
    return end(place, 0, 0);
}

/* ---- flattening */

static uint16_t frame_nets[ROOM];
static uint32_t next_net;

static uint8_t *run_nets(uint32_t k, uint16_t *frame, uint8_t *to)
{
    const struct module *m = &modules[k];
    const uint16_t *at = image + m->image;
    uint16_t *next = frame + m->ins, *inner_frame = frame + m->nets;

    for (uint32_t i = 0; i < m->runs; i++) {
        uint32_t refers = *at++;

        if (refers < GATES) {
            *to++ = 1;
            to = put(to, next_net);
            *to++ = (uint8_t)refers;
            *to++ = arity[refers];
            for (uint32_t j = 0; j < arity[refers]; j++)
                to = put(to, frame[*at++]);
            *next++ = (uint16_t)next_net++;
        } else {
            uint32_t inner = refers - GATES;

            for (uint32_t j = 0; j < modules[inner].ins; j++)
                inner_frame[j] = frame[*at++];
            to = run_nets(inner, inner_frame, to);
            for (uint32_t j = 0; j < modules[inner].outs; j++)
                *next++ = inner_frame[output_slots[inner][j]];
        }
    }
    return to;
}

/* The head holds the outputs, which are known only after the gates: these are made further up and moved down. */
static uint8_t *flatten_module(uint32_t k)
{
    enum { HEAD = 1 + 2 + 2 + 2 * LIST + 2 + 2 * LIST + 2 };
    const struct module *m = &modules[k];
    uint8_t *gates = made + HEAD, *gates_end, *to = made;

    for (uint32_t i = 0; i < m->ins; i++)
        frame_nets[i] = (uint16_t)i;
    next_net = m->ins;
    gates_end = run_nets(k, frame_nets, gates);
    *to++ = 1;
    to = put(to, m->number);
    to = put_range(to, 0, m->ins);
    to = put(to, m->outs);
    for (uint32_t i = 0; i < m->outs; i++)
        to = put(to, frame_nets[output_slots[k][i]]);
    to = put(to, m->gates);
    memmove(to, gates, (size_t)(gates_end - gates));
    return to + (gates_end - gates);
}

uint16_t TUNED(flatten)(const uint8_t *file, size_t file_len, uint16_t number, uint32_t *scratch,
                        size_t scratch_len, uint8_t *out, size_t out_len, size_t *written, size_t *place)
{
    uint16_t no = open_file(file, file_len, place);
    const struct module *m;
    int k;

    if (no != 0)
        return no;
    if ((k = find(number)) < 0)
        return end(place, 18, 0);
    m = &modules[k];
    if (m->ins + m->gates > NETS)
        return end(place, 24, 0);
    if (scratch_len < m->room)
        return end(place, 21, 0);
    no = give(flatten_module((uint32_t)k), out, out_len, written, place);
    if (no == 0)
        memset(scratch, 0, m->room * sizeof *scratch);
    return no;
}

/* ---- the writers */

static uint8_t *put_gate(uint8_t *to, uint32_t net, uint8_t kind, uint32_t a, uint32_t b)
{
    *to++ = 1;
    to = put(to, net);
    *to++ = kind;
    *to++ = 2;
    return put(put(to, a), b);
}

uint16_t TUNED(adder)(size_t width, uint8_t *out, size_t out_len, size_t *written, size_t *place)
{
    static const uint8_t cells[] = {
        0x11, 3, 0, 1, 2, 2, 3, 4, 3, 2, 5, 6, 0x10, 2, 0, 1, 2, 3, 7, 0x10, 2, 5, 2, 1, 4, 5, 2, 6, 7,
        0x10, 2, 0, 1, 2, 2, 3, 2, 1, 2, 9, 2, 0, 1, 1, 3, 0x0A, 2, 0, 1};
    uint32_t n = (uint32_t)width;
    uint8_t *to = made;

    if (width - 1 > 63)
        return end(place, 23, 0);
    *to++ = 3;
    *to++ = 18;
    to = put_range(to, 0, 2 * n + 1);
    to = put(to, n + 1);
    for (uint32_t i = 0; i < n; i++)
        to = put(to, 2 * n + 1 + i);
    to = put(put(to, 4 * n), n);
    for (uint32_t i = 0; i < n; i++) {
        *to++ = 2;
        to = put(put(to, 2 * n + 1 + i), 3 * n + 1 + i);
        *to++ = 17;
        *to++ = 3;
        to = put(put(put(to, 1 + i), n + 1 + i), i ? 3 * n + i : 0);
    }
    memcpy(to, cells, sizeof cells);
    return give(to + sizeof cells, out, out_len, written, place);
}

/* The wiring of fast adders is that of docs/ADDER.md. A tree is named by what it grows from: late and height of a grown
 * one, step and height of a spine. What is laid of it says where its bits end and which net is its P. */
struct shape {
    uint8_t is_spine, late, height;
};
struct laid {
    uint32_t end, p;
};
static uint32_t wide; /* the width at hand */

static int parts_of(struct shape t, struct shape part[3])
{
    uint8_t below = (uint8_t)(t.height - 1);

    if (t.height == 0 || (!t.is_spine && t.late < 3))
        return 0;
    if (t.is_spine) {
        part[0] = (struct shape){0, (uint8_t)(2 * t.late + 1), t.height};
        part[1] = (struct shape){0, (uint8_t)(2 * t.late + 2), below};
        part[2] = (struct shape){1, (uint8_t)(t.late + 1), below};
    } else {
        part[0] = (struct shape){0, (uint8_t)(t.late - 2), t.height};
        part[1] = (struct shape){0, (uint8_t)(t.late - 2), below};
        part[2] = (struct shape){0, (uint8_t)(t.late - 1), below};
    }
    return 1;
}

static uint32_t leaves_of(struct shape t)
{
    struct shape part[3];

    return parts_of(t, part) ? leaves_of(part[0]) + leaves_of(part[1]) + leaves_of(part[2]) : 1;
}

static uint8_t *put_over_one(uint8_t *to, uint32_t net, uint32_t carry, uint32_t p)
{
    *to++ = 1;
    to = put(to, net);
    *to++ = 42;
    *to++ = 3;
    return put(put(put(to, carry), p), p + wide);
}

static uint8_t *put_over_two(uint8_t *to, uint32_t net, uint32_t carry, uint32_t low, uint32_t high)
{
    *to++ = 1;
    to = put(to, net);
    *to++ = 43;
    *to++ = 5;
    return put(put(put(put(put(to, carry), low), low + wide), high), high + wide);
}

static uint8_t *put_ahead(uint8_t *to, struct shape t, uint32_t s, struct laid *laid)
{
    struct shape part[3];
    struct laid x, y, z;

    if (!parts_of(t, part)) {
        *laid = (struct laid){s + 1, wide + 1 + s};
        return to;
    }
    to = put_ahead(to, part[0], s, &x);
    to = put_over_one(to, x.end, s, x.p);
    to = put_ahead(to, part[1], x.end, &y);
    to = put_over_two(to, y.end, s, x.p, y.p);
    to = put_ahead(to, part[2], y.end, &z);
    *laid = (struct laid){z.end, 3 * wide + 1 + y.end};
    *to++ = 1;
    to = put(to, laid->p);
    *to++ = 11;
    *to++ = 3;
    to = put(put(put(to, x.p), y.p), z.p);
    return put_over_two(to, laid->p + wide, x.p + wide, y.p, z.p);
}

static uint8_t *put_chain(uint8_t *to, struct shape t, uint32_t left, uint32_t s, uint32_t *trees)
{
    struct shape part[3];
    struct laid x, y;

    while (parts_of(t, part)) {
        uint32_t low = leaves_of(part[0]);

        if (left < low) {
            t = part[0];
            continue;
        }
        to = put_ahead(to, part[0], s, &x);
        to = put_over_one(to, x.end, s, x.p);
        ++*trees;
        left -= low;
        low = leaves_of(part[1]);
        if (left < low) {
            t = part[1];
            s = x.end;
            continue;
        }
        to = put_ahead(to, part[1], x.end, &y);
        to = put_over_two(to, y.end, s, x.p, y.p);
        ++*trees;
        left -= low;
        t = part[2];
        s = y.end;
    }
    return to;
}

static uint8_t *put_carry_and_bits(uint8_t *to, uint32_t first)
{
    to = put(to, 2 * wide + 1);
    *to++ = 0;
    for (uint32_t i = 0; i < 2 * wide; i++)
        to = put(to, first + i);
    return to;
}

static uint8_t *put_gate_row(uint8_t *to, uint8_t kind, uint32_t net, uint32_t a, uint32_t b)
{
    for (uint32_t i = 0; i < wide; i++)
        to = put_gate(to, net + i, kind, a + i, b + i);
    return to;
}

/* Modules 41, 43 and 42. */
static uint8_t *put_carry_network(uint8_t *to)
{
    static const uint8_t carriers[] = {0x2B, 5, 0, 1, 2, 3, 4, 1, 7, 3, 1,    5, 0x0A, 2, 3, 2, 1, 6, 0x0B, 3,
                                       3,    1, 0, 1, 7, 6, 3, 4, 5, 6, 0x2A, 3, 0,    1, 2, 1, 4, 2, 1,    3,
                                       0x0A, 2, 1, 0, 1, 4, 5, 2, 2, 3};
    struct shape spine = {1, 0, 0};
    uint32_t trees = 0;
    uint8_t *count;

    *to++ = 41;
    to = put_carry_and_bits(to, wide + 1);
    to = put_range(to, 1, wide);
    count = to++;
    while (leaves_of(spine) <= wide)
        spine.height++;
    to = put_chain(to, spine, wide, 0, &trees);
    *count = (uint8_t)(2 * wide - trees);
    memcpy(to, carriers, sizeof carriers);
    return to + sizeof carriers;
}

uint16_t TUNED(fast_adder)(size_t width, uint8_t *out, size_t out_len, size_t *written, size_t *place)
{
    uint8_t *to = made;
    uint32_t n;

    if (width - 1 > 63)
        return end(place, 23, 0);
    wide = n = (uint32_t)width;
    *to++ = 4;
    *to++ = 40;
    to = put_carry_and_bits(to, n + 1);
    *to++ = (uint8_t)(n + 1);
    for (uint32_t i = 0; i < n; i++)
        to = put(to, 5 * n + 1 + i);
    to = put(put(to, n), 3 * n + 1);
    to = put_gate_row(to, 9, 3 * n + 1, n + 1, 2 * n + 1);
    to = put_gate_row(to, 10, 4 * n + 1, n + 1, 2 * n + 1);
    to = put_range(to, 1, n);
    *to++ = 41;
    to = put_carry_and_bits(to, 3 * n + 1);
    to = put_gate_row(to, 9, 5 * n + 1, 3 * n + 1, 0);
    return give(put_carry_network(to), out, out_len, written, place);
}

/* The wiring of arithmetic units is that of docs/ALU.md: module 48, then 49 and 50, which are the same at every width,
 * then the look-ahead. */
static uint8_t *put_nets(uint8_t *to, uint32_t first, uint32_t count)
{
    for (uint32_t i = 0; i < count; i++)
        to = put(to, first + i);
    return to;
}

static uint8_t *put_copies(uint8_t *to, uint32_t lines, uint32_t copies)
{
    for (uint32_t i = 0; i < 6 * copies; i++) {
        *to++ = 1;
        to = put(to, lines + 6 + i);
        *to++ = 0;
        *to++ = 1;
        to = put(to, lines + i % 6);
    }
    return to;
}

static uint8_t *put_cells(uint8_t *to, uint32_t n, uint32_t lines, uint32_t copies)
{
    for (uint32_t i = 0; i < n; i++) {
        uint32_t copy = i / 8 + 1 < copies ? i / 8 + 1 : copies;

        *to++ = 3;
        to = put(put(put(to, 3 * n + 7 + i), 4 * n + 7 + i), 5 * n + 7 + i);
        *to++ = 50;
        *to++ = 9;
        to = put(put(put(to, 1 + i), 2 + i), n + 2 + i);
        to = put_nets(to, lines + 6 * copy, 6);
    }
    return to;
}

uint16_t TUNED(alu)(size_t width, uint8_t *out, size_t out_len, size_t *written, size_t *place)
{
    static const uint8_t control_and_cell[] = {
        49, 7, 0, 1, 2, 3, 4, 5, 6, 9, 22, 23, 24, 25, 26, 27, 28, 29, 30, 24,
        1, 22, 8, 2, 4, 5, 1, 7, 10, 2, 5, 6, 1, 23, 8, 2, 4, 7, 1, 8,
        10, 2, 3, 5, 1, 9, 13, 2, 4, 8, 1, 24, 13, 2, 6, 9, 1, 10, 2, 2,
        3, 4, 1, 11, 13, 2, 3, 4, 1, 12, 2, 2, 5, 11, 1, 25, 3, 3, 6, 10,
        12, 1, 26, 10, 2, 7, 10, 1, 13, 1, 1, 5, 1, 27, 11, 3, 6, 13, 10, 1,
        14, 9, 2, 3, 4, 1, 15, 5, 2, 3, 0, 1, 16, 10, 2, 14, 15, 1, 17, 8,
        2, 5, 16, 1, 28, 13, 2, 6, 17, 1, 18, 10, 2, 0, 11, 1, 19, 10, 2, 2,
        3, 1, 29, 5, 2, 18, 19, 1, 20, 13, 2, 6, 13, 1, 21, 10, 2, 1, 27, 1,
        30, 5, 2, 20, 21, 50, 9, 0, 1, 2, 3, 4, 5, 6, 7, 8, 3, 9, 10, 11,
        8, 1, 12, 9, 2, 0, 3, 1, 13, 5, 2, 2, 4, 1, 9, 9, 2, 12, 13, 1,
        10, 11, 3, 12, 13, 5, 1, 14, 2, 2, 9, 6, 1, 15, 3, 3, 12, 13, 7, 1,
        16, 2, 2, 1, 8, 1, 11, 3, 3, 14, 15, 16};
    uint32_t n = (uint32_t)width, carries = 2 * n + 6, outputs = 6 * n + 7, flip = 7 * n + 9, lines = 7 * n + 10;
    uint32_t copies = n <= 8 ? 0 : (n + 7) / 8;
    uint8_t *to = made;

    if (width - 1 > 63)
        return end(place, 23, 0);
    wide = n;
    *to++ = 6;
    *to++ = 48;
    to = put_nets(put_nets(put(to, 2 * n + 5), 0, n + 1), n + 2, n + 4);
    to = put_range(to, outputs, n + 2);
    to = put(to, 2 * n + 6 * copies + 4);
    *to++ = 9;
    to = put(put(put(put_nets(to, lines, 6), carries), n + 1), flip);
    *to++ = 49;
    *to++ = 7;
    to = put_nets(put(put(put(to, 0), 1), n), 2 * n + 2, 4);
    to = put_copies(to, lines, copies);
    to = put_cells(to, n, lines, copies);
    to = put_range(to, carries + 1, n);
    *to++ = 41;
    to = put_nets(put(put(to, 2 * n + 1), carries), 3 * n + 7, 2 * n);
    to = put_gate(to, outputs, 9, carries + n, flip);
    to = put_gate(to, outputs + 1, 9, carries + n, 3 * n + 5);
    to = put_gate_row(to, 9, outputs + 2, 5 * n + 7, carries);
    memcpy(to, control_and_cell, sizeof control_and_cell);
    return give(put_carry_network(to + sizeof control_and_cell), out, out_len, written, place);
}

/* The wiring of counters is that of docs/COUNTER.md. */
enum { NOT = 1, OR = 5, XOR = 9, AND = 10, NOR = 13, COUNTER = 32 };

/* AND with a block's empty, OR with its count bit, for each count bit in turn. */
static uint8_t *put_joins(uint8_t *to, uint32_t bits, uint32_t empty, uint32_t below, uint32_t above, uint32_t ands,
                          uint32_t ors)
{
    for (uint32_t i = 0; i < bits; i++) {
        to = put_gate(to, ands + i, AND, empty, below + i);
        to = put_gate(to, ors + i, OR, above + i, ands + i);
    }
    return to;
}

/* The block of a level from 1 up: 2^level bits. */
static uint8_t *put_block(uint8_t *to, uint32_t level)
{
    uint32_t j = level - 1, half = 1u << j, low = 2 * half, high = low + level, ands = high + level, ors = ands + j;
    uint32_t top = ors + j, empty = top + 1, high_empty = high + j;

    *to++ = (uint8_t)(COUNTER + level);
    to = put_range(to, 0, 2 * half);
    if (level == 1) {
        static const uint8_t pair[] = {2, 2, 3, 2, 1, 3, NOR, 2, 0, 1, 1, 2, NOR, 2, 1, 3};

        memcpy(to, pair, sizeof pair);
        return to + sizeof pair;
    }
    to = put_range(to, ors, level + 1);
    *to++ = (uint8_t)(2 + 2 * j + 2);
    to = put_range(to, low, level);
    *to++ = (uint8_t)(COUNTER + j);
    to = put_range(to, 0, half);
    to = put_range(to, high, level);
    *to++ = (uint8_t)(COUNTER + j);
    to = put_range(to, half, half);
    to = put_joins(to, j, high_empty, low, high, ands, ors);
    to = put_gate(to, empty, AND, high_empty, low + j);
    return put_gate(to, top, XOR, high_empty, empty);
}

/* The nets of one part of module 32: the part's low count bits stand before its ANDs and ORs, the others after. */
static uint8_t *put_part(uint8_t *to, uint32_t level, uint32_t first_bit, uint32_t net, uint32_t below, uint32_t count)
{
    uint32_t ands = net + count, ors = ands + count, rest = ors + count, empty = rest + level - count;

    to = put(to, level + 1);
    for (uint32_t i = 0; i < count; i++)
        to = put(to, net + i);
    for (uint32_t i = count; i <= level; i++)
        to = put(to, rest + i - count);
    *to++ = (uint8_t)(level == 0 ? NOT : COUNTER + level);
    to = put_range(to, first_bit, 1u << level);
    return put_joins(to, count, empty, below, net, ands, ors);
}

uint16_t TUNED(counter)(size_t width, uint8_t *out, size_t out_len, size_t *written, size_t *place)
{
    uint32_t n = (uint32_t)width, runs = 0, net = n, below = 0, count = 0, first_bit = 0, top = 0;
    uint8_t body[1024], *to = made, *body_end = body;

    if (width - 1 > 63)
        return end(place, 23, 0);
    for (uint32_t level = 0; level < 7; level++) {
        if (!(n >> level & 1))
            continue;
        body_end = put_part(body_end, level, first_bit, net, below, count);
        runs += 1 + 2 * count;
        below = net + 2 * count;
        net = below + level + 1;
        first_bit += 1u << level;
        count = level + 1;
        top = level;
    }
    *to++ = (uint8_t)(1 + top);
    *to++ = COUNTER;
    to = put_range(to, 0, n);
    to = put_range(to, below, count);
    to = put(to, runs);
    memcpy(to, body, (size_t)(body_end - body));
    to += body_end - body;
    for (uint32_t level = top; level >= 1; level--)
        to = put_block(to, level);
    return give(to, out, out_len, written, place);
}

/* ---- two files */

struct shelved {
    uint32_t count, bytes[MODULES + 1];
    uint16_t number[MODULES];
};

static struct shelved own, others;

static uint16_t shelve(const uint8_t *file, size_t length, struct shelved *shelved, size_t *place)
{
    uint16_t no = read_file(file, length, place);

    if (no != 0)
        return no;
    shelved->count = module_count;
    for (uint32_t k = 0; k < module_count; k++) {
        shelved->bytes[k] = modules[k].byte;
        shelved->number[k] = modules[k].number;
    }
    shelved->bytes[module_count] = (uint32_t)length;
    return 0;
}

static uint16_t shelve_both(const uint8_t *group, size_t group_len, const uint8_t *house, size_t house_len,
                            uint16_t *which, size_t *place)
{
    uint16_t no;

    *which = 1;
    if ((no = shelve(group, group_len, &own, place)) != 0)
        return no;
    *which = 2;
    return shelve(house, house_len, &others, place);
}

static int look_in(const struct shelved *shelved, uint16_t number, size_t *start, size_t *length)
{
    for (uint32_t k = 0; k < shelved->count; k++)
        if (shelved->number[k] == number) {
            *start = shelved->bytes[k];
            *length = shelved->bytes[k + 1] - shelved->bytes[k];
            return 1;
        }
    return 0;
}

uint16_t TUNED(look_up)(const uint8_t *group, size_t group_len, const uint8_t *house, size_t house_len,
                        uint16_t number, uint16_t *which, size_t *start, size_t *length, size_t *place)
{
    uint16_t no = shelve_both(group, group_len, house, house_len, which, place);

    if (no != 0)
        return no;
    *which = look_in(&own, number, start, length) ? 1 : look_in(&others, number, start, length) ? 2 : 0;
    return end(place, *which == 0 ? 18 : 0, 0);
}

/* Modules that are taken one behind the other are copied at once. */
static uint8_t *put_lacking(uint8_t *to, const uint8_t *house, uint32_t mark)
{
    for (uint32_t k = 0; k < others.count;) {
        uint32_t first = k;

        while (k < others.count && listed[others.number[k]] != mark)
            k++;
        memcpy(to, house + others.bytes[first], others.bytes[k] - others.bytes[first]);
        to += others.bytes[k] - others.bytes[first];
        while (k < others.count && listed[others.number[k]] == mark)
            k++;
    }
    return to;
}

uint16_t TUNED(join)(const uint8_t *group, size_t group_len, const uint8_t *house, size_t house_len, uint8_t *out,
                     size_t out_len, uint16_t *which, size_t *written, size_t *place)
{
    uint16_t no = shelve_both(group, group_len, house, house_len, which, place);
    uint32_t mark, count, length;
    uint8_t *to;

    if (no != 0)
        return no;
    *which = 0;
    mark = next_stamp();
    for (uint32_t k = 0; k < own.count; k++)
        listed[own.number[k]] = mark;
    count = own.count;
    length = own.bytes[own.count] - own.bytes[0];
    for (uint32_t k = 0; k < others.count; k++)
        if (listed[others.number[k]] != mark) {
            count++;
            length += others.bytes[k + 1] - others.bytes[k];
        }
    if (count > MODULES)
        return end(place, 4, 0);
    if (length + (count < 128 ? 1 : 2) > BYTES)
        return end(place, 1, 0);
    to = put(made, count);
    memcpy(to, group + own.bytes[0], own.bytes[own.count] - own.bytes[0]);
    to = put_lacking(to + (own.bytes[own.count] - own.bytes[0]), house, mark);
    if ((no = open_file(made, (size_t)(to - made), place)) != 0)
        return no;
    return give(to, out, out_len, written, place);
}

/* ---- listings */

enum { TEXT = 8 * BYTES + 4654, NAMES = 128 };

static uint8_t listing[TEXT];

/* The text of numbers up to 16,383, and of names, is put from words of 8 bytes: what is too much of them is written over. */
static struct word {
    uint8_t bytes[8];
    uint32_t length;
} gate_word[GATES];

static inline uint8_t *put_word(uint8_t *to, const struct word *word)
{
    memcpy(to, word->bytes, 8);
    return to + word->length;
}

static inline uint8_t *put_digits(uint8_t *to, uint32_t n)
{
    if (n >= 10000)
        *to++ = (uint8_t)('0' + n / 10000);
    if (n >= 1000)
        *to++ = (uint8_t)('0' + n / 1000 % 10);
    if (n >= 100)
        *to++ = (uint8_t)('0' + n / 100 % 10);
    if (n >= 10)
        *to++ = (uint8_t)('0' + n / 10 % 10);
    *to++ = (uint8_t)('0' + n % 10);
    return to;
}

static inline uint8_t *put_text(uint8_t *to, const char *line)
{
    size_t length = strlen(line);

    memcpy(to, line, length);
    return to + length;
}

static inline uint8_t *put_net_names(uint8_t *to, const uint16_t *nets, uint32_t count)
{
    for (uint32_t i = 0; i < count; i++) {
        if (i > 0)
            *to++ = ',';
        *to++ = 'N';
        to = put_digits(to, nets[i]);
    }
    return to;
}

static uint8_t *put_keyword(uint8_t *to, const char *keyword, const uint16_t *nets, uint32_t count)
{
    to = put_text(to, keyword);
    if (count > 0)
        *to++ = ' ';
    return put_text(put_net_names(to, nets, count), ";\n");
}

static uint8_t *put_occurrences(uint8_t *to, const uint16_t *at, uint32_t count)
{
    for (uint32_t i = 0; i < count; i++) {
        uint32_t drives = at[0], refers = at[drives + 1], takes = at[drives + 2];

        *to++ = 'G';
        to = put_digits(to, i);
        *to++ = '(';
        to = put_text(put_net_names(to, at + 1, drives), ") = ");
        if (refers < GATES) {
            to = put_word(to, &gate_word[refers]);
        } else {
            *to++ = 'M';
            to = put_digits(to, refers);
        }
        *to++ = '(';
        to = put_text(put_net_names(to, at + drives + 3, takes), ");\n");
        at += drives + 3 + takes;
    }
    return to;
}

static uint8_t *put_listing(uint8_t *to)
{
    to = put_text(to, "COMPILE;\nDIRECTORY MASTER;\n\n");
    for (uint32_t k = 0; k < module_count; k++) {
        const struct module *m = &modules[k];

        to = put_digits(put_text(to, "MODULE M"), m->number);
        to = put_keyword(put_text(to, ";\n"), "INPUTS", numbers + m->start + 2, m->ins);
        to = put_keyword(to, "OUTPUTS", numbers + m->outputs, m->outs);
        to = put_occurrences(put_text(to, "LEVEL FUNCTION;\nDEFINE\n"), numbers + m->body, m->runs);
        to = put_text(to, "END MODULE;\n\n");
    }
    return put_text(to, "END COMPILE;\nEND;\n");
}

/* The length of a good name; 0 of a bad one. */
static uint32_t letters_of(const uint8_t *name)
{
    uint32_t length = 0, digits = 0;

    for (; length < 8 && name[length] != ' '; length++) {
        int digit = name[length] >= '0' && name[length] <= '9';

        if (!digit && (name[length] < 'A' || name[length] > 'Z'))
            return 0;
        digits += length > 0 && digit;
    }
    for (uint32_t i = length; i < 8; i++)
        if (name[i] != ' ')
            return 0;
    return name[0] == 'M' && length > 1 && digits == length - 1 ? 0 : length;
}

static uint32_t take_names(const uint8_t *names)
{
    for (uint32_t k = 0; k < GATES; k++) {
        memcpy(gate_word[k].bytes, names + 8 * k, 8);
        gate_word[k].length = letters_of(names + 8 * k);
        if (gate_word[k].length == 0)
            return k;
        for (uint32_t j = 0; j < k; j++)
            if (memcmp(gate_word[j].bytes, gate_word[k].bytes, 8) == 0)
                return k;
    }
    return GATES;
}

uint16_t TUNED(write_ndl)(const uint8_t *file, size_t file_len, const uint8_t *names, size_t names_len, uint8_t *out,
                          size_t out_len, size_t *written, size_t *place)
{
    uint16_t no = open_file(file, file_len, place);
    uint8_t *to = out_len < 8 * file_len + 4654 ? listing : out;
    uint32_t bad;
    size_t length;

    if (no != 0)
        return no;
    if (names_len != NAMES)
        return end(place, 29, 0);
    if ((bad = take_names(names)) < GATES)
        return end(place, 29, bad);
    length = (size_t)(put_listing(to) - to);
    if (out_len < length)
        return end(place, 22, 0);
    if (to == listing)
        memcpy(out, listing, length);
    *written = length;
    return end(place, 0, 0);
}

/* ---- four-input gates withdrawn */

/* How many of the four gates each module has and reaches; and the new file, at most three times as long. */
static uint32_t fours[MODULES], fours_reached[MODULES];
static uint8_t made_new[3 * BYTES];

static inline uint32_t is_four(uint32_t refers)
{
    return refers < GATES ? 0x9090u >> refers & 1 : 0;
}

static void count_fours(void)
{
    for (uint32_t k = module_count; k-- > 0;) {
        const struct module *m = &modules[k];
        const uint16_t *at = numbers + m->body;
        uint32_t mine = 0, reached = 0;

        for (uint32_t i = 0; i < m->runs; i++) {
            at += 1 + *at;
            mine += is_four(*at++);
            at += 1 + *at;
        }
        for (uint32_t i = 0; i < m->calls; i++)
            reached += fours_reached[references[m->references + i]];
        fours[k] = mine;
        fours_reached[k] = mine + reached;
    }
}

uint16_t TUNED(strict_check)(const uint8_t *file, size_t file_len, size_t *place)
{
    uint16_t no = open_file(file, file_len, place);

    if (no != 0)
        return no;
    count_fours();
    for (uint32_t k = 0; k < module_count; k++)
        if (fours[k] != 0)
            return end(place, 28, k);
    return 0;
}

/* Every net of a good module is an input or driven. */
static void list_nets(const struct module *m, uint32_t mark)
{
    const uint16_t *at = numbers + m->start + 2;

    for (uint32_t i = 0; i < m->ins; i++)
        listed[at[i]] = mark;
    at = numbers + m->body;
    for (uint32_t i = 0; i < m->runs; i++) {
        uint32_t drives = *at++;

        for (uint32_t j = 0; j < drives; j++)
            listed[*at++] = mark;
        at += 2 + at[1];
    }
}

static inline uint8_t *put_two(uint8_t *to, uint32_t net, uint8_t kind, uint32_t a, uint32_t b)
{
    *to++ = 1;
    to = put(to, net);
    *to++ = kind;
    *to++ = 2;
    return put(put(to, a), b);
}

static uint8_t *put_rewritten(uint8_t *to, uint32_t k)
{
    static const uint8_t pair[GATES] = {[4] = 10, [7] = 5, [12] = 10, [15] = 5};
    static const uint8_t two[GATES] = {[4] = 2, [7] = 5, [12] = 10, [15] = 13};
    const struct module *m = &modules[k];
    const uint16_t *at = numbers + m->start, *body = numbers + m->body;
    uint32_t mark = next_stamp(), net = 0;

    list_nets(m, mark);
    while (at < body - 1)
        to = put(to, *at++);
    to = put(to, m->runs + 2 * fours[k]);
    at = body;
    for (uint32_t i = 0; i < m->runs; i++) {
        const uint16_t *next = at + 1 + *at;
        uint32_t refers = *next++;

        next += 1 + *next;
        if (is_four(refers)) {
            uint32_t first, second;

            while (listed[net] == mark)
                net++;
            first = net++;
            while (listed[net] == mark)
                net++;
            second = net++;
            to = put_two(to, first, pair[refers], at[4], at[5]);
            to = put_two(to, second, pair[refers], at[6], at[7]);
            to = put_two(to, at[1], two[refers], first, second);
            at = next;
        } else {
            while (at < next)
                to = put(to, *at++);
        }
    }
    return to;
}

/* A module that has none of the four gates keeps its bytes. */
static uint8_t *put_kept(uint8_t *to, const uint8_t *file, size_t file_len, uint32_t k)
{
    size_t start = modules[k].byte, stop = k + 1 < module_count ? modules[k + 1].byte : file_len;

    memcpy(to, file + start, stop - start);
    return to + (stop - start);
}

uint16_t TUNED(rewrite)(const uint8_t *file, size_t file_len, uint8_t *out, size_t out_len, size_t *written,
                        size_t *place)
{
    uint16_t no = open_file(file, file_len, place);
    uint8_t *to;
    size_t length;

    if (no != 0)
        return no;
    count_fours();
    for (uint32_t k = 0; k < module_count; k++)
        if (modules[k].runs + 2 * fours[k] > OCCURRENCES)
            return end(place, 4, 0);
    for (uint32_t k = 0; k < module_count; k++)
        if (modules[k].nets + 2 * fours[k] > NETS)
            return end(place, 16, k);
    for (uint32_t k = module_count; k-- > 0;)
        if (modules[k].size + 2 * fours_reached[k] > SIZE)
            return end(place, 17, k);
    to = put(made_new, module_count);
    for (uint32_t k = 0; k < module_count; k++)
        to = fours[k] != 0 ? put_rewritten(to, k) : put_kept(to, file, file_len, k);
    length = (size_t)(to - made_new);
    if (length > BYTES)
        return end(place, 1, 0);
    if (out_len < length)
        return end(place, 22, 0);
    memcpy(out, made_new, length);
    *written = length;
    return end(place, 0, 0);
}

/* ---- texts */

/* Names are kept in two tables with open addressing, twice as long as they may have entries. An entry has a name's first eight bytes, and says where
 * the name was first mentioned, for the rest of longer ones. Entries of an earlier text or module bear another stamp; those of gates stay. */
enum { ATOM = 32, SHELF_NAMES = NUMBERS - GATES, SLOTS = 2 * NUMBERS };

struct name {
    uint64_t front;
    uint32_t stamp, mentioned;
    uint16_t number, length;
};

struct names {
    struct name table[SLOTS];
    uint32_t stamp, count, most, first;
};

static struct names module_names, net_names;

enum { ALWAYS = 0xFFFFFFFF };

static const char *const gate_names[GATES] = {"B-BUF", "B-NOT", "B-NAND", "B-NAND3", "B-NAND4", "B-OR", "B-OR3", "B-OR4",
                                              "B-EQV", "B-XOR", "B-AND",  "B-AND3",  "B-AND4",  "B-NOR", "B-NOR3", "B-NOR4"};

enum sort { OTHER, BLANK, LETTER, OPEN, CLOSE, QUOTE };

static uint8_t sort_of[256];

/* Eight bytes of a name in capitals, 0 behind its end. Letters are the only bytes of a name that have the bit of 64. */
static inline uint64_t eight(const uint8_t *at, size_t left, size_t length)
{
    uint64_t word = 0;

    if (left >= 8)
        memcpy(&word, at, 8);
    else
        memcpy(&word, at, left);
    if (length < 8)
        word &= ((uint64_t)1 << 8 * length) - 1;
    return word & ~((word & 0x4040404040404040) >> 1);
}

static inline uint32_t spread(uint64_t word)
{
    return (uint32_t)((word * 0x9E3779B97F4A7C15) >> 40);
}

static uint32_t spread_long(const uint8_t *at, size_t left, size_t length)
{
    uint64_t word = 0;

    for (size_t i = 0; i < length; i += 8)
        word = (word ^ eight(at + i, left - i, length - i)) * 0x9E3779B97F4A7C15 ^ word >> 29;
    return spread(word);
}

static int same_rest(const uint8_t *text, size_t text_len, size_t one, size_t other, size_t length)
{
    for (size_t i = 8; i < length; i += 8)
        if (eight(text + one + i, text_len - one - i, length - i) != eight(text + other + i, text_len - other - i, length - i))
            return 0;
    return 1;
}

/* The number of the name at a place, a new one where it is not known; -1 where there are too many. */
static inline int number_of(struct names *names, const uint8_t *text, size_t text_len, size_t at, size_t length)
{
    uint64_t front = eight(text + at, text_len - at, length);
    uint32_t slot = length <= 8 ? spread(front) : spread_long(text + at, text_len - at, length);

    for (;; slot++) {
        struct name *name = &names->table[slot % SLOTS];

        if (name->stamp != names->stamp && name->stamp != ALWAYS) {
            if (names->count == names->most)
                return -1;
            *name = (struct name){front, names->stamp, (uint32_t)at, (uint16_t)(names->first + names->count++), (uint16_t)length};
            return name->number;
        }
        if (name->front == front && name->length == length && (length <= 8 || same_rest(text, text_len, name->mentioned, at, length)))
            return name->number;
    }
}

static void forget(struct names *names)
{
    if (++names->stamp == ALWAYS) {
        for (size_t i = 0; i < SLOTS; i++)
            if (names->table[i].stamp != ALWAYS)
                names->table[i].stamp = 0;
        names->stamp = 1;
    }
    names->count = 0;
}

static void know_gates(void)
{
    sort_of[' '] = sort_of['\n'] = sort_of['\r'] = BLANK;
    sort_of['('] = OPEN;
    sort_of[')'] = CLOSE;
    sort_of['\''] = QUOTE;
    sort_of['-'] = LETTER;
    for (int i = 0; i < 10; i++)
        sort_of['0' + i] = LETTER;
    for (int i = 0; i < 26; i++)
        sort_of['A' + i] = sort_of['a' + i] = LETTER;
    net_names.most = NUMBERS;
    module_names.most = SHELF_NAMES;
    module_names.first = GATES;
    for (uint16_t i = 0; i < GATES; i++) {
        uint16_t length = (uint16_t)strlen(gate_names[i]);
        uint64_t front = eight((const uint8_t *)gate_names[i], length, length);
        uint32_t slot = spread(front);

        while (module_names.table[slot % SLOTS].stamp == ALWAYS)
            slot++;
        module_names.table[slot % SLOTS] = (struct name){front, ALWAYS, 0, i, length};
    }
}

/* What comes next. */
enum stage {
    START,
    MODULE,   /* a module, or the end */
    NAME,     /* of a module */
    INPUTS,   /* the list of these, and of the outputs, and of the occurrences */
    OUTPUTS,
    BODY,
    INPUT,    /* a net, or the end of the list */
    OUTPUT,
    RUN,      /* an occurrence, or the end of the list */
    DRIVES,   /* the list of driven nets */
    DRIVEN,
    CALL,     /* the list of name and arguments */
    REFERS,
    ARGUMENT,
    RUN_END,
    MODULE_END,
    DONE
};

static uint16_t read_text(const uint8_t *text, size_t length, uint16_t **numbers_end, size_t *place)
{
    enum stage stage = START;
    uint16_t *to = numbers, *count = numbers, *runs = numbers;
    struct module *m = modules;
    size_t at = 0;
    int quoted = 0;

    forget(&module_names);
    while (at < length) {
        switch (sort_of[text[at]]) {
        case BLANK:
            at++;
            break;
        case LETTER: {
            size_t behind = at + 1;
            struct names *names = &net_names;
            int number;

            while (behind < length && sort_of[text[behind]] == LETTER)
                behind++;
            switch (stage) {
            case INPUT:
            case OUTPUT:
            case DRIVEN:
            case ARGUMENT:
                if (behind - at > ATOM || *count == LIST)
                    return end(place, 26, at);
                ++*count;
                break;
            case NAME:
            case REFERS:
                if (behind - at > ATOM)
                    return end(place, 26, at);
                names = &module_names;
                break;
            default:
                return end(place, 25, at);
            }
            number = number_of(names, text, length, at, behind - at);
            if (number < 0)
                return end(place, 26, at);
            *to++ = (uint16_t)number;
            if (stage == NAME) {
                m->number = (uint16_t)number;
                stage = INPUTS;
            } else if (stage == REFERS) {
                count = to++;
                *count = 0;
                stage = ARGUMENT;
            }
            at = behind;
            break;
        }
        case OPEN:
            switch (stage) {
            case START:
                stage = MODULE;
                break;
            case MODULE:
                if (m - modules == MODULES)
                    return end(place, 26, at);
                forget(&net_names);
                m->start = (uint32_t)(to - numbers);
                stage = NAME;
                break;
            case INPUTS:
            case OUTPUTS:
            case DRIVES:
                count = to++;
                *count = 0;
                stage = stage == INPUTS ? INPUT : stage == OUTPUTS ? OUTPUT : DRIVEN;
                break;
            case BODY:
                runs = to++;
                *runs = 0;
                m->body = (uint32_t)(to - numbers);
                stage = RUN;
                break;
            case RUN:
                if (*runs == OCCURRENCES)
                    return end(place, 26, at);
                ++*runs;
                stage = DRIVES;
                break;
            case CALL:
                stage = REFERS;
                break;
            default:
                return end(place, 25, at);
            }
            at++;
            break;
        case CLOSE:
            switch (stage) {
            case MODULE:
                stage = DONE;
                break;
            case INPUT:
                m->ins = *count;
                stage = OUTPUTS;
                break;
            case OUTPUT:
                m->outs = *count;
                m->outputs = (uint32_t)(count + 1 - numbers);
                stage = BODY;
                break;
            case RUN:
                m->runs = *runs;
                stage = MODULE_END;
                break;
            case DRIVEN:
                stage = CALL;
                break;
            case ARGUMENT:
                stage = RUN_END;
                break;
            case RUN_END:
                stage = RUN;
                break;
            case MODULE_END:
                m++;
                stage = MODULE;
                break;
            default:
                return end(place, 25, at);
            }
            at++;
            break;
        case QUOTE:
            if (stage != START || quoted)
                return end(place, 25, at);
            quoted = 1;
            at++;
            break;
        default:
            return end(place, 25, at);
        }
    }
    if (stage != DONE)
        return end(place, 25, length);
    module_count = (uint32_t)(m - modules);
    *numbers_end = to;
    return 0;
}

static uint8_t made_text[BYTES + 1];

uint16_t TUNED(read_text)(const uint8_t *text, size_t text_len, uint8_t *out, size_t out_len, size_t *written, size_t *place)
{
    uint16_t *numbers_end, no;
    uint8_t *to;
    size_t length;

    if (sort_of[' '] == 0)
        know_gates();
    if (text_len > TEXT_BYTES)
        return end(place, 33, 0);
    if ((no = read_text(text, text_len, &numbers_end, place)) != 0)
        return no;
    to = put(made_text, module_count);
    for (const uint16_t *at = numbers; at < numbers_end; at++) {
        if (to - made_text >= BYTES)
            return end(place, 1, 0);
        to = put(to, *at);
    }
    length = (size_t)(to - made_text);
    if (length > BYTES)
        return end(place, 1, 0);
    if ((no = check_modules(place)) != 0)
        return no;
    if (out_len < length)
        return end(place, 22, 0);
    memcpy(out, made_text, length);
    *written = length;
    return end(place, 0, 0);
}

/* ---- printed texts */

/* A net with the space in front of it, as in " N16383", and a gate with all that stands between the last net it drives and
 * its arguments, as in ") (B-NAND3". The last byte of each says how many there are. All of them are put, and what is too
 * much is written over by what follows: at least 5 bytes behind a net, 9 behind a gate. */
static uint8_t net_text[NUMBERS][8], gate_text[GATES][16];

static void know_texts(void)
{
    for (uint32_t n = 0; n < NUMBERS; n++) {
        memcpy(net_text[n], " N", 2);
        net_text[n][7] = (uint8_t)(put_digits(net_text[n] + 2, n) - net_text[n]);
    }
    for (uint32_t i = 0; i < GATES; i++)
        gate_text[i][15] = (uint8_t)(put_text(put_text(gate_text[i], ") ("), gate_names[i]) - gate_text[i]);
}

static inline uint8_t *put_net(uint8_t *to, uint32_t net)
{
    memcpy(to, net_text[net], 8);
    return to + net_text[net][7];
}

/* A module's name behind its bracket: these take the place of the space and the N. */
static inline uint8_t *put_module_name(uint8_t *to, uint32_t number)
{
    uint8_t *behind = put_net(to, number);

    memcpy(to, "(M", 2);
    return behind;
}

/* A list of nets but for its end: the bracket takes the place of the first space. */
static inline uint8_t *put_open_list(uint8_t *to, const uint16_t *nets, uint32_t count)
{
    uint8_t *at = to + (count == 0);

    for (uint32_t i = 0; i < count; i++)
        at = put_net(at, nets[i]);
    *to = '(';
    return at;
}

static uint8_t *put_body(uint8_t *to, const uint16_t *at, uint32_t count)
{
    for (uint32_t i = 0; i < count; i++) {
        uint32_t drives = at[0], refers = at[drives + 1], takes = at[drives + 2];

        *to++ = '(';
        to = put_open_list(to, at + 1, drives);
        at += drives + 3;
        if (refers < GATES) {
            memcpy(to, gate_text[refers], 16);
            to += gate_text[refers][15];
        } else {
            to = put_module_name(put_text(to, ") "), refers);
        }
        for (uint32_t j = 0; j < takes; j++)
            to = put_net(to, at[j]);
        at += takes;
        to = i + 1 < count ? put_text(to, "))\n   ") : put_text(to, "))");
    }
    return to;
}

static uint8_t *put_printed(uint8_t *to)
{
    *to++ = '(';
    for (uint32_t k = 0; k < module_count; k++) {
        const struct module *m = &modules[k];

        if (k > 0)
            to = put_text(to, "\n ");
        to = put_module_name(to, m->number);
        to = put_open_list(put_text(to, " "), numbers + m->start + 2, m->ins);
        to = put_open_list(put_text(to, ") "), numbers + m->outputs, m->outs);
        to = put_body(put_text(to, ")\n  ("), numbers + m->body, m->runs);
        to = put_text(to, "))");
    }
    return put_text(to, ")\n");
}

uint16_t TUNED(print_text)(const uint8_t *file, size_t file_len, uint8_t *out, size_t out_len, size_t *written, size_t *place)
{
    uint16_t no = open_file(file, file_len, place);
    uint8_t *to = out_len < 6 * file_len ? listing : out;
    size_t length;

    if (no != 0)
        return no;
    if (net_text[0][0] == 0)
        know_texts();
    length = (size_t)(put_printed(to) - to);
    if (out_len < length)
        return end(place, 22, 0);
    if (to == listing)
        memcpy(out, listing, length);
    *written = length;
    return end(place, 0, 0);
}
