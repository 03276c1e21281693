/* The propagate-generate adder as docs/ADDER.md wires it: refusals 23, 22, then every byte. Trees are made and kept
 * as they are drawn there. */
#include "plain.h"

#include <string.h>

enum { OR = 5, OR3 = 6, XOR = 9, AND = 10, AND3 = 11, MOST_NODES = 4096 };

/* A leaf has no trees; a node has three, the lowest bits in the first. */
struct tree {
    uint32_t leaves;
    struct tree *x, *y, *z;
};

static struct tree nodes[MOST_NODES];
static int nodes_made;
static struct bytes answer;
static uint32_t n, occurrences;
static int writing; /* or only counting */

static struct tree *make(struct tree *x, struct tree *y, struct tree *z)
{
    struct tree *t = &nodes[nodes_made++];

    *t = (struct tree){x ? x->leaves + y->leaves + z->leaves : 1, x, y, z};
    return t;
}

static struct tree *grown(int u, int h)
{
    if (u < 3 || h < 1)
        return make(NULL, NULL, NULL);
    return make(grown(u - 2, h), grown(u - 2, h - 1), grown(u - 1, h - 1));
}

static struct tree *spine(int k, int h)
{
    if (h == 0)
        return make(NULL, NULL, NULL);
    return make(grown(2 * k + 1, h), grown(2 * k + 2, h - 1), spine(k + 1, h - 1));
}

/* An occurrence that drives one net. */
static void occurrence(uint32_t net, uint32_t refers, int count, const uint32_t *takes)
{
    occurrences++;
    if (!writing)
        return;
    plain_put(&answer, 1);
    plain_put(&answer, net);
    plain_put(&answer, refers);
    plain_put(&answer, (uint32_t)count);
    for (int i = 0; i < count; i++)
        plain_put(&answer, takes[i]);
}

static uint32_t p_net(const struct tree *t, uint32_t s)
{
    return t->x ? 3 * n + 1 + s + t->x->leaves + t->y->leaves : n + 1 + s;
}

static uint32_t g_net(const struct tree *t, uint32_t s)
{
    return p_net(t, s) + n;
}

static void behind_one(const struct tree *x, uint32_t s)
{
    occurrence(s + x->leaves, 42, 3, (uint32_t[]){s, p_net(x, s), g_net(x, s)});
}

static void behind_two(const struct tree *x, const struct tree *y, uint32_t s)
{
    uint32_t sy = s + x->leaves;

    occurrence(sy + y->leaves, 43, 5, (uint32_t[]){s, p_net(x, s), g_net(x, s), p_net(y, sy), g_net(y, sy)});
}

static void inside(const struct tree *t, uint32_t s)
{
    uint32_t sy, sz;

    if (!t->x)
        return;
    sy = s + t->x->leaves;
    sz = sy + t->y->leaves;
    inside(t->x, s);
    behind_one(t->x, s);
    inside(t->y, sy);
    behind_two(t->x, t->y, s);
    inside(t->z, sz);
    occurrence(p_net(t, s), AND3, 3, (uint32_t[]){p_net(t->x, s), p_net(t->y, sy), p_net(t->z, sz)});
    occurrence(g_net(t, s), 43, 5,
               (uint32_t[]){g_net(t->x, s), p_net(t->y, sy), g_net(t->y, sy), p_net(t->z, sz), g_net(t->z, sz)});
}

/* The chain over the lowest m bits of a tree that has more. */
static void chain(const struct tree *t, uint32_t m, uint32_t s)
{
    uint32_t x, y;

    if (!t->x)
        return;
    x = t->x->leaves;
    y = t->y->leaves;
    if (m < x) {
        chain(t->x, m, s);
        return;
    }
    inside(t->x, s);
    behind_one(t->x, s);
    if (m < x + y) {
        chain(t->y, m - x, s + x);
        return;
    }
    inside(t->y, s + x);
    behind_two(t->x, t->y, s);
    chain(t->z, m - x - y, s + x + y);
}

static void carry_and_bits(uint32_t first)
{
    plain_put(&answer, 2 * n + 1);
    plain_put(&answer, 0);
    for (uint32_t i = 0; i < 2 * n; i++)
        plain_put(&answer, first + i);
}

static void gate_row(uint32_t kind, uint32_t net, uint32_t a, uint32_t b)
{
    for (uint32_t i = 0; i < n; i++)
        occurrence(net + i, kind, 2, (uint32_t[]){a + i, b + i});
}

static void module_40(void)
{
    plain_put(&answer, 40);
    carry_and_bits(n + 1);
    plain_put(&answer, n + 1);
    for (uint32_t i = 0; i < n; i++)
        plain_put(&answer, 5 * n + 1 + i);
    plain_put(&answer, n);
    plain_put(&answer, 3 * n + 1);
    gate_row(XOR, 3 * n + 1, n + 1, 2 * n + 1);
    gate_row(AND, 4 * n + 1, n + 1, 2 * n + 1);
    plain_put_range(&answer, 1, n);
    plain_put(&answer, 41);
    carry_and_bits(3 * n + 1);
    gate_row(XOR, 5 * n + 1, 3 * n + 1, 0);
}

static void module_41(void)
{
    struct tree *whole;
    int height = 0;

    do {
        nodes_made = 0;
        whole = spine(0, height++);
    } while (whole->leaves <= n);
    writing = 0;
    occurrences = 0;
    chain(whole, n, 0);
    writing = 1;
    plain_put(&answer, 41);
    carry_and_bits(n + 1);
    plain_put_range(&answer, 1, n);
    plain_put(&answer, occurrences);
    chain(whole, n, 0);
}

/* Modules 43 and 42, whose nets are in order. */
static void modules_43_and_42(void)
{
    plain_put(&answer, 43);
    plain_put_range(&answer, 0, 5);
    plain_put_range(&answer, 7, 1);
    plain_put(&answer, 3);
    occurrence(5, AND, 2, (uint32_t[]){3, 2});
    occurrence(6, AND3, 3, (uint32_t[]){3, 1, 0});
    occurrence(7, OR3, 3, (uint32_t[]){4, 5, 6});
    plain_put(&answer, 42);
    plain_put_range(&answer, 0, 3);
    plain_put_range(&answer, 4, 1);
    plain_put(&answer, 2);
    occurrence(3, AND, 2, (uint32_t[]){1, 0});
    occurrence(4, OR, 2, (uint32_t[]){2, 3});
}

uint16_t plain_fast_adder(size_t width, uint8_t *out, size_t out_len, size_t *written, size_t *place)
{
    if (width < 1 || width > 64)
        return plain_end(place, 23, 0);
    n = (uint32_t)width;
    answer.length = 0;
    writing = 1;
    plain_put(&answer, 4);
    module_40();
    module_41();
    modules_43_and_42();
    return plain_give(&answer, out, out_len, written, place);
}
