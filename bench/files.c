/* See files.h. Built as drafts of the differential test, with net numbers as a designer would count them. */
#include "files.h"

#include "../tests/differential/make.h"

#include <stdio.h>
#include <stdlib.h>
#include <string.h>

enum { LARGEST = 65535, AND4 = 12, XOR = 9, NAND = 2 };

static struct draft draft;

static struct bench_file finish(const char *name, int module)
{
    static struct encoded encoded;
    uint8_t *bytes;

    encode(&draft, &encoded);
    bytes = malloc(encoded.length);
    if (bytes == NULL || encoded.length > LARGEST) {
        fprintf(stderr, "%s: %zu bytes\n", name, encoded.length);
        abort();
    }
    memcpy(bytes, encoded.byte, encoded.length);
    return (struct bench_file){name, bytes, encoded.length, encoded.numbers, (uint16_t)module};
}

/* A cheap, fixed scatter of argument nets. */
static int scatter(int i, int below)
{
    return (int)(((uint32_t)i * 2654435761u >> 7) % (uint32_t)below);
}

static void wide_gates(struct draft_module *module, int nets)
{
    add_nets(&module->inputs, 0, 16);
    for (int net = 16; net < nets; net++) {
        struct draft_occurrence *gate = add_occurrence(module, AND4);

        add_net(&gate->drives, net);
        for (int i = 0; i < 4; i++)
            add_net(&gate->takes, scatter(4 * net + i, net));
    }
    add_nets(&module->outputs, nets - 64, 64);
}

struct bench_file one_module(void)
{
    draft_start(&draft, 2);
    wide_gates(&draft.modules[0], 4096);
    wide_gates(&draft.modules[1], 970);
    return finish("one module, 4-input gates", 16);
}

/* Rewritten it has about as many bytes as a file may have. */
struct bench_file four_input_gates(void)
{
    enum { MODULES = 24, NETS = 125 };

    draft_start(&draft, MODULES);
    for (int m = 0; m < MODULES; m++)
        wide_gates(&draft.modules[m], NETS);
    return finish("24 modules, 4-input gates", 16);
}

struct bench_file many_modules(void)
{
    enum { NETS = 87 };

    draft_start(&draft, 128);
    for (int m = 0; m < 128; m++) {
        struct draft_module *module = &draft.modules[m];

        add_nets(&module->inputs, 0, 8);
        for (int net = 8; net < NETS; net++)
            add_gate(module, net % 3 == 0 ? XOR : NAND, net, scatter(net + m, net), scatter(net + 7 * m, net));
        if (m < 127) {
            struct draft_occurrence *call = add_occurrence(module, 17 + m);

            add_nets(&call->drives, NETS, 4);
            add_nets(&call->takes, 40, 8);
        }
        add_nets(&module->outputs, NETS - 4, 4);
    }
    return finish("128 modules", 16);
}

struct bench_file long_lists(void)
{
    static const int calls[5] = {20, 20, 20, 19, 0};

    draft_start(&draft, 5);
    for (int m = 0; m < 5; m++) {
        struct draft_module *module = &draft.modules[m];

        add_nets(&module->inputs, 0, 192);
        for (int i = 0; i < calls[m]; i++) {
            struct draft_occurrence *call = add_occurrence(module, 20);

            add_nets(&call->drives, 192 * (i + 1), 192);
            add_nets(&call->takes, 192 * i, 192);
        }
        for (int i = 0; i < (calls[m] == 0 ? 192 : 0); i++)
            add_gate(module, NAND, 192 + i, i, (i + 1) % 192);
        add_nets(&module->outputs, calls[m] == 0 ? 192 : calls[m] * 192, 192);
    }
    return finish("192-entry lists", 16);
}

static void references_to(struct draft_module *module, int number, int nets)
{
    add_nets(&module->inputs, 0, 4);
    for (int net = 4; net < nets; net++) {
        struct draft_occurrence *call = add_occurrence(module, number);

        add_net(&call->drives, net);
        for (int i = 0; i < 4; i++)
            add_net(&call->takes, scatter(4 * net + i, net));
    }
    add_net(&module->outputs, nets - 1);
}

struct bench_file many_references(void)
{
    struct draft_module *last = &draft.modules[2];

    draft_start(&draft, 3);
    references_to(&draft.modules[0], 18, 4096);
    references_to(&draft.modules[1], 18, 970);
    add_nets(&last->inputs, 0, 4);
    add_gate(last, NAND, 4, 0, 1);
    add_gate(last, NAND, 5, 2, 3);
    add_gate(last, XOR, 6, 4, 5);
    add_net(&last->outputs, 6);
    return finish("references to one module", 16);
}

struct bench_file empty_references(void)
{
    draft_start(&draft, 0);
    pad_to(&draft, LARGEST);
    return finish("references without nets", draft.modules[0].number);
}

struct bench_file full_size(void)
{
    struct draft_module *outer = &draft.modules[0], *inner = &draft.modules[1];

    draft_start(&draft, 2);
    add_nets(&inner->inputs, 0, 2);
    for (int i = 0; i < 256; i++)
        add_gate(inner, i % 2 == 0 ? NAND : XOR, i + 2, i, i + 1);
    add_net(&inner->outputs, 257);
    add_nets(&outer->inputs, 0, 2);
    for (int i = 0; i < 255; i++) {
        struct draft_occurrence *call = add_occurrence(outer, 17);

        add_net(&call->drives, i + 2);
        add_nets(&call->takes, i, 2);
    }
    add_net(&outer->outputs, 256);
    return finish("size 65,535", 16);
}

struct bench_file doubling(void)
{
    draft_start(&draft, 16);
    for (int m = 0; m < 15; m++) {
        add_occurrence(&draft.modules[m], 17 + m);
        add_occurrence(&draft.modules[m], 17 + m);
        if (m == 0)
            add_occurrence(&draft.modules[0], 31);
    }
    return finish("doubling, size 65,535", 16);
}

struct bench_file deep_when_flat(void)
{
    draft_start(&draft, 3);
    for (int m = 0; m < 3; m++) {
        struct draft_module *module = &draft.modules[m];

        add_nets(&module->inputs, 0, 2);
        for (int i = 0; i < (m == 0 ? 15 : 16); i++) {
            struct draft_occurrence *call = add_occurrence(module, m < 2 ? 17 + m : NAND);

            add_net(&call->drives, i + 2);
            add_nets(&call->takes, i, 2);
        }
        add_net(&module->outputs, m == 0 ? 16 : 17);
    }
    return finish("3 levels", 16);
}

/* ---- texts */

enum { SHORT_TEXT = 2048, FEW_GATES = 20, MODULE_GATES = 500, LINE = 128 };

typedef void name_of(char *to, int net);

static void designers_name(char *to, int net)
{
    static const char *const forms[] = {"CARRY-%d", "sum-bit-%d", "T%d"};

    sprintf(to, forms[net % 3], net);
}

static void long_name(char *to, int net)
{
    sprintf(to, "THE-CARRY-OUT-OF-THE-STAGE-%05d", net);
}

/* A module of gates, the nets 0 and 1 its inputs and the last one its output. */
static char *put_module(char *to, int k, int gates, name_of *name)
{
    char drives[LINE], a[LINE], b[LINE];

    name(a, 0);
    name(b, 1);
    name(drives, gates + 1);
    to += sprintf(to, "(STAGE-%d (%s %s) (%s) (\n", k, a, b, drives);
    for (int net = 2; net < gates + 2; net++) {
        name(drives, net);
        name(a, scatter(2 * net, net));
        name(b, scatter(2 * net + 1, net));
        to += sprintf(to, "  ((%s) (B-NAND %s %s))\n", drives, a, b);
    }
    return to + sprintf(to, "))\n");
}

static struct bench_file finish_text(const char *label, size_t length, name_of *name)
{
    char *bytes = malloc(length + MODULE_GATES * LINE), *to = bytes + 1;
    int gates = length <= SHORT_TEXT ? FEW_GATES : MODULE_GATES;

    if (bytes == NULL)
        abort();
    *bytes = '(';
    for (int k = 0;; k++) {
        char *behind = put_module(to, k, gates, name);

        if (behind + 1 > bytes + length)
            break;
        to = behind;
    }
    *to++ = ')';
    memset(to, ' ', (size_t)(bytes + length - to));
    return (struct bench_file){label, (const uint8_t *)bytes, length, 0, 16};
}

struct bench_file drafted_text(size_t length)
{
    return finish_text(length <= SHORT_TEXT ? "a short draft" : "a draft", length, designers_name);
}

struct bench_file alike_text(size_t length)
{
    return finish_text("names of 32 bytes, alike", length, long_name);
}
