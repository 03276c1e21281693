/* A file in the making: lists that can grow and be spoilt, and their bytes. One draft is alive at a time. */
#ifndef DRAFT_H
#define DRAFT_H

#include <stddef.h>
#include <stdint.h>

enum { DRAFT_MODULES = 130, FILE_ROOM = 1 << 18 };

struct list {
    int count, capacity;
    uint16_t *net;
};

struct draft_occurrence {
    struct list drives;
    int refers;
    struct list takes;
};

struct draft_module {
    int number;
    struct list inputs, outputs;
    int count;
    struct draft_occurrence *occurrences;
};

struct draft {
    int count;
    struct draft_module modules[DRAFT_MODULES];
};

/* A new draft of `count` modules, all empty and numbered 16 + position. */
void draft_start(struct draft *draft, int count);

/* Occurrences are added to one module at a time. */
struct draft_occurrence *add_occurrence(struct draft_module *module, int refers);
void add_net(struct list *list, int net);
void add_nets(struct list *list, int first, int count);
void add_gate(struct draft_module *module, int kind, int drives, int a, int b); /* of one or two arguments */
void drop_net(struct list *list, int index);

/* What each number of the encoded draft is, for damage at the right place. */
enum role_of_number { MODULE_COUNT, LIST_COUNT, OCCURRENCE_COUNT, OTHER };
struct place_of_number {
    uint32_t at;
    enum role_of_number role;
};

struct encoded {
    size_t length;
    uint8_t byte[FILE_ROOM];
    int numbers;
    struct place_of_number places[FILE_ROOM];
};

void encode(const struct draft *draft, struct encoded *to);

#endif
