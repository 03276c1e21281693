/* The files that the benchmark runs on, each near 65,535 bytes unless it says otherwise. */
#ifndef FILES_H
#define FILES_H

#include "../tests/differential/draft.h"

struct bench_file {
    const char *name;
    const uint8_t *bytes;
    size_t length;
    int numbers;
    uint16_t module; /* the one to run, count or flatten */
};

struct bench_file one_module(void);       /* 4,096 nets, gates of four inputs, and a smaller one to fill up */
struct bench_file four_input_gates(void); /* gates of four inputs in 24 modules, near that length when rewritten */
struct bench_file many_modules(void);     /* 128 modules of two-input gates, each refers to the next */
struct bench_file long_lists(void);       /* references with 192 arguments and 192 driven nets */
struct bench_file many_references(void);  /* as many references to one module as nets allow */
struct bench_file empty_references(void); /* references without nets: the most numbers and occurrences */
struct bench_file full_size(void);        /* expanded size 65,535, gates; a small file */
struct bench_file doubling(void);         /* expanded size 65,535, no gates; a small file */
struct bench_file deep_when_flat(void);   /* flattens to 4,096 nets; a small file */

/* Texts in the list form, of so many bytes: gates with names as a designer gives them; and names of 32 bytes that are alike but for their ends. */
struct bench_file drafted_text(size_t length);
struct bench_file alike_text(size_t length);

#endif
