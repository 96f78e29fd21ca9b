/*
 * The benchmark's cases, built in memory, the same bytes on every run.
 * What belongs here: the declarations of the builders and of the list of all cases.
 */
#ifndef FRASCO_BENCH_CASES_H
#define FRASCO_BENCH_CASES_H

#include <stddef.h>
#include <stdint.h>

enum {
    BENCH_CASE_MAX = 2124, /* bytes of the largest case */
    BENCH_VALUES = 1024,   /* elements that a value list needs at most */
    BENCH_MEMORY = 32,     /* elements that a memory list needs at most */
    BENCH_CASES = 18       /* cases that bench_all writes */
};

/*
 * BENCH_MIXED uses every operation. BENCH_STORES has stores and drains only, but for the
 * one BRANCH that closes each thread's loop: without it 4 threads of 32 stores could fill
 * no more than 256 items.
 */
enum bench_mix { BENCH_MIXED, BENCH_STORES };

struct bench_case {
    char name[32];
    size_t items;
    size_t len;
    uint8_t bytes[BENCH_CASE_MAX];
};

/* Every builder runs its case and ends the program if the answer is not 0. */

/* One thread, one cell, no instruction, no item: 15 bytes. */
void bench_smallest(struct bench_case *c);

/* R2 of the rules: store buffering with fences, 8 items. */
void bench_r2(struct bench_case *c);

/* 2 threads, 8 cells, depth 4, loops of 13 (mixed) or 10 instructions. */
void bench_typical(struct bench_case *c, enum bench_mix mix, size_t items);

/*
 * 4 threads, 32 cells, depth 8, 32 instructions each, up to 1,024 items. The program is
 * the same for every number of items, and a shorter schedule begins a longer one, so
 * that a difference in time comes from the items alone.
 */
void bench_growth(struct bench_case *c, enum bench_mix mix, size_t items);

/* The last one of that family: 1,024 items, 2,124 bytes. */
void bench_largest(struct bench_case *c, enum bench_mix mix);

/*
 * All of them: smallest, R2, then for each mix typical with 64, 128 and 256 items, growth
 * with 64, 128, 256 and 512 items, and the largest, which is growth with 1,024.
 */
void bench_all(struct bench_case all[BENCH_CASES]);

#endif
