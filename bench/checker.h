/*
 * The plain C checker that the benchmark compares the library with: its one call.
 * What belongs here: the answer and the declaration of the call, nothing else.
 */
#ifndef FRASCO_BENCH_CHECKER_H
#define FRASCO_BENCH_CHECKER_H

#include <stddef.h>
#include <stdint.h>

/* Number, place and thread as the rules name them. */
struct frasco_answer {
    uint64_t place;
    uint32_t number;
    uint32_t thread;
};

/*
 * Judges a case and, if it is well formed and the lists are long enough, runs it.
 * Numbers 1 to 9 leave both lists as they were. Otherwise the first elements of
 * `values` (one for each item taken) and of `memory` (one for each cell) are written
 * and the later ones stay. The case and the two lists must not overlap.
 */
struct frasco_answer frasco_check_c(const uint8_t *case_bytes, size_t len,
                                    int32_t *values, size_t values_len,
                                    int32_t *memory, size_t memory_len);

#endif
