/*
 * Frascolimba from C: the check of a whole case, and one item on a state that the caller keeps.
 * What belongs here: the limits, the structs in C layout and the two calls, each with what may be relied on. docs/EMBEDDING.md has an example.
 *
 * Both calls are proved: for every input whatsoever the answer, and all that is written, is what the description says. They allocate nothing, keep
 * nothing between calls and call nothing but memcpy, memmove and memset.
 */
#ifndef FRASCOLIMBA_H
#define FRASCOLIMBA_H

#include <stddef.h>
#include <stdint.h>

#ifdef __cplusplus
extern "C" {
#endif

/* The limits. A state has room for as much; how much of it is used, its counts say. */
enum {
    FRASCOLIMBA_THREADS = 4,       /* threads, numbered from 1; thread t has row t - 1 */
    FRASCOLIMBA_CELLS = 32,        /* cells, numbered from 0 */
    FRASCOLIMBA_REGISTERS = 4,     /* registers of a thread, numbered from 0 */
    FRASCOLIMBA_DEPTH = 8,         /* pending stores of a thread */
    FRASCOLIMBA_INSTRUCTIONS = 32, /* instructions of a thread */
    FRASCOLIMBA_ITEMS = 1024,      /* items of a schedule */
    FRASCOLIMBA_BYTES = 2124       /* bytes of the largest case */
};

/* What a call answers. */
struct frascolimba_answer {
    size_t place;    /* check: where a case is wrong, or how many items were taken; step: 1 when the item was taken, else 0 */
    uint32_t number; /* 0, or why it was refused or stopped: docs/ANSWERS.md */
    uint32_t thread; /* the thread of the item that was stopped, from 1; else 0 */
};

/* A store that has not reached memory. */
struct frascolimba_pending {
    int32_t value; /* what is stored */
    uint32_t cell; /* where to: below the state's cells */
};

/* A thread's buffer. */
struct frascolimba_queue {
    struct frascolimba_pending entries[FRASCOLIMBA_DEPTH]; /* oldest first; what stands behind the first `count` is neither judged nor changed */
    size_t count;                                          /* how many pend: at most the state's depth */
};

/* An instruction, as a case could hold it: an unused field is zero. */
struct frascolimba_instruction {
    int32_t value;      /* the constant of operations 2, 5, 9 and 10 */
    uint16_t operation; /* 1 LOAD, 2 STORE CONSTANT, 3 STORE REGISTER, 4 FENCE, 5 COMPARE-SWAP, 6 ACQUIRE LOCAL, 7 ACQUIRE SHARED, 8 RELEASE, 9 BRANCH, 10 ADD */
    uint8_t cell;       /* a cell; of a BRANCH the target, 0 to the instruction count */
    uint8_t reg;        /* a register */
};

/*
 * A state. Row t - 1 of each array is thread t's. No byte of it is padding. What stands in rows from `threads` on, in cells from `cells` on and in
 * instructions from a count on is neither judged nor changed.
 */
struct frascolimba_state {
    size_t threads;                                   /* 1 to 4 */
    size_t cells;                                     /* 1 to 32 */
    size_t depth;                                     /* 1 to 8: how many stores may pend with a thread */
    size_t positions[FRASCOLIMBA_THREADS];            /* the next instruction, 0 to the instruction count, which is the end */
    size_t counts[FRASCOLIMBA_THREADS];               /* how many instructions, 0 to 32 */
    struct frascolimba_queue queues[FRASCOLIMBA_THREADS]; /* the stores that pend */
    /* instruction k of row t stands at t * FRASCOLIMBA_INSTRUCTIONS + k */
    struct frascolimba_instruction code[FRASCOLIMBA_THREADS * FRASCOLIMBA_INSTRUCTIONS];
    /* register r of row t stands at t * FRASCOLIMBA_REGISTERS + r */
    int32_t registers[FRASCOLIMBA_THREADS * FRASCOLIMBA_REGISTERS];
    int32_t memory[FRASCOLIMBA_CELLS];                /* what the cells hold, pending stores not counted */
    uint32_t dirty[FRASCOLIMBA_THREADS];              /* the flag: clear where it is 0 */
    uint8_t owners[FRASCOLIMBA_CELLS];                /* 0 nobody, else a thread of the state */
    uint8_t sharing[FRASCOLIMBA_CELLS];               /* 1 shared, 0 local; an unowned cell is shared */
};

/* The layout that the library was built for: 64-bit sizes, and no padding. */
#if defined(__cplusplus)
static_assert(sizeof(struct frascolimba_answer) == 16 && sizeof(struct frascolimba_state) == 1672, "frascolimba: another layout");
#elif __STDC_VERSION__ >= 201112L
_Static_assert(sizeof(struct frascolimba_answer) == 16 && sizeof(struct frascolimba_state) == 1672, "frascolimba: another layout");
#endif

/*
 * The answer of any `length` bytes at `bytes`. For 0 and from 20 up, `values` begins with a value for each item taken and `memory` with the cells'
 * memory; the later elements of both stay. For 1 to 9 nothing is written. A null pointer is fine with length 0. The three may not overlap.
 */
struct frascolimba_answer frascolimba_check(const uint8_t *bytes, size_t length, int32_t *values, size_t values_length, int32_t *memory, size_t memory_length);

/*
 * One item on the state at `state`, whatever it holds: 10 where it is out of range, then 8 where the byte is no item of its threads, then as a run.
 * Unless the number is 0 the state keeps every byte. What a LOAD or COMPARE-SWAP read stands in its register. `state` may not be null.
 */
struct frascolimba_answer frascolimba_step(struct frascolimba_state *state, uint8_t item);

#ifdef __cplusplus
}
#endif

#endif
