/*
 * Builds the benchmark's cases: writes a program by hand-made patterns and finds a
 * schedule for it that is taken whole.
 * What belongs here: what the benchmark runs on. No timing, and no checking beyond the
 * answer 0 that every case here must have.
 */
#include "cases.h"

#include "checker.h"

#include <stdbool.h>
#include <stdio.h>
#include <stdlib.h>

enum { LOAD = 1, STORE, STORE_REG, FENCE, SWAP, ACQ_LOCAL, ACQ_SHARED, RELEASE, BRANCH, ADD };
enum { LOCAL = 0, SHARED = 1, NOBODY = 0 };
enum { FIRST_DRAIN = 17 };

/* ---- Writing bytes ---- */

static void fail(const struct bench_case *c, const char *why)
{
    fprintf(stderr, "benchmark case %s: %s\n", c->name, why);
    abort();
}

static void put(struct bench_case *c, unsigned byte)
{
    if (c->len == BENCH_CASE_MAX)
        fail(c, "too many bytes");
    c->bytes[c->len++] = (uint8_t)byte;
}

static void put_value(struct bench_case *c, int32_t value)
{
    uint32_t bits = (uint32_t)value;
    put(c, bits >> 24);
    put(c, bits >> 16 & 255);
    put(c, bits >> 8 & 255);
    put(c, bits & 255);
}

/* The length field is written at the end, when the length is known. */
static void begin(struct bench_case *c, unsigned threads, unsigned cells, unsigned depth)
{
    c->len = 0;
    c->items = 0;
    put(c, 1);
    put(c, 0);
    put(c, 0);
    put(c, threads);
    put(c, cells);
    put(c, depth);
}

static void put_cell(struct bench_case *c, int32_t value, unsigned owner, unsigned sharing)
{
    put_value(c, value);
    put(c, owner);
    put(c, sharing);
}

static void put_instruction(struct bench_case *c, unsigned op, unsigned cell, unsigned reg,
                            int32_t value)
{
    put(c, op);
    put(c, cell);
    put(c, reg);
    put_value(c, value);
}

static void put_count_of_items(struct bench_case *c)
{
    put(c, 0);
    put(c, 0);
}

/* Corrects the two fields that depend on the number of items. */
static void set_lengths(struct bench_case *c)
{
    size_t count_at = c->len - c->items - 2;
    c->bytes[1] = (uint8_t)(c->len >> 8);
    c->bytes[2] = (uint8_t)(c->len & 255);
    c->bytes[count_at] = (uint8_t)(c->items >> 8);
    c->bytes[count_at + 1] = (uint8_t)(c->items & 255);
}

static void put_item(struct bench_case *c, unsigned item)
{
    put(c, item);
    c->items += 1;
    set_lengths(c);
}

static bool accepted(const struct bench_case *c)
{
    static int32_t values[BENCH_VALUES];
    static int32_t memory[BENCH_MEMORY];
    struct frasco_answer a =
        frasco_check_c(c->bytes, c->len, values, BENCH_VALUES, memory, BENCH_MEMORY);
    return a.number == 0 && a.place == c->items && a.thread == 0;
}

static void finish(struct bench_case *c)
{
    set_lengths(c);
    if (!accepted(c))
        fail(c, "not accepted");
}

/* ---- Schedules ---- */

/* A fixed generator of our own: rand() would differ between machines. */
static unsigned dice(uint32_t *state, unsigned sides)
{
    *state ^= *state << 13;
    *state ^= *state >> 17;
    *state ^= *state << 5;
    return (unsigned)((*state >> 8) % sides);
}

static bool take(struct bench_case *c, unsigned item)
{
    put_item(c, item);
    if (accepted(c))
        return true;
    c->len -= 1;
    c->items -= 1;
    set_lengths(c);
    return false;
}

/*
 * Throws items until enough of them are taken: an irregular schedule, as a real one is.
 * Of six throws `drains` are drains. What is not taken (a FENCE that waits, a full
 * buffer, a drain of nothing) is dropped and thrown again.
 */
static void schedule(struct bench_case *c, unsigned threads, unsigned drains, size_t items)
{
    uint32_t state = 20090815;
    unsigned in_vain = 0;
    while (c->items < items) {
        unsigned thread = dice(&state, threads);
        unsigned first = dice(&state, 6) < drains ? FIRST_DRAIN : 1;
        in_vain = take(c, first + thread) ? 0 : in_vain + 1;
        if (in_vain == 1000)
            fail(c, "no item is taken any more");
    }
}

/* ---- Programs ---- */

/*
 * Nine instructions, from position 0 on: tries to take the lock by COMPARE-SWAP and goes
 * on behind these nine if another thread has it. Else owns the data, counts it up and
 * gives both back. Register 0 must be 0 before; it is 1 after a vain try.
 */
static void put_locked_count(struct bench_case *c, unsigned lock, unsigned data, unsigned acquire)
{
    put_instruction(c, SWAP, lock, 0, 1);
    put_instruction(c, BRANCH, 9, 0, 1);
    put_instruction(c, acquire, data, 0, 0);
    put_instruction(c, LOAD, data, 1, 0);
    put_instruction(c, ADD, 0, 1, 1);
    put_instruction(c, STORE_REG, data, 1, 0);
    put_instruction(c, FENCE, 0, 0, 0);
    put_instruction(c, RELEASE, data, 0, 0);
    put_instruction(c, STORE, lock, 0, 0);
}

/*
 * Twenty-one instructions, from position 9 on: work on the own local cells `own` to
 * own + 4 with loads that find a pending store and loads that do not, one flag shown to
 * the others and two of theirs read after a FENCE.
 */
static void put_own_work(struct bench_case *c, unsigned own, unsigned flag, unsigned flag_2,
                         unsigned flag_3)
{
    put_instruction(c, STORE_REG, flag, 1, 0);
    put_instruction(c, STORE, own, 0, 40);
    put_instruction(c, STORE_REG, own + 1, 1, 0);
    put_instruction(c, LOAD, own, 2, 0);
    put_instruction(c, ADD, 0, 2, -80);
    put_instruction(c, STORE_REG, own + 2, 2, 0);
    put_instruction(c, LOAD, own + 1, 3, 0);
    put_instruction(c, LOAD, own + 4, 3, 0);
    put_instruction(c, FENCE, 0, 0, 0);
    put_instruction(c, LOAD, flag_2, 2, 0);
    put_instruction(c, LOAD, flag_3, 3, 0);
    put_instruction(c, BRANCH, 22, 2, 0); /* over the next, while that flag is 0 */
    put_instruction(c, STORE_REG, own + 3, 2, 0);
    put_instruction(c, STORE_REG, own + 2, 3, 0);
    put_instruction(c, LOAD, own + 4, 2, 0);
    put_instruction(c, ADD, 0, 2, 2147483647); /* wraps now and then */
    put_instruction(c, STORE_REG, own + 4, 2, 0);
    put_instruction(c, LOAD, own + 3, 3, 0);
    put_instruction(c, LOAD, own + 4, 2, 0);
    put_instruction(c, STORE, own, 0, -40);
    put_instruction(c, LOAD, own + 2, 3, 0);
}

/* Back to position 0 with register 0 cleared; `zero` is an own cell that stays 0. */
static void put_back(struct bench_case *c, unsigned zero)
{
    put_instruction(c, LOAD, zero, 0, 0);
    put_instruction(c, BRANCH, 0, 0, 0);
}

/* Stores to the given cells in turn, by constant and by register, then back to the start. */
static void put_store_loop(struct bench_case *c, unsigned count, const unsigned *cells,
                           unsigned cells_count)
{
    put(c, count);
    for (unsigned i = 0; i + 1 < count; i++) {
        unsigned cell = cells[i % cells_count];
        if (i % 2 == 0)
            put_instruction(c, STORE, cell, 0, (int32_t)i - 40);
        else
            put_instruction(c, STORE_REG, cell, i % 4, 0);
    }
    put_instruction(c, BRANCH, 0, 0, 0); /* register 0 stays 0: always back */
}

/* ---- Cases ---- */

static void set_name(struct bench_case *c, const char *what, enum bench_mix mix, size_t items)
{
    const char *of = mix == BENCH_MIXED ? "mixed" : "stores";
    snprintf(c->name, sizeof c->name, "%s %s %zu", what, of, items);
}

void bench_smallest(struct bench_case *c)
{
    snprintf(c->name, sizeof c->name, "smallest");
    begin(c, 1, 1, 1);
    put_cell(c, 0, NOBODY, SHARED);
    put(c, 0);
    put_count_of_items(c);
    finish(c);
}

void bench_r2(struct bench_case *c)
{
    static const unsigned items[] = { 1, 2, 17, 18, 1, 2, 1, 2 };
    snprintf(c->name, sizeof c->name, "R2");
    begin(c, 2, 2, 2);
    put_cell(c, 0, NOBODY, SHARED);
    put_cell(c, 0, NOBODY, SHARED);
    for (unsigned t = 0; t < 2; t++) {
        put(c, 3);
        put_instruction(c, STORE, t, 0, 1);
        put_instruction(c, FENCE, 0, 0, 0);
        put_instruction(c, LOAD, 1 - t, 0, 0);
    }
    put_count_of_items(c);
    for (size_t i = 0; i < sizeof items / sizeof items[0]; i++)
        put_item(c, items[i]);
    finish(c);
}

/* Cell 0 is the lock, 1 its data, 2 and 3 unowned; then two own cells for each thread. */
static void typical_program(struct bench_case *c, enum bench_mix mix)
{
    begin(c, 2, 8, 4);
    for (unsigned cell = 0; cell < 4; cell++)
        put_cell(c, 0, NOBODY, SHARED);
    for (unsigned t = 0; t < 2; t++) {
        put_cell(c, 5, t + 1, LOCAL);
        put_cell(c, 0, t + 1, SHARED);
    }
    for (unsigned t = 0; t < 2; t++) {
        unsigned own = 4 + 2 * t;
        const unsigned cells[] = { own, 2, own + 1, 3 };
        if (mix == BENCH_STORES) {
            put_store_loop(c, 10, cells, 4);
        } else {
            put(c, 13);
            put_locked_count(c, 0, 1, t == 0 ? ACQ_LOCAL : ACQ_SHARED);
            put_instruction(c, STORE_REG, own, 1, 0);
            put_instruction(c, LOAD, own, 2, 0);
            put_back(c, own + 1);
        }
    }
    put_count_of_items(c);
}

/*
 * Cells 0 and 1 are a lock and its data for threads 1 and 2, cells 2 and 3 for threads 3
 * and 4; 4 to 7 a shared flag owned by each thread; then six own local cells for each.
 */
static void large_program(struct bench_case *c, enum bench_mix mix)
{
    begin(c, 4, 32, 8);
    for (unsigned cell = 0; cell < 4; cell++)
        put_cell(c, 0, NOBODY, SHARED);
    for (unsigned t = 0; t < 4; t++)
        put_cell(c, 0, t + 1, SHARED);
    for (unsigned cell = 0; cell < 24; cell++)
        put_cell(c, cell % 6 == 5 ? 0 : (int32_t)cell, cell / 6 + 1, LOCAL);
    for (unsigned t = 0; t < 4; t++) {
        unsigned own = 8 + 6 * t;
        const unsigned cells[] = { own, t, own + 1, own + 2, 4 + t, own + 3, own + 4, own + 5 };
        if (mix == BENCH_STORES) {
            put_store_loop(c, 32, cells, 8);
        } else {
            unsigned lock = t / 2 * 2;
            put(c, 32);
            put_locked_count(c, lock, lock + 1, t % 2 == 0 ? ACQ_LOCAL : ACQ_SHARED);
            put_own_work(c, own, 4 + t, 4 + (t + 1) % 4, 4 + (t + 2) % 4);
            put_back(c, own + 5);
        }
    }
    put_count_of_items(c);
}

/* As many drains as stores where there is nothing else, so that buffers are half full. */
static unsigned drains_of(enum bench_mix mix)
{
    return mix == BENCH_STORES ? 3 : 2;
}

void bench_typical(struct bench_case *c, enum bench_mix mix, size_t items)
{
    set_name(c, "typical", mix, items);
    typical_program(c, mix);
    schedule(c, 2, drains_of(mix), items);
    finish(c);
}

void bench_growth(struct bench_case *c, enum bench_mix mix, size_t items)
{
    set_name(c, "growth", mix, items);
    large_program(c, mix);
    schedule(c, 4, drains_of(mix), items);
    finish(c);
}

void bench_largest(struct bench_case *c, enum bench_mix mix)
{
    bench_growth(c, mix, BENCH_VALUES);
    set_name(c, "largest", mix, c->items);
    if (c->len != BENCH_CASE_MAX)
        fail(c, "not the largest");
}

void bench_all(struct bench_case all[BENCH_CASES])
{
    struct bench_case *c = all;
    bench_smallest(c++);
    bench_r2(c++);
    for (int i = 0; i < 2; i++) {
        enum bench_mix mix = i == 0 ? BENCH_MIXED : BENCH_STORES;
        for (size_t items = 64; items <= 256; items *= 2)
            bench_typical(c++, mix, items);
        for (size_t items = 64; items <= 512; items *= 2)
            bench_growth(c++, mix, items);
        bench_largest(c++, mix);
    }
}
