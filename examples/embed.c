/*
 * The library from C: R1 to R13 of the description checked whole, each of them stepped through item by item, and states and bytes that are wrong.
 * What belongs here: what a caller in C may rely on. It ends at the first difference, with status 1. Its last line is `N passed, 0 failed`.
 *
 * Only headers that need no C library are included, so that it compiles for x86-64 on any machine; what it calls of C is declared here.
 */
#include "frascolimba.h"

#include <stdbool.h>

int printf(const char *format, ...);
void exit(int status);
void *memset(void *at, int byte, size_t n);
void *memcpy(void *to, const void *from, size_t n);
int memcmp(const void *a, const void *b, size_t n);

typedef struct frascolimba_answer Answer;
typedef struct frascolimba_state State;

enum { ITEMS = FRASCOLIMBA_ITEMS, CELLS = FRASCOLIMBA_CELLS, BEFORE = 0x5eed5eed };

/* Counting */

static size_t passed;

static void expect(bool right, const char *what, const char *name)
{
    if (!right) {
        printf("%s: %s\n%zu passed, 1 failed\n", name, what, passed);
        exit(1);
    }
    passed++;
}

static bool is(Answer a, uint32_t number, size_t place, uint32_t thread)
{
    return a.number == number && a.place == place && a.thread == thread;
}

/* Cases, built in memory */

struct bytes {
    uint8_t at[FRASCOLIMBA_BYTES];
    size_t n;
};

static void byte(struct bytes *b, unsigned x)
{
    b->at[b->n++] = (uint8_t)x;
}

static void word(struct bytes *b, int32_t x)
{
    uint32_t bits = (uint32_t)x;
    byte(b, bits >> 24 & 255);
    byte(b, bits >> 16 & 255);
    byte(b, bits >> 8 & 255);
    byte(b, bits & 255);
}

struct cell {
    int32_t value;
    uint8_t owner, sharing;
};

struct instruction {
    uint8_t operation, cell, reg;
    int32_t value;
};

struct thread {
    size_t count;
    struct instruction code[4];
};

/* One of the description's small runs, and what comes of it. */
struct run {
    const char *name;
    uint8_t threads, cells, depth;
    struct cell cell[2];
    struct thread thread[2];
    size_t items;
    uint8_t item[8];
    Answer answer; /* place, number, thread */
    int32_t values[8], memory[2];
};

#define FREE {0, 0, 1}
#define LOAD(c) {1, c, 0, 0}
#define STORE(c, v) {2, c, 0, v}
#define FENCE {4, 0, 0, 0}
#define ACQUIRE(c) {6, c, 0, 0}
#define RELEASE(c) {8, c, 0, 0}
#define BRANCH(to, v) {9, to, 0, v}
#define ADD(v) {10, 0, 0, v}

static const struct run runs[] = {
    {"R1", 2, 2, 1, {FREE, FREE}, {{2, {STORE(0, 1), LOAD(1)}}, {2, {STORE(1, 1), LOAD(0)}}}, 2, {1, 1}, {1, 31, 1}, {0}, {0, 0}},
    {"R2", 2, 2, 2, {FREE, FREE}, {{3, {STORE(0, 1), FENCE, LOAD(1)}}, {3, {STORE(1, 1), FENCE, LOAD(0)}}}, 8, {1, 2, 17, 18, 1, 2, 1, 2}, {8, 0, 0}, {0, 0, 0, 0, 0, 0, 1, 1}, {1, 1}},
    {"R3", 1, 1, 2, {{5, 1, 0}}, {{2, {STORE(0, -40), LOAD(0)}}}, 3, {1, 1, 17}, {3, 0, 0}, {0, -40, 0}, {-40}},
    {"R4", 1, 1, 2, {{5, 1, 0}}, {{3, {STORE(0, 7), STORE(0, 9), LOAD(0)}}}, 3, {1, 1, 1}, {3, 0, 0}, {0, 0, 9}, {5}},
    {"R5", 1, 1, 1, {FREE}, {{2, {STORE(0, 1), STORE(0, 2)}}}, 2, {1, 1}, {1, 22, 1}, {0}, {0}},
    {"R6", 2, 2, 2, {{0, 1, 1}, {0, 2, 1}}, {{2, {STORE(0, 1), LOAD(1)}}, {2, {STORE(1, 1), LOAD(0)}}}, 2, {1, 1}, {1, 31, 1}, {0}, {0, 0}},
    {"R7", 2, 1, 2, {{0, 2, 0}}, {{1, {LOAD(0)}}, {0, {FENCE}}}, 1, {1}, {0, 30, 1}, {0}, {0}},
    {"R8", 2, 1, 2, {FREE}, {{1, {ACQUIRE(0)}}, {1, {STORE(0, 1)}}}, 2, {2, 1}, {1, 34, 1}, {0}, {0}},
    {"R8, item 18 between", 2, 1, 2, {FREE}, {{1, {ACQUIRE(0)}}, {1, {STORE(0, 1)}}}, 3, {2, 18, 1}, {3, 0, 0}, {0, 0, 0}, {1}},
    {"R9", 1, 1, 2, {{0, 1, 0}}, {{2, {STORE(0, 1), RELEASE(0)}}}, 2, {1, 1}, {1, 36, 1}, {0}, {0}},
    {"R9, unowned", 1, 2, 2, {{0, 1, 0}, FREE}, {{2, {STORE(0, 1), RELEASE(1)}}}, 2, {1, 1}, {1, 35, 1}, {0}, {0, 0}},
    {"R10", 1, 1, 2, {FREE}, {{2, {STORE(0, 1), LOAD(0)}}}, 3, {1, 17, 1}, {2, 31, 1}, {0, 0}, {1}},
    {"R11", 1, 1, 2, {FREE}, {{2, {ADD(2147483647), ADD(1)}}}, 2, {1, 1}, {2, 0, 0}, {0, 0}, {0}},
    {"R12", 1, 1, 2, {FREE}, {{3, {ADD(-40), BRANCH(3, -40), LOAD(0)}}}, 3, {1, 1, 1}, {2, 20, 1}, {0, 0}, {0}},
    {"R13", 1, 1, 1, {FREE}, {{0, {FENCE}}}, 0, {0}, {0, 0, 0}, {0}, {0}},
};

enum { RUNS = sizeof runs / sizeof runs[0], R2 = 1, R11 = 12 };

static void case_of(const struct run *r, struct bytes *b)
{
    b->n = 0;
    byte(b, 1);
    byte(b, 0); /* the length, once it is known */
    byte(b, 0);
    byte(b, r->threads);
    byte(b, r->cells);
    byte(b, r->depth);
    for (size_t c = 0; c < r->cells; c++) {
        word(b, r->cell[c].value);
        byte(b, r->cell[c].owner);
        byte(b, r->cell[c].sharing);
    }
    for (size_t t = 0; t < r->threads; t++) {
        byte(b, (unsigned)r->thread[t].count);
        for (size_t k = 0; k < r->thread[t].count; k++) {
            byte(b, r->thread[t].code[k].operation);
            byte(b, r->thread[t].code[k].cell);
            byte(b, r->thread[t].code[k].reg);
            word(b, r->thread[t].code[k].value);
        }
    }
    byte(b, 0);
    byte(b, (unsigned)r->items);
    for (size_t k = 0; k < r->items; k++)
        byte(b, r->item[k]);
    b->at[1] = (uint8_t)(b->n >> 8);
    b->at[2] = (uint8_t)(b->n & 255);
}

/* The state that a run starts: buffers empty, registers and positions 0, flags clear. All that no count covers holds `beyond`. */
static void start(const struct run *r, State *s, int beyond)
{
    memset(s, beyond, sizeof *s);
    s->threads = r->threads;
    s->cells = r->cells;
    s->depth = r->depth;
    for (size_t c = 0; c < r->cells; c++) {
        s->memory[c] = r->cell[c].value;
        s->owners[c] = r->cell[c].owner;
        s->sharing[c] = r->cell[c].sharing;
    }
    for (size_t t = 0; t < r->threads; t++) {
        s->positions[t] = 0;
        s->counts[t] = r->thread[t].count;
        s->queues[t].count = 0;
        s->dirty[t] = 0;
        memset(&s->registers[t * FRASCOLIMBA_REGISTERS], 0, FRASCOLIMBA_REGISTERS * sizeof(int32_t));
        for (size_t k = 0; k < r->thread[t].count; k++) {
            const struct instruction *i = &r->thread[t].code[k];
            struct frascolimba_instruction *to = &s->code[t * FRASCOLIMBA_INSTRUCTIONS + k];
            to->value = i->value;
            to->operation = i->operation;
            to->cell = i->cell;
            to->reg = i->reg;
        }
    }
}

/* Checking a whole case */

struct lists {
    int32_t values[ITEMS], memory[CELLS];
};

static void clear(struct lists *l)
{
    for (size_t k = 0; k < ITEMS; k++)
        l->values[k] = BEFORE;
    for (size_t k = 0; k < CELLS; k++)
        l->memory[k] = BEFORE;
}

/* The first n elements are as expected, and the later ones stay. */
static bool holds(const int32_t *list, size_t length, const int32_t *expected, size_t n)
{
    for (size_t k = 0; k < length; k++)
        if (list[k] != (k < n ? expected[k] : BEFORE))
            return false;
    return true;
}

static Answer check(const struct bytes *b, struct lists *l)
{
    clear(l);
    return frascolimba_check(b->at, b->n, l->values, ITEMS, l->memory, CELLS);
}

static void check_run(const struct run *r)
{
    static struct lists l;
    struct bytes b;
    case_of(r, &b);
    expect(is(check(&b, &l), r->answer.number, r->answer.place, r->answer.thread), "answer of the check", r->name);
    expect(holds(l.values, ITEMS, r->values, r->answer.place), "values of the check", r->name);
    expect(holds(l.memory, CELLS, r->memory, r->cells), "memory of the check", r->name);
}

/* R1 as the description has it, byte by byte. */
static void check_r1_bytes(void)
{
    static const uint8_t r1[] = {1, 0, 0x34, 2, 2, 1, 0, 0, 0, 0, 0, 1, 0, 0, 0, 0, 0, 1, 2, 2, 0, 0, 0, 0, 0, 1, 1, 1, 0, 0, 0, 0, 0, 2, 2, 1, 0, 0, 0, 0, 1, 1, 0, 0, 0, 0, 0, 0, 0, 2, 1, 1};
    struct bytes b;
    case_of(&runs[0], &b);
    expect(b.n == sizeof r1 && memcmp(b.at, r1, sizeof r1) == 0, "bytes", "R1");
}

/* R13: the 15-byte case, cut to 14 bytes with its length field kept. */
static void check_r13_cut(void)
{
    static struct lists l;
    struct bytes b;
    case_of(&runs[RUNS - 1], &b);
    expect(b.n == 15, "length", "R13");
    b.n = 14;
    expect(is(check(&b, &l), 3, 1, 0), "answer", "R13, cut");
    expect(holds(l.values, ITEMS, NULL, 0) && holds(l.memory, CELLS, NULL, 0), "lists of a refusal", "R13, cut");
}

/* A null pointer with length 0, empty lists, and lists that are just too short. */
static void check_empty(void)
{
    static struct lists l;
    struct bytes b = {{0}, 0};
    clear(&l);
    expect(is(frascolimba_check(NULL, 0, NULL, 0, NULL, 0), 1, 0, 0), "answer", "nothing at all");
    expect(is(frascolimba_check(b.at, 0, l.values, 0, l.memory, 0), 1, 0, 0), "answer", "empty slices");
    case_of(&runs[R2], &b);
    expect(is(frascolimba_check(b.at, b.n, NULL, 0, NULL, 0), 9, 0, 0), "answer", "R2 with no lists");
    expect(is(frascolimba_check(b.at, b.n, l.values, 7, l.memory, 2), 9, 0, 0), "answer", "R2 with 7 values");
    expect(is(frascolimba_check(b.at, b.n, l.values, 8, l.memory, 1), 9, 0, 0), "answer", "R2 with 1 word");
    expect(holds(l.values, ITEMS, NULL, 0) && holds(l.memory, CELLS, NULL, 0), "lists of a refusal", "lists too short");
    expect(is(frascolimba_check(b.at, b.n, l.values, 8, l.memory, 2), 0, 8, 0), "answer", "R2 with lists just long enough");
    expect(holds(l.values, ITEMS, runs[R2].values, 8) && holds(l.memory, CELLS, runs[R2].memory, 2), "lists", "R2 with lists just long enough");
}

/* Every byte of a case with every value, and every shorter part of it: answered, and nothing behind the lists is written. */
static void check_damaged(void)
{
    static struct lists l;
    struct bytes b;
    case_of(&runs[R2], &b);
    size_t length = b.n;
    for (size_t at = 0; at < length; at++) {
        uint8_t was = b.at[at];
        for (unsigned x = 0; x < 256; x++) {
            b.at[at] = (uint8_t)x;
            Answer a = check(&b, &l);
            bool ran = a.number == 0 || a.number >= 20;
            bool known = a.number <= 8 || (a.number >= 20 && a.number <= 23) || (a.number >= 30 && a.number <= 36);
            expect(known && (ran || a.thread == 0), "answer", "R2 damaged");
            expect(holds(l.values + (ran ? a.place : 0), ITEMS - (ran ? a.place : 0), NULL, 0), "values that should stay", "R2 damaged");
            expect(holds(l.memory + (ran ? 2 : 0), CELLS - (ran ? 2 : 0), NULL, 0), "memory that should stay", "R2 damaged");
        }
        b.at[at] = was;
        b.n = at;
        expect(is(check(&b, &l), at < 3 ? 1 : 3, at < 3 ? 0 : 1, 0), "answer", "R2 cut");
        b.n = length;
    }
}

/* Stepping */

/* A state between guard bytes, so that a store beside it is seen. */
struct lent {
    uint8_t front[64];
    State state;
    uint8_t back[64];
};

static void lend(struct lent *l, const State *s)
{
    memset(l, 0xa5, sizeof *l);
    l->state = *s;
}

static bool guarded(const struct lent *l)
{
    for (size_t k = 0; k < sizeof l->front; k++)
        if (l->front[k] != 0xa5 || l->back[k] != 0xa5)
            return false;
    return true;
}

/* The call refuses, and keeps every byte. */
static void expect_refused(const State *s, uint8_t item, uint32_t number, uint32_t thread, const char *name)
{
    struct lent l;
    lend(&l, s);
    expect(is(frascolimba_step(&l.state, item), number, 0, thread), "answer of the step", name);
    expect(memcmp(&l.state, s, sizeof *s) == 0, "a byte of a refused state changed", name);
    expect(guarded(&l), "a byte beside the state changed", name);
}

/* What the item read: it stands in the register of a LOAD or COMPARE-SWAP. */
static int32_t read_by(const State *before, uint8_t item, const State *after)
{
    if (item >= 17)
        return 0;
    size_t t = item - 1u;
    const struct frascolimba_instruction *i = &before->code[t * FRASCOLIMBA_INSTRUCTIONS + before->positions[t]];
    return i->operation == 1 || i->operation == 5 ? after->registers[t * FRASCOLIMBA_REGISTERS + i->reg] : 0;
}

/* Item by item, what the check of the whole case answers. The bytes that no count covers hold `beyond`, before and after. */
static void step_run(const struct run *r, int beyond)
{
    struct lent l;
    State s;
    start(r, &s, beyond);
    lend(&l, &s);
    for (size_t k = 0; k < r->answer.place; k++) {
        State before = l.state;
        expect(is(frascolimba_step(&l.state, r->item[k]), 0, 1, 0), "answer of a step that is taken", r->name);
        expect(read_by(&before, r->item[k], &l.state) == r->values[k], "value of a step", r->name);
        expect(guarded(&l), "a byte beside the state changed", r->name);
    }
    expect(memcmp(l.state.memory, r->memory, r->cells * sizeof(int32_t)) == 0, "memory after the steps", r->name);
    if (r->answer.number != 0)
        expect_refused(&l.state, r->item[r->answer.place], r->answer.number, r->answer.thread, r->name);
}

static void step_r11_register(void)
{
    State s;
    start(&runs[R11], &s, 0);
    expect(is(frascolimba_step(&s, 1), 0, 1, 0) && s.registers[0] == 2147483647, "first sum", "R11");
    expect(is(frascolimba_step(&s, 1), 0, 1, 0) && s.registers[0] == -2147483647 - 1, "second sum", "R11");
}

/* One step of each kind, with the state that it leaves compared byte by byte; nothing beyond the counts is looked at or changed. */
static void step_exact(void)
{
    State s, expected;
    start(&runs[R2], &s, 0xff);
    expected = s;
    expect(is(frascolimba_step(&s, 1), 0, 1, 0), "answer", "a STORE");
    expected.positions[0] = 1;
    expected.queues[0].count = 1;
    expected.queues[0].entries[0] = (struct frascolimba_pending){1, 0};
    expected.dirty[0] = 1;
    expect(memcmp(&s, &expected, sizeof s) == 0, "state", "a STORE");
    expect(is(frascolimba_step(&s, 17), 0, 1, 0), "answer", "a drain");
    expected.queues[0].count = 0;
    expected.queues[0].entries[0] = (struct frascolimba_pending){0, 0}; /* the vacated place is zeroed */
    expected.memory[0] = 1;
    expect(memcmp(&s, &expected, sizeof s) == 0, "state", "a drain");
    expect(is(frascolimba_step(&s, 1), 0, 1, 0), "answer", "a FENCE");
    expected.positions[0] = 2;
    expected.dirty[0] = 0;
    expect(memcmp(&s, &expected, sizeof s) == 0, "state", "a FENCE");
    expect(is(frascolimba_step(&s, 1), 0, 1, 0), "answer", "a LOAD");
    expected.positions[0] = 3;
    expect(memcmp(&s, &expected, sizeof s) == 0, "state", "a LOAD");
    expect_refused(&s, 1, 20, 1, "the end of a program");
}

/* A state that no run leads to is stepped as any other: thread 2's store pends to a cell that thread 1 owns. */
static void step_unreachable(void)
{
    State s, expected;
    start(&runs[R2], &s, 0xff);
    s.owners[0] = 1;
    s.sharing[0] = 0;
    s.queues[1].count = 1;
    s.queues[1].entries[0] = (struct frascolimba_pending){-40, 0};
    expected = s;
    expected.memory[0] = -40;
    expected.queues[1].count = 0;
    expected.queues[1].entries[0] = (struct frascolimba_pending){0, 0};
    expect(is(frascolimba_step(&s, 18), 0, 1, 0), "answer", "a state that no run leads to");
    expect(memcmp(&s, &expected, sizeof s) == 0, "state", "a state that no run leads to");
}

/* Every value of the item byte, on a state of two threads. */
static void step_every_byte(void)
{
    State s;
    start(&runs[R2], &s, 0xff);
    for (unsigned x = 0; x < 256; x++) {
        if (x == 1 || x == 2) {
            State once = s;
            expect(is(frascolimba_step(&once, (uint8_t)x), 0, 1, 0), "answer", "an item of a thread");
        } else if (x == 17 || x == 18) {
            expect_refused(&s, (uint8_t)x, 23, x - 16, "a drain of an empty buffer");
        } else {
            expect_refused(&s, (uint8_t)x, 8, 0, "a byte that is no item");
        }
    }
}

/* Out of range, one field at a time. 10 comes before 8: the second byte is no item. */
static void expect_out_of_range(const State *s, const char *name)
{
    expect_refused(s, 1, 10, 0, name);
    expect_refused(s, 99, 10, 0, name);
}

#define OUT(field, value) \
    do { \
        s = right; \
        s.field = value; \
        expect_out_of_range(&s, #field " = " #value); \
    } while (0)

/* The same where it is beyond the counts: not judged. */
#define BEYOND(field, value) \
    do { \
        s = right; \
        s.field = value; \
        expect(is(frascolimba_step(&s, 1), 0, 1, 0), "judged beyond the counts", #field " = " #value); \
    } while (0)

static void step_out_of_range(void)
{
    State s, right;
    start(&runs[R2], &right, 0);
    right.queues[1].count = 1;
    OUT(threads, 0);
    OUT(threads, 5);
    OUT(threads, (size_t)-1);
    OUT(cells, 0);
    OUT(cells, 33);
    OUT(depth, 0);
    OUT(depth, 9);
    OUT(positions[1], 4);
    OUT(counts[0], 33);
    OUT(counts[1], (size_t)-1);
    OUT(queues[0].count, 3);
    OUT(queues[1].entries[0].cell, 2);
    OUT(queues[1].entries[0].cell, (uint32_t)-1);
    OUT(owners[0], 3);
    OUT(sharing[0], 2);
    OUT(sharing[1], 0);
    OUT(code[0].operation, 0);
    OUT(code[0].operation, 11);
    OUT(code[0].operation, 258);
    OUT(code[0].cell, 2);
    OUT(code[0].reg, 1);
    OUT(code[1].value, 1);
    OUT(code[2].reg, 4);
    OUT(code[32 + 2].value, -1);
    BEYOND(positions[2], 4);
    BEYOND(counts[2], 33);
    BEYOND(queues[2].count, 9);
    BEYOND(queues[1].entries[1].cell, 2);
    BEYOND(owners[2], 9);
    BEYOND(sharing[2], 7);
    BEYOND(code[3].operation, 11);
    BEYOND(code[64].operation, 11);
    BEYOND(dirty[3], 7);
}

/* Whatever bytes stand there: a state of one byte value throughout is out of range. */
static void step_filled(void)
{
    State s;
    for (int fill = 0; fill < 256; fill++) {
        memset(&s, fill, sizeof s);
        expect_out_of_range(&s, fill == 255 ? "a state filled with 0xff" : "a state filled with one byte");
    }
}

int main(void)
{
    check_r1_bytes();
    for (size_t k = 0; k < RUNS; k++) {
        check_run(&runs[k]);
        step_run(&runs[k], 0);
        step_run(&runs[k], 0xff);
    }
    check_r13_cut();
    check_empty();
    check_damaged();
    step_r11_register();
    step_exact();
    step_unreachable();
    step_every_byte();
    step_out_of_range();
    step_filled();
    printf("%zu passed, 0 failed\n", passed);
    return 0;
}
