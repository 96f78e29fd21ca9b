/*
 * Measures the library against the plain C checker, in one process and on the same cases.
 * What belongs here: the comparison before the clock runs, the clock, the stack that a
 * call takes, and the table. It prints how many times what the checker in C takes the
 * library takes; with the word `times` on its command line, nanoseconds too.
 *
 * CHECKERS is X(NAME) for each compiler that checker.c was compiled with, its call then
 * being frasco_check_NAME. The fastest of them counts, case by case.
 */
#define _GNU_SOURCE
#include "cases.h"
#include "checker.h"

#include <stdio.h>
#include <stdlib.h>
#include <string.h>
#include <time.h>
#include <ucontext.h>

enum { ROUNDS = 41, BATCH_NS = 200000, STACK = 256 * 1024, LIBRARY = 0 };

typedef struct frasco_answer check_call(const uint8_t *, size_t, int32_t *, size_t, int32_t *,
                                        size_t);

/* The library's answer has the same three fields in the same order and C layout. */
check_call frascolimba_check;

#define X(name) check_call frasco_check_##name;
CHECKERS
#undef X

struct side {
    const char *name;
    check_call *check;
};

/* Read at run time, so that no compiler sees which function a call goes to. */
static const struct side *volatile const sides = (const struct side[]){
    { "library", frascolimba_check },
#define X(name) { #name, frasco_check_##name },
    CHECKERS
#undef X
};

#define X(name) +1
enum { SIDES = 1 CHECKERS };
#undef X

struct lists {
    int32_t values[BENCH_VALUES];
    int32_t memory[BENCH_MEMORY];
};

static struct bench_case cases[BENCH_CASES];
static struct lists lists;

static struct frasco_answer call(int side, const struct bench_case *c, struct lists *l)
{
    return sides[side].check(c->bytes, c->len, l->values, BENCH_VALUES, l->memory, BENCH_MEMORY);
}

/* ---- The same from both ---- */

static void fill(struct lists *l)
{
    memset(l, 0x5e, sizeof *l);
}

static void compare(const struct bench_case *c)
{
    static struct lists expected;
    fill(&expected);
    struct frasco_answer right = call(LIBRARY, c, &expected);
    for (int s = 1; s < SIDES; s++) {
        fill(&lists);
        struct frasco_answer a = call(s, c, &lists);
        if (a.number != right.number || a.place != right.place || a.thread != right.thread ||
            memcmp(&lists, &expected, sizeof lists) != 0) {
            fprintf(stderr, "speed: %s and %s differ on %s\n", sides[0].name, sides[s].name, c->name);
            exit(1);
        }
    }
}

/* ---- The clock ---- */

static double now(void)
{
    struct timespec t;
    clock_gettime(CLOCK_MONOTONIC, &t);
    return 1e9 * (double)t.tv_sec + (double)t.tv_nsec;
}

/* The time of so many calls on each of the cases by turns. */
static double batch(int side, const struct bench_case *c, size_t count, size_t calls)
{
    double start = now();
    for (size_t k = 0; k < calls; k++)
        for (size_t i = 0; i < count; i++)
            call(side, &c[i], &lists);
    return now() - start;
}

static size_t calls_for(const struct bench_case *c, size_t count)
{
    size_t calls = 1;
    while (batch(LIBRARY, c, count, calls) < BATCH_NS)
        calls *= 2;
    return calls;
}

/* The best time of a call for each side, which take turns so that both see the same noise. */
static void measure(const struct bench_case *c, size_t count, double best[SIDES])
{
    size_t calls = calls_for(c, count);
    for (int s = 0; s < SIDES; s++)
        best[s] = 1e18;
    for (int round = 0; round < ROUNDS; round++)
        for (int s = 0; s < SIDES; s++) {
            double t = batch(s, c, count, calls) / (double)calls;
            if (t < best[s])
                best[s] = t;
        }
}

/* ---- The stack ---- */

static ucontext_t caller, callee;
static int stack_side;
static const struct bench_case *stack_case;

static void on_own_stack(void)
{
    if (stack_side < SIDES)
        call(stack_side, stack_case, &lists);
}

/* How far down a call writes on a stack that was filled before; SIDES stands for no call. */
static size_t depth_of(int side, const struct bench_case *c)
{
    static unsigned char stack[STACK];
    memset(stack, 0xa5, STACK);
    stack_side = side;
    stack_case = c;
    getcontext(&callee);
    callee.uc_stack.ss_sp = stack;
    callee.uc_stack.ss_size = STACK;
    callee.uc_link = &caller;
    makecontext(&callee, on_own_stack, 0);
    swapcontext(&caller, &callee);
    size_t untouched = 0;
    while (untouched < STACK && stack[untouched] == 0xa5)
        untouched++;
    return STACK - untouched;
}

static void measure_stack(const struct bench_case *c, double used[SIDES])
{
    size_t nothing = depth_of(SIDES, c);
    for (int s = 0; s < SIDES; s++)
        used[s] = (double)(depth_of(s, c) - nothing);
}

/* ---- The table ---- */

static int fastest(const double of[SIDES])
{
    int best = 1;
    for (int s = 2; s < SIDES; s++)
        if (of[s] < of[best])
            best = s;
    return best;
}

static void row(const char *name, size_t items, const double of[SIDES], int with_figures)
{
    int c = fastest(of);
    printf("%-24s %6zu %8.2f  %s", name, items, of[LIBRARY] / of[c], sides[c].name);
    for (int s = 0; with_figures && s < SIDES; s++)
        printf("  %s %.1f", sides[s].name, of[s]);
    putchar('\n');
}

static const struct bench_case *growth(const char *mix, size_t items)
{
    for (size_t i = 0; i < BENCH_CASES; i++)
        if (cases[i].items == items && strstr(cases[i].name, mix) != NULL &&
            strstr(cases[i].name, "typical") == NULL)
            return &cases[i];
    fprintf(stderr, "speed: no case of %zu items, %s\n", items, mix);
    exit(1);
}

/* What an item costs: the program is one and the same, so reading it drops out. */
static void item_row(const char *name, const char *mix, int with_figures)
{
    double few[SIDES], many[SIDES];
    measure(growth(mix, 64), 1, few);
    measure(growth(mix, 1024), 1, many);
    for (int s = 0; s < SIDES; s++)
        many[s] = (many[s] - few[s]) / (1024 - 64);
    row(name, 1, many, with_figures);
}

int main(int argc, char **argv)
{
    int times = argc == 2 && strcmp(argv[1], "times") == 0;
    double of[SIDES];
    bench_all(cases);
    for (size_t i = 0; i < BENCH_CASES; i++)
        compare(&cases[i]);
    printf("%-24s %6s %8s  %s\n", "time of a case", "items", "ratio", "fastest in C");
    for (size_t i = 0; i < BENCH_CASES; i++) {
        measure(&cases[i], 1, of);
        row(cases[i].name, cases[i].items, of, times);
    }
    measure(cases, BENCH_CASES, of);
    row("all by turns", BENCH_CASES, of, times);
    item_row("an item, mixed", "mixed", times);
    item_row("an item, stores", "stores", times);
    measure_stack(growth("mixed", 1024), of);
    row("stack of a call", 1024, of, times);
    return 0;
}
