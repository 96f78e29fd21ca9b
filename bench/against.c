/*
 * Holds the plain C checker against expected outputs.
 * What belongs here: reading bundles, printing as the rules' program prints, the check of
 * number 9, and writing the benchmark's cases as a bundle. No timing.
 *
 *   against BUNDLE          prints what the rules' program prints, case after case
 *   against --short BUNDLE  checks on every case what lists that are too short bring
 *   against --cases         writes the benchmark's cases to standard output, as a bundle
 */
#include "cases.h"
#include "checker.h"

#include <inttypes.h>
#include <stdbool.h>
#include <stdio.h>
#include <stdlib.h>
#include <string.h>

enum { VALUES = BENCH_VALUES, MEMORY = BENCH_MEMORY };

/* What the lists hold before a call; what a call leaves alone must still be this. */
static const int32_t BEFORE = 0x5eed5eed;

struct lists {
    int32_t values[VALUES];
    int32_t memory[MEMORY];
};

static void die(const char *why)
{
    fprintf(stderr, "against: %s\n", why);
    exit(2);
}

static void clear(struct lists *l)
{
    for (size_t i = 0; i < VALUES; i++)
        l->values[i] = BEFORE;
    for (size_t i = 0; i < MEMORY; i++)
        l->memory[i] = BEFORE;
}

/* Only the first `values` and `memory` elements may have been written. */
static bool rest_untouched(const struct lists *l, size_t values, size_t memory)
{
    for (size_t i = values; i < VALUES; i++)
        if (l->values[i] != BEFORE)
            return false;
    for (size_t i = memory; i < MEMORY; i++)
        if (l->memory[i] != BEFORE)
            return false;
    return true;
}

static bool is_run(struct frasco_answer a)
{
    return a.number == 0 || a.number >= 20;
}

/* Of a case that is well formed. */
static size_t cells_of(const uint8_t *bytes)
{
    return bytes[4];
}

/* Of a case that is well formed: behind the header, the cells and the programs. */
static size_t items_of(const uint8_t *bytes)
{
    size_t at = 6 + 6 * cells_of(bytes);
    for (unsigned t = 0; t < bytes[3]; t++)
        at += 1 + 7 * (size_t)bytes[at];
    return (size_t)bytes[at] << 8 | bytes[at + 1];
}

/* ---- Printing ---- */

static void print_list(const char *name, const int32_t *list, size_t count)
{
    fputs(name, stdout);
    for (size_t i = 0; i < count; i++)
        printf(" %" PRId32, list[i]);
    putchar('\n');
}

static bool print_case(const uint8_t *bytes, size_t len)
{
    struct lists l;
    clear(&l);
    struct frasco_answer a = frasco_check_c(bytes, len, l.values, VALUES, l.memory, MEMORY);
    printf("answer %" PRIu32 " at %" PRIu64 " thread %" PRIu32 "\n", a.number, a.place, a.thread);
    if (!is_run(a))
        return rest_untouched(&l, 0, 0);
    print_list("values", l.values, (size_t)a.place);
    print_list("memory", l.memory, cells_of(bytes));
    return rest_untouched(&l, (size_t)a.place, cells_of(bytes));
}

/* ---- Lists that are too short ---- */

static bool same(struct frasco_answer a, struct frasco_answer b)
{
    return a.number == b.number && a.place == b.place && a.thread == b.thread;
}

/* With lists of these lengths the answer is as expected and neither list has changed. */
static bool refused(const uint8_t *bytes, size_t len, size_t values, size_t memory,
                    struct frasco_answer expected)
{
    struct lists l;
    clear(&l);
    struct frasco_answer a = frasco_check_c(bytes, len, l.values, values, l.memory, memory);
    return same(a, expected) && rest_untouched(&l, 0, 0);
}

/* Lists that are just long enough bring the same as longer ones. */
static bool just_enough(const uint8_t *bytes, size_t len, const struct lists *full,
                        struct frasco_answer expected)
{
    struct lists l;
    clear(&l);
    struct frasco_answer a =
        frasco_check_c(bytes, len, l.values, items_of(bytes), l.memory, cells_of(bytes));
    return same(a, expected) && memcmp(&l, full, sizeof l) == 0;
}

/* One element short gives 9 in a well-formed case; any other keeps its answer even so. */
static bool short_case(const uint8_t *bytes, size_t len)
{
    static const struct frasco_answer nine = { .place = 0, .number = 9, .thread = 0 };
    struct lists full;
    clear(&full);
    struct frasco_answer a =
        frasco_check_c(bytes, len, full.values, VALUES, full.memory, MEMORY);
    if (!is_run(a))
        return refused(bytes, len, 0, 0, a);
    size_t items = items_of(bytes);
    size_t cells = cells_of(bytes);
    return just_enough(bytes, len, &full, a) &&
           (items == 0 || refused(bytes, len, items - 1, cells, nine)) &&
           (items == 0 || refused(bytes, len, 0, MEMORY, nine)) &&
           refused(bytes, len, items, cells - 1, nine) &&
           refused(bytes, len, VALUES, 0, nine);
}

/* ---- Bundles ---- */

/* Gives false at the end of the file, and ends the program if a case is cut. */
static bool next_case(FILE *file, uint8_t **bytes, size_t *len)
{
    uint8_t head[4];
    size_t got = fread(head, 1, sizeof head, file);
    if (got == 0 && feof(file))
        return false;
    if (got != sizeof head)
        die("the bundle ends inside a length");
    *len = (size_t)head[0] << 24 | (size_t)head[1] << 16 | (size_t)head[2] << 8 | head[3];
    /* Just as large as the case, so that a sanitizer sees a read behind its end. */
    *bytes = malloc(*len != 0 ? *len : 1);
    if (*bytes == NULL)
        die("no room for a case");
    if (fread(*bytes, 1, *len, file) != *len)
        die("the bundle ends inside a case");
    return true;
}

static int each_case(const char *name, bool (*work)(const uint8_t *, size_t), const char *wrong)
{
    FILE *file = fopen(name, "rb");
    if (file == NULL)
        die("the bundle cannot be opened");
    uint8_t *bytes;
    size_t len;
    int status = 0;
    for (size_t i = 0; next_case(file, &bytes, &len); i++) {
        if (!work(bytes, len)) {
            fprintf(stderr, "against: case %zu: %s\n", i, wrong);
            status = 1;
        }
        free(bytes);
    }
    fclose(file);
    return status;
}

static int write_cases(void)
{
    static struct bench_case all[BENCH_CASES];
    bench_all(all);
    for (size_t i = 0; i < BENCH_CASES; i++) {
        size_t len = all[i].len;
        const uint8_t head[4] = { 0, 0, (uint8_t)(len >> 8), (uint8_t)(len & 255) };
        fwrite(head, 1, sizeof head, stdout);
        fwrite(all[i].bytes, 1, len, stdout);
    }
    return fflush(stdout) == 0 ? 0 : 2;
}

int main(int argc, char **argv)
{
    if (argc == 2 && strcmp(argv[1], "--cases") == 0)
        return write_cases();
    if (argc == 3 && strcmp(argv[1], "--short") == 0)
        return each_case(argv[2], short_case, "a short list is not judged as it should be");
    if (argc == 2 && argv[1][0] != '-')
        return each_case(argv[1], print_case, "an element was written that should stay");
    die("usage: against BUNDLE | against --short BUNDLE | against --cases");
    return 2;
}
