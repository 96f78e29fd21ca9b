/*
 * The plain C checker: reads a case into one struct of fixed arrays, then goes through
 * the schedule and changes that struct in place.
 * What belongs here: reading a case and running it. No input or output, no allocation,
 * no timing.
 */
#include "checker.h"

#include <stdbool.h>
#include <string.h>

enum {
    THREADS_MAX = 4,
    CELLS_MAX = 32,
    REGISTERS = 4,
    DEPTH_MAX = 8,
    INSTRUCTIONS_MAX = 32,
    ITEMS_MAX = 1024
};

enum {
    CELL_BYTES = 6,
    INSTRUCTION_BYTES = 7,
    FIRST_DRAIN = 17 /* items from here on are drains */
};

enum operation {
    LOAD = 1,
    STORE_CONSTANT = 2,
    STORE_REGISTER = 3,
    FENCE = 4,
    COMPARE_SWAP = 5,
    ACQUIRE_LOCAL = 6,
    ACQUIRE_SHARED = 7,
    RELEASE = 8,
    BRANCH = 9,
    ADD = 10,
    OPERATIONS_END = 11
};

enum number {
    TAKEN = 0,
    TOO_SHORT = 1,
    WRONG_VERSION = 2,
    WRONG_LENGTH = 3,
    WRONG_COUNT = 4,
    MISSING_OR_LEFT_OVER = 5,
    WRONG_CELL = 6,
    WRONG_INSTRUCTION = 7,
    WRONG_ITEM = 8,
    LIST_TOO_SHORT = 9,
    PROGRAM_ENDED = 20,
    STORES_PENDING = 21,
    BUFFER_FULL = 22,
    BUFFER_EMPTY = 23,
    LOAD_OF_LOCAL = 30,
    LOAD_WHILE_DIRTY = 31,
    STORE_TO_OWNED = 32,
    ACQUIRE_OF_OWNED = 33,
    ACQUIRE_OF_PENDING = 34,
    RELEASE_OF_FOREIGN = 35,
    RELEASE_WHILE_PENDING = 36
};

struct instruction {
    int32_t value;
    uint8_t op;
    uint8_t cell; /* the target, for a BRANCH */
    uint8_t reg;
};

struct pending_store {
    int32_t value;
    uint32_t cell;
};

struct thread {
    uint32_t position;
    uint32_t length;  /* instructions in code */
    uint32_t pending; /* stores in buffer, the oldest first */
    bool dirty;
    int32_t reg[REGISTERS];
    struct pending_store buffer[DEPTH_MAX];
    struct instruction code[INSTRUCTIONS_MAX];
};

struct machine {
    uint32_t threads;
    uint32_t cells;
    uint32_t depth;
    size_t items;
    const uint8_t *schedule; /* stays in the case: its bytes are judged once, then safe */
    int32_t initial[CELLS_MAX];
    uint8_t owner[CELLS_MAX]; /* 0 nobody, else the thread's number from 1 */
    bool shared[CELLS_MAX];
    struct thread thread[THREADS_MAX];
};

static struct frasco_answer answer(uint32_t number, size_t place, uint32_t thread)
{
    return (struct frasco_answer){ .place = place, .number = number, .thread = thread };
}

/* ---- Reading ---- */

/* Where the reader is, and why it stopped. Readers give false once it has. */
struct reader {
    const uint8_t *bytes;
    size_t len;
    size_t at;
    struct frasco_answer refusal;
};

static bool refuse(struct reader *r, uint32_t number, size_t place)
{
    r->refusal = answer(number, place, 0);
    return false;
}

static bool have(struct reader *r, size_t count)
{
    return r->len - r->at >= count || refuse(r, MISSING_OR_LEFT_OVER, r->at);
}

/*
 * Converting a uint32_t above INT32_MAX is not undefined but left to the compiler; gcc
 * and clang both promise to reduce modulo 2^32, which is what the rules want.
 */
static int32_t to_signed(uint32_t bits)
{
    return (int32_t)bits;
}

static int32_t value_at(const uint8_t *p)
{
    return to_signed((uint32_t)p[0] << 24 | (uint32_t)p[1] << 16 | (uint32_t)p[2] << 8 | p[3]);
}

static bool read_count(struct reader *r, uint32_t least, uint32_t most, uint32_t *count)
{
    if (!have(r, 1))
        return false;
    *count = r->bytes[r->at];
    if (*count < least || *count > most)
        return refuse(r, WRONG_COUNT, r->at);
    r->at += 1;
    return true;
}

static bool read_cells(struct reader *r, struct machine *m)
{
    for (uint32_t c = 0; c < m->cells; c++, r->at += CELL_BYTES) {
        if (!have(r, CELL_BYTES))
            return false;
        const uint8_t *p = r->bytes + r->at;
        uint8_t owner = p[4];
        uint8_t sharing = p[5];
        if (owner > m->threads)
            return refuse(r, WRONG_CELL, r->at + 4);
        if (sharing > 1 || (owner == 0 && sharing == 0))
            return refuse(r, WRONG_CELL, r->at + 5);
        m->initial[c] = value_at(p);
        m->owner[c] = owner;
        m->shared[c] = sharing == 1;
    }
    return true;
}

enum { USES_CELL = 1, USES_TARGET = 2, USES_REGISTER = 4, USES_VALUE = 8 };

static const uint8_t uses[OPERATIONS_END] = {
    [LOAD] = USES_CELL | USES_REGISTER,
    [STORE_CONSTANT] = USES_CELL | USES_VALUE,
    [STORE_REGISTER] = USES_CELL | USES_REGISTER,
    [FENCE] = 0,
    [COMPARE_SWAP] = USES_CELL | USES_REGISTER | USES_VALUE,
    [ACQUIRE_LOCAL] = USES_CELL,
    [ACQUIRE_SHARED] = USES_CELL,
    [RELEASE] = USES_CELL,
    [BRANCH] = USES_TARGET | USES_REGISTER | USES_VALUE,
    [ADD] = USES_REGISTER | USES_VALUE,
};

/* An unused field must be zero, so it is held to the limit 1 like a used one to its own. */
static bool read_instruction(struct reader *r, uint32_t cells, uint32_t length,
                             struct instruction *in)
{
    if (!have(r, INSTRUCTION_BYTES))
        return false;
    const uint8_t *p = r->bytes + r->at;
    if (p[0] < LOAD || p[0] >= OPERATIONS_END)
        return refuse(r, WRONG_INSTRUCTION, r->at);
    uint8_t used = uses[p[0]];
    uint32_t cell_limit = used & USES_CELL ? cells : used & USES_TARGET ? length + 1 : 1;
    if (p[1] >= cell_limit)
        return refuse(r, WRONG_INSTRUCTION, r->at + 1);
    if (p[2] >= (used & USES_REGISTER ? REGISTERS : 1))
        return refuse(r, WRONG_INSTRUCTION, r->at + 2);
    int32_t value = value_at(p + 3);
    if (value != 0 && !(used & USES_VALUE))
        return refuse(r, WRONG_INSTRUCTION, r->at + 3);
    *in = (struct instruction){ .op = p[0], .cell = p[1], .reg = p[2], .value = value };
    r->at += INSTRUCTION_BYTES;
    return true;
}

/* Sets the thread's state at the start too; the places of the buffer need no value. */
static bool read_thread(struct reader *r, uint32_t cells, struct thread *th)
{
    if (!read_count(r, 0, INSTRUCTIONS_MAX, &th->length))
        return false;
    for (uint32_t i = 0; i < th->length; i++)
        if (!read_instruction(r, cells, th->length, &th->code[i]))
            return false;
    th->position = 0;
    th->pending = 0;
    th->dirty = false;
    memset(th->reg, 0, sizeof th->reg);
    return true;
}

static bool read_schedule(struct reader *r, struct machine *m)
{
    if (!have(r, 2))
        return false;
    m->items = (size_t)r->bytes[r->at] << 8 | r->bytes[r->at + 1];
    if (m->items > ITEMS_MAX)
        return refuse(r, WRONG_COUNT, r->at);
    r->at += 2;
    m->schedule = r->bytes + r->at;
    for (size_t i = 0; i < m->items; i++, r->at++) {
        if (!have(r, 1))
            return false;
        /* Below 1 and below 17 the subtraction wraps to a number above every thread. */
        uint32_t item = r->bytes[r->at];
        if (item - 1 >= m->threads && item - FIRST_DRAIN >= m->threads)
            return refuse(r, WRONG_ITEM, r->at);
    }
    return true;
}

static bool read_case(struct reader *r, struct machine *m)
{
    if (r->len < 3)
        return refuse(r, TOO_SHORT, 0);
    if (r->bytes[0] != 1)
        return refuse(r, WRONG_VERSION, 0);
    if (((size_t)r->bytes[1] << 8 | r->bytes[2]) != r->len)
        return refuse(r, WRONG_LENGTH, 1);
    r->at = 3;
    if (!read_count(r, 1, THREADS_MAX, &m->threads) || !read_count(r, 1, CELLS_MAX, &m->cells) ||
        !read_count(r, 1, DEPTH_MAX, &m->depth) || !read_cells(r, m))
        return false;
    for (uint32_t t = 0; t < m->threads; t++)
        if (!read_thread(r, m->cells, &m->thread[t]))
            return false;
    if (!read_schedule(r, m))
        return false;
    return r->at == r->len || refuse(r, MISSING_OR_LEFT_OVER, r->at);
}

/* ---- Running ---- */

/* Each of these gives the number of the refusal, or TAKEN and has done the work. */

static inline uint32_t drain(struct thread *th, int32_t *memory)
{
    if (th->pending == 0)
        return BUFFER_EMPTY;
    memory[th->buffer[0].cell] = th->buffer[0].value;
    th->pending -= 1;
    for (uint32_t i = 0; i < th->pending; i++)
        th->buffer[i] = th->buffer[i + 1];
    return TAKEN;
}

static inline uint32_t load(const struct machine *m, struct thread *th, uint32_t me,
                            const struct instruction *in, const int32_t *memory, int32_t *seen)
{
    if (m->owner[in->cell] != me) {
        if (!m->shared[in->cell])
            return LOAD_OF_LOCAL;
        if (th->dirty)
            return LOAD_WHILE_DIRTY;
    }
    int32_t value = memory[in->cell];
    for (uint32_t i = th->pending; i > 0; i--)
        if (th->buffer[i - 1].cell == in->cell) {
            value = th->buffer[i - 1].value;
            break;
        }
    th->reg[in->reg] = value;
    *seen = value;
    return TAKEN;
}

static inline uint32_t store(const struct machine *m, struct thread *th, uint32_t me,
                             uint32_t cell, int32_t value)
{
    if (th->pending == m->depth)
        return BUFFER_FULL;
    if (m->owner[cell] != me && m->owner[cell] != 0)
        return STORE_TO_OWNED;
    th->buffer[th->pending] = (struct pending_store){ .value = value, .cell = cell };
    th->pending += 1;
    /* Unowned cells are shared, so a cell that is not shared is the thread's own here. */
    if (m->shared[cell])
        th->dirty = true;
    return TAKEN;
}

static inline uint32_t fence(struct thread *th)
{
    if (th->pending != 0)
        return STORES_PENDING;
    th->dirty = false;
    return TAKEN;
}

static inline uint32_t compare_swap(const struct machine *m, struct thread *th, uint32_t me,
                                    const struct instruction *in, int32_t *memory, int32_t *seen)
{
    if (th->pending != 0)
        return STORES_PENDING;
    if (m->owner[in->cell] != me && m->owner[in->cell] != 0)
        return STORE_TO_OWNED;
    int32_t value = memory[in->cell];
    if (value == th->reg[in->reg])
        memory[in->cell] = in->value;
    th->reg[in->reg] = value;
    th->dirty = false;
    *seen = value;
    return TAKEN;
}

static bool pending_elsewhere(const struct machine *m, uint32_t me, uint32_t cell)
{
    for (uint32_t t = 0; t < m->threads; t++) {
        if (t + 1 == me)
            continue;
        const struct thread *other = &m->thread[t];
        for (uint32_t i = 0; i < other->pending; i++)
            if (other->buffer[i].cell == cell)
                return true;
    }
    return false;
}

static inline uint32_t acquire(struct machine *m, uint32_t me, uint32_t cell, bool shared)
{
    if (m->owner[cell] != 0)
        return ACQUIRE_OF_OWNED;
    if (pending_elsewhere(m, me, cell))
        return ACQUIRE_OF_PENDING;
    m->owner[cell] = (uint8_t)me;
    m->shared[cell] = shared;
    return TAKEN;
}

static inline uint32_t release(struct machine *m, const struct thread *th, uint32_t me,
                               uint32_t cell)
{
    if (m->owner[cell] != me)
        return RELEASE_OF_FOREIGN;
    if (th->pending != 0)
        return RELEASE_WHILE_PENDING;
    m->owner[cell] = 0;
    m->shared[cell] = true;
    return TAKEN;
}

/* The next instruction of thread `me` (from 1). The position moves only if it is taken. */
static inline uint32_t step(struct machine *m, uint32_t me, int32_t *memory, int32_t *seen)
{
    struct thread *th = &m->thread[me - 1];
    if (th->position == th->length)
        return PROGRAM_ENDED;
    const struct instruction *in = &th->code[th->position];
    uint32_t next = th->position + 1;
    uint32_t number = TAKEN;
    switch (in->op) {
    case LOAD: number = load(m, th, me, in, memory, seen); break;
    case STORE_CONSTANT: number = store(m, th, me, in->cell, in->value); break;
    case STORE_REGISTER: number = store(m, th, me, in->cell, th->reg[in->reg]); break;
    case FENCE: number = fence(th); break;
    case COMPARE_SWAP: number = compare_swap(m, th, me, in, memory, seen); break;
    case ACQUIRE_LOCAL: number = acquire(m, me, in->cell, false); break;
    case ACQUIRE_SHARED: number = acquire(m, me, in->cell, true); break;
    case RELEASE: number = release(m, th, me, in->cell); break;
    case BRANCH:
        if (th->reg[in->reg] == in->value)
            next = in->cell;
        break;
    case ADD:
        /* By way of uint32_t: a signed sum that overflows would be undefined. */
        th->reg[in->reg] = to_signed((uint32_t)th->reg[in->reg] + (uint32_t)in->value);
        break;
    }
    if (number == TAKEN)
        th->position = next;
    return number;
}

/* `restrict`, as the lists and the case do not overlap, spares loads in the loop. */
static struct frasco_answer run(struct machine *m, const uint8_t *restrict schedule,
                                int32_t *restrict values, int32_t *restrict memory)
{
    memcpy(memory, m->initial, m->cells * sizeof *memory);
    for (size_t i = 0; i < m->items; i++) {
        uint32_t item = schedule[i];
        uint32_t me = item < FIRST_DRAIN ? item : item - FIRST_DRAIN + 1;
        int32_t seen = 0;
        uint32_t number = item < FIRST_DRAIN ? step(m, me, memory, &seen)
                                             : drain(&m->thread[me - 1], memory);
        if (number != TAKEN)
            return answer(number, i, me);
        values[i] = seen;
    }
    return answer(TAKEN, m->items, 0);
}

struct frasco_answer frasco_check_c(const uint8_t *case_bytes, size_t len,
                                    int32_t *values, size_t values_len,
                                    int32_t *memory, size_t memory_len)
{
    struct machine m; /* not cleared: reading sets what the run looks at */
    struct reader r = { .bytes = case_bytes, .len = len };
    if (!read_case(&r, &m))
        return r.refusal;
    if (values_len < m.items || memory_len < m.cells)
        return answer(LIST_TOO_SHORT, 0, 0);
    return run(&m, m.schedule, values, memory);
}
