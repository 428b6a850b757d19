/* The calls by lists from a host in C that trusts nothing, as guard.c does with those by file: every list stands against guard bytes, or
 * alone on the heap, null where its length is 0, so that a checker of memory sees every byte too many that is read or written. Each call is
 * made with an `answer` of every length from none on, and with its other lists shorter and longer than they need be. Prints a line and gives
 * 0 if all is well. */
#include <stdio.h>
#include <stdlib.h>
#include <string.h>

#include "../../include/pelshaqu.h"

/* Guard bytes, so many that what lies behind them is aligned as what lies before. */
#define GUARD 64
#define LISTS 6
#define ROOM (PELSHAQU_LISTING + 64)
#define RECORD PELSHAQU_JOB_RECORD
#define SHARE PELSHAQU_PLAN_RECORD

static unsigned long calls;

enum call { TEST_JOB, READ_JOB, WRITE_JOB, LIST_JOB, MEASURE, TRIAL, QUICK_PLAN, HALVE_ROW, PLAN, WRITE_PLAN, GRADE };
static const char *const names[] = {"test_job",   "read_job",  "write_job", "list_job",   "measure", "trial",
                                    "quick_plan", "halve_row", "plan",      "write_plan", "grade"};

/* Of a list whose length makes the job: it is left as it is. */
#define LEFT UINT32_MAX

/* A list of a call: what it holds, entries of so many bytes, and what its first entries are afterwards where the call is accepted; of work
 * numbers they may be anything. With fewer entries the number is `shorter`, with more `longer`, 0 if that is nothing to the call. */
struct list {
    size_t width, len;
    const void *before, *after;
    size_t changed;
    int scratch;
    uint32_t shorter, longer;
};

/* A call with its plain numbers and its lists, in the order of its parameters, the answer being the last one; and the number that it gives. */
struct asked {
    enum call call;
    uint32_t method, startup;
    bool second;
    uint64_t load, speed;
    struct list lists[LISTS];
    size_t count;
    uint32_t number;
};

static void fail(const char *what, const struct asked *a) {
    printf("tests/guard/lists: FAILED: pelshaqu_%s: %s, lists of", names[a->call], what);
    for (size_t k = 0; k < a->count; k++) printf(" %zu", a->lists[k].len);
    printf(", wanted %u\n", a->number);
    exit(1);
}

static uint32_t made(const struct asked *a, void *const at[LISTS]) {
    const struct list *l = a->lists;
#define AT(k) at[k], l[k].len
#define JOB a->second, a->startup, AT(0), AT(1), AT(2)
    calls++;
    switch (a->call) {
    case TEST_JOB: return pelshaqu_test_job(JOB);
    case READ_JOB: return pelshaqu_read_job(AT(0), AT(1), AT(2), AT(3), AT(4));
    case WRITE_JOB: return pelshaqu_write_job(JOB, AT(3), AT(4));
    case LIST_JOB: return pelshaqu_list_job(AT(0), AT(1), AT(2));
    case MEASURE: return pelshaqu_measure(JOB, AT(3), AT(4));
    case TRIAL: return pelshaqu_trial(JOB, a->load, a->speed, AT(3), AT(4));
    case QUICK_PLAN: return pelshaqu_quick_plan(JOB, AT(3), AT(4));
    case HALVE_ROW: return pelshaqu_halve_row(JOB, AT(3), AT(4));
    case PLAN: return pelshaqu_plan(a->method, JOB, AT(3), AT(4), AT(5));
    case WRITE_PLAN: return pelshaqu_write_plan(JOB, AT(3), AT(4), AT(5));
    default: return pelshaqu_grade(JOB, AT(3), AT(4));
    }
}

static uint8_t pattern(size_t i) {
    return (uint8_t)(167 * i + 91);
}

/* What byte i of a list is before a call: the list's own, or the pattern behind what it holds. */
static uint8_t held(const struct list *l, size_t given, size_t i) {
    return l->before && i < given * l->width ? ((const uint8_t *)l->before)[i] : pattern(i);
}

/* Whether byte i of a list is as it must be after a call. */
static int good(const struct list *l, size_t given, size_t i, uint32_t number, uint8_t byte) {
    if (number == 0 && i < l->changed * l->width && i < l->len * l->width) return l->scratch || byte == ((const uint8_t *)l->after)[i];
    return byte == held(l, given, i);
}

/* The call with guard bytes round every list, and with every list alone on the heap. `given` is how many entries each list holds, the rest
 * of a longer one being a pattern. */
static void both(const struct asked *a, const size_t given[LISTS]) {
    static uint64_t area[LISTS][(ROOM + 2 * GUARD) / 8];
    void *at[LISTS];
    for (size_t k = 0; k < a->count; k++) {
        const struct list *l = &a->lists[k];
        uint8_t *all = (uint8_t *)area[k];
        size_t bytes = l->len * l->width;
        if (bytes > ROOM) fail("no room in the test itself", a);
        for (size_t i = 0; i < GUARD; i++) all[i] = all[GUARD + bytes + i] = pattern(i + 7);
        for (size_t i = 0; i < bytes; i++) all[GUARD + i] = held(l, given[k], i);
        at[k] = all + GUARD;
    }
    uint32_t number = made(a, at);
    if (number != a->number) fail("wrong number", a);
    for (size_t k = 0; k < a->count; k++) {
        const struct list *l = &a->lists[k];
        const uint8_t *all = (const uint8_t *)area[k];
        size_t bytes = l->len * l->width;
        for (size_t i = 0; i < GUARD; i++) {
            if (all[i] != pattern(i + 7) || all[GUARD + bytes + i] != pattern(i + 7)) fail("a guard byte was changed", a);
        }
        for (size_t i = 0; i < bytes; i++) {
            if (!good(l, given[k], i, number, all[GUARD + i])) fail("a wrong entry, or one that must stay was changed", a);
        }
    }
    for (size_t k = 0; k < a->count; k++) {
        const struct list *l = &a->lists[k];
        size_t bytes = l->len * l->width;
        at[k] = bytes ? malloc(bytes) : NULL;
        if (bytes && !at[k]) fail("no memory", a);
        for (size_t i = 0; i < bytes; i++) ((uint8_t *)at[k])[i] = held(l, given[k], i);
    }
    if (made(a, at) != number) fail("wrong number, lists alone", a);
    for (size_t k = 0; k < a->count; k++) {
        const struct list *l = &a->lists[k];
        for (size_t i = 0; i < l->len * l->width; i++) {
            if (!good(l, given[k], i, number, ((const uint8_t *)at[k])[i])) fail("a wrong entry, lists alone", a);
        }
        free(at[k]);
    }
}

/* The call with an answer of every length, no entry to three more than it has. */
static void answers(struct asked a, const size_t given[LISTS]) {
    struct list *last = &a.lists[a.count - 1];
    if (a.call == TEST_JOB) {
        both(&a, given);
        return;
    }
    for (last->len = 0; last->len <= PELSHAQU_MAX_ANSWERS + 3; last->len++) both(&a, given);
}

/* The call as it is, with each list but the answer shorter in turn, and longer. Lists that are long are cut at a few places only. */
static void every(struct asked a) {
    size_t given[LISTS], lists = a.count - (a.call == TEST_JOB ? 0 : 1);
    for (size_t k = 0; k < a.count; k++) given[k] = a.lists[k].len;
    answers(a, given);
    for (size_t k = 0; k < lists; k++) {
        struct asked other = a;
        struct list *l = &other.lists[k];
        if (l->shorter != LEFT) {
            other.number = l->shorter;
            for (l->len = 0; l->len < given[k]; l->len += l->len > 100 && l->len + 5 < given[k] ? given[k] - l->len - 4 : 1) {
                if (l->shorter == PELSHAQU_BAD_LENGTH && l->len % RECORD == 0) continue; /* another job */
                answers(other, given);
            }
        }
        if (l->longer == LEFT) continue;
        other.number = l->longer ? l->longer : a.number;
        for (l->len = given[k] + 1; l->len <= given[k] + 3; l->len++) answers(other, given);
    }
}

/* A job worked by hand: its edition, its lists, and what the calls answer of it. */
struct job {
    bool second;
    uint32_t startup;
    size_t machines, tiles;
    uint32_t speeds[4], weights[8], best[5], bottleneck[2], quick[5], quick_bottleneck[2];
    uint16_t holds[4];
    uint64_t imbalance, counts[5], allowances[5]; /* of each method */
    const char *listing;
};

static struct list lent(const void *before, size_t width, size_t len, uint32_t shorter, uint32_t longer) {
    return (struct list){.width = width, .len = len, .before = before, .shorter = shorter, .longer = longer};
}

/* A list that is only lent room, with what the call puts there. */
static struct list filled(const void *after, size_t width, size_t len, size_t changed) {
    return (struct list){.width = width, .len = len, .after = after, .changed = changed, .shorter = PELSHAQU_TOO_SHORT};
}

static struct list answer(const uint64_t *after, size_t entries) {
    return (struct list){.width = 8, .len = entries, .after = after, .changed = entries};
}

/* A call by lists on a job, as far as the job goes. */
static struct asked on(enum call call, const struct job *job, uint32_t number) {
    struct asked a = {.call = call, .second = job->second, .startup = job->startup, .count = 3, .number = number};
    a.lists[0] = lent(job->speeds, 4, job->machines, LEFT, LEFT);
    a.lists[1] = lent(job->holds, 2, job->machines, PELSHAQU_TOO_SHORT, 0);
    a.lists[2] = lent(job->weights, 4, job->tiles, LEFT, LEFT);
    return a;
}

static struct asked with(struct asked a, struct list list) {
    a.lists[a.count++] = list;
    return a;
}

/* The load of a share. */
static uint32_t load_of(const struct job *job, uint32_t from, uint32_t to) {
    uint32_t load = from < to && job->second ? job->startup : 0;
    for (uint32_t i = from; i < to; i++) load += job->weights[i];
    return load;
}

static void field(uint8_t *at, uint32_t value) {
    for (int i = 0; i < 4; i++) at[i] = (uint8_t)(value >> (8 * i));
}

/* The plan file of a division. */
static size_t plan_file(const struct job *job, const uint32_t *separators, uint8_t *plan) {
    for (size_t p = 0; p < job->machines; p++) {
        field(plan + SHARE * p, separators[p]);
        field(plan + SHARE * p + 4, separators[p + 1]);
        field(plan + SHARE * p + 8, load_of(job, separators[p], separators[p + 1]));
        field(plan + SHARE * p + 12, job->speeds[p]);
        struct pelshaqu_share share = pelshaqu_read_share(plan, p);
        if (share.before != separators[p] || share.after != separators[p + 1] || share.speed != job->speeds[p] ||
            share.load != load_of(job, share.before, share.after)) {
            printf("tests/guard/lists: FAILED: a share is read wrongly\n");
            exit(1);
        }
    }
    return SHARE * job->machines;
}

static bool has_holds(const struct job *job) {
    for (size_t p = 0; p < job->machines; p++) {
        if (job->holds[p]) return true;
    }
    return false;
}

static bool halvable(const struct job *job) {
    for (size_t p = 1; p < job->machines; p++) {
        if (job->speeds[p] != job->speeds[0]) return false;
    }
    return job->machines == 1 || job->machines == 2 || job->machines == 4;
}

static void job_calls(const struct job *job) {
    uint8_t file[RECORD * 13], plan[SHARE * 4];
    size_t n = job->second ? pelshaqu_put_startup(file, job->startup) : 0, bytes, P = job->machines;
    for (size_t p = 0; p < P; p++) n += pelshaqu_put_machine(file + n, job->speeds[p], job->holds[p]);
    for (size_t i = 0; i < job->tiles; i++) n += pelshaqu_put_tile(file + n, job->weights[i]);
    const uint64_t read[] = {job->second ? PELSHAQU_SECOND_EDITION : PELSHAQU_FIRST_EDITION, job->second ? job->startup : 0, P, job->tiles};
    const uint64_t length[] = {n}, listed[] = {strlen(job->listing)}, measured[] = {job->bottleneck[0], job->bottleneck[1]};
    const uint64_t quick[] = {job->quick_bottleneck[0], job->quick_bottleneck[1]}, best[] = {PELSHAQU_BEST};
    const uint32_t free_only = has_holds(job) ? PELSHAQU_NOT_WITH_HOLDS : 0;
    struct asked a = {.call = READ_JOB};
    a = with(a, lent(file, 1, n, PELSHAQU_BAD_LENGTH, PELSHAQU_BAD_LENGTH));
    a = with(a, filled(job->speeds, 4, P, P));
    a = with(a, filled(job->holds, 2, P, P));
    a = with(a, filled(job->weights, 4, job->tiles, job->tiles));
    every(with(a, answer(read, PELSHAQU_READ_JOB_ANSWERS)));
    a = with((struct asked){.call = LIST_JOB}, lent(file, 1, n, LEFT, LEFT));
    a = with(a, filled(job->listing, 1, PELSHAQU_LISTING, strlen(job->listing)));
    every(with(a, answer(listed, PELSHAQU_LIST_JOB_ANSWERS)));
    every(on(TEST_JOB, job, 0));
    every(with(with(on(WRITE_JOB, job, 0), filled(file, 1, n, n)), answer(length, PELSHAQU_WRITE_JOB_ANSWERS)));

    struct list division = lent(job->best, 4, P + 1, PELSHAQU_TOO_SHORT, 0), separators = filled(job->best, 4, P + 1, P + 1);
    every(with(with(on(MEASURE, job, 0), division), answer(measured, PELSHAQU_MEASURE_ANSWERS)));
    for (uint32_t method = PELSHAQU_TABLE; method <= PELSHAQU_NICOL; method++) {
        const uint64_t figures[] = {job->counts[method], job->allowances[method], measured[0], measured[1], job->imbalance};
        struct list work = filled(NULL, 4, PELSHAQU_WORK(job->tiles), PELSHAQU_WORK(job->tiles));
        work.scratch = 1;
        a = with(with(on(PLAN, job, method == PELSHAQU_NICOL ? free_only : 0), separators), work);
        a.method = method;
        every(with(a, answer(figures, PELSHAQU_PLAN_ANSWERS)));
    }
    /* At the bottleneck the trial fits. It may leave a machine out, and here comes to the last that has tiles. */
    uint64_t came = 0;
    for (size_t p = 1; p <= P; p++) {
        if (job->best[p] > job->best[p - 1]) came = p;
    }
    const uint64_t fits[] = {PELSHAQU_FITS, came};
    a = with(on(TRIAL, job, 0), separators);
    a.load = measured[0], a.speed = measured[1];
    every(with(a, answer(fits, 2)));
    for (int k = 0; k < 4; k++) {
        static const uint64_t outside[][2] = {{0, 0}, {PELSHAQU_MAX_BOUND_LOAD + 1, 1}, {1, PELSHAQU_MAX_BOUND_SPEED + 1}, {UINT64_MAX, UINT64_MAX}};
        a.number = PELSHAQU_BAD_BOUND;
        a.load = outside[k][0], a.speed = outside[k][1];
        every(with(a, answer(fits, 2)));
    }
    struct list quickly = filled(job->quick, 4, P + 1, P + 1);
    every(with(with(on(QUICK_PLAN, job, free_only), quickly), answer(quick, PELSHAQU_QUICK_PLAN_ANSWERS)));
    bytes = plan_file(job, job->best, plan);
    const uint64_t written[] = {bytes};
    a = with(with(on(WRITE_PLAN, job, 0), division), filled(plan, 1, bytes, bytes));
    every(with(a, answer(written, PELSHAQU_WRITE_PLAN_ANSWERS)));
    struct list whole = lent(plan, 1, bytes, PELSHAQU_BAD_PLAN_LENGTH, PELSHAQU_BAD_PLAN_LENGTH);
    every(with(with(on(GRADE, job, 0), whole), answer(best, PELSHAQU_GRADE_ANSWERS)));
    plan[8] ^= 1;
    every(with(with(on(GRADE, job, PELSHAQU_UNTRUE_PLAN), whole), answer(best, PELSHAQU_GRADE_ANSWERS)));
    if (!halvable(job)) {
        a = with(with(on(HALVE_ROW, job, PELSHAQU_CANNOT_HALVE), quickly), answer(quick, PELSHAQU_HALVE_ROW_ANSWERS));
        a.lists[1].shorter = a.lists[3].shorter = PELSHAQU_CANNOT_HALVE;
        every(a);
    }
}

/* Jobs A, C, D, E, N and S of the document, as the examples list them, with their quick plans, worked by hand. */
static void jobs(void) {
    static const struct job marked[] = {
        {false, 0, 2, 3, {1, 3}, {1, 3, 8}, {0, 1, 3}, {11, 3}, {0, 2, 3}, {4, 1}, {0, 0}, 223, {0, 2, 2, 2, 2}, {0, 3, 4, 8, 2},
         "tiles 3 machines 2 total 12\n1 2 3 11 3 223 0 1 3\n2 2 4 11 3 223 0 1 3\n3 2 8 11 3 223 0 1 3\n4 2 2 11 3 223 0 1 3\n"},
        {false, PELSHAQU_MAX_STARTUP + 1, 2, 0, {7, 2}, {0}, {0, 0, 0}, {0, 7}, {0, 0, 0}, {0, 7}, {0, 0}, 0, {0, 0, 1, 1, 0}, {0, 0, 1, 1, 0},
         "tiles 0 machines 2 total 0\n1 0 0 0 7 0 0 0 0\n2 1 1 0 7 0 0 0 0\n3 1 1 0 7 0 0 0 0\n4 0 0 0 7 0 0 0 0\n"},
        {false, UINT32_MAX, 2, 2, {1, 1}, {0, 0}, {0, 2, 2}, {0, 1}, {0, 0, 2}, {0, 1}, {0, 0}, 0, {0, 0, 1, 1, 2}, {0, 2, 3, 1, 2},
         "tiles 2 machines 2 total 0\n1 0 2 0 1 0 0 2 2\n2 1 3 0 1 0 0 2 2\n3 1 1 0 1 0 0 2 2\n4 2 2 0 1 0 0 2 2\n"},
        {false, 0, 2, 1, {1, 1}, {6}, {0, 1, 1}, {6, 1}, {0, 0, 1}, {6, 1}, {0, 0}, 1000, {0, 1, 2, 1, 1}, {0, 1, 2, 4, 1},
         "tiles 1 machines 2 total 6\n1 1 1 6 1 1000 0 1 1\n2 2 2 6 1 1000 0 1 1\n3 1 4 6 1 1000 0 1 1\n4 1 1 6 1 1000 0 1 1\n"},
        {true, 3, 2, 3, {1, 4}, {1, 4, 4}, {0, 0, 3}, {12, 4}, {0, 1, 3}, {4, 1}, {0, 0}, 667, {0, 1, 2, 2, 2}, {0, 3, 4, 8, 2},
         "tiles 3 machines 2 total 9\n1 1 3 12 4 667 0 0 3\n2 2 4 12 4 667 0 0 3\n3 2 8 12 4 667 0 0 3\n4 2 2 12 4 667 0 0 3\n"},
        {false, 0, 2, 3, {1, 3}, {1, 3, 8}, {0, 2, 3}, {4, 1}, {0}, {0}, {0, 1}, 334, {0, 2, 2, 2}, {0, 3, 4, 8},
         "tiles 3 machines 2 total 12\n1 2 3 4 1 334 0 2 3\n2 2 4 4 1 334 0 2 3\n3 2 8 4 1 334 0 2 3\n"},
    };
    for (size_t k = 0; k < sizeof marked / sizeof *marked; k++) job_calls(&marked[k]);

    /* A trial of A that fails, with its next bid; the division 0 2 2, which leaves a tile over; and the plan 0 2 3 of A, which is valid. */
    static const uint32_t reached[] = {0, 1, 2}, over[] = {0, 2, 2}, other[] = {0, 2, 3};
    static const uint64_t bid[] = {PELSHAQU_FAILS, 11, 3}, valid[] = {PELSHAQU_VALID}, nothing[PELSHAQU_MAX_ANSWERS];
    struct asked a = with(on(TRIAL, marked, 0), filled(reached, 4, 3, 3));
    a.load = 3, a.speed = 1;
    every(with(a, answer(bid, PELSHAQU_TRIAL_ANSWERS)));
    struct list division = lent(over, 4, 3, PELSHAQU_TOO_SHORT, 0);
    every(with(with(on(MEASURE, marked, PELSHAQU_NO_DIVISION), division), answer(nothing, 0)));
    every(with(with(with(on(WRITE_PLAN, marked, PELSHAQU_NO_DIVISION), division), filled(NULL, 1, 2 * SHARE, 0)), answer(nothing, 0)));
    uint8_t plan[2 * SHARE];
    struct list whole = lent(plan, 1, plan_file(marked, other, plan), PELSHAQU_BAD_PLAN_LENGTH, PELSHAQU_BAD_PLAN_LENGTH);
    every(with(with(on(GRADE, marked, 0), whole), answer(valid, PELSHAQU_GRADE_ANSWERS)));

    /* Holds of one tile each for three tiles, which no division keeps; methods that there are not. */
    struct job few = marked[0];
    few.holds[0] = few.holds[1] = 1;
    struct list separators = filled(NULL, 4, 3, 0), work = filled(NULL, 4, PELSHAQU_WORK(3), 0);
    a = with(on(TRIAL, &few, PELSHAQU_TOO_FEW_PLACES), separators);
    every(with(a, answer(nothing, 0)));
    for (uint32_t method = PELSHAQU_TABLE; method <= PELSHAQU_NICOL; method++) {
        a = with(with(on(PLAN, &few, PELSHAQU_TOO_FEW_PLACES), separators), work);
        a.method = method;
        every(with(a, answer(nothing, 0)));
    }
    static const uint32_t unknown[] = {0, PELSHAQU_NICOL + 1, UINT32_MAX};
    for (size_t k = 0; k < sizeof unknown / sizeof *unknown; k++) {
        a = with(with(on(PLAN, &few, PELSHAQU_BAD_METHOD), separators), work);
        a.method = unknown[k];
        a.lists[1].shorter = a.lists[3].shorter = a.lists[4].shorter = PELSHAQU_BAD_METHOD;
        every(with(a, answer(nothing, 0)));
    }
}

/* Rows that can be halved: the jobs F to L of the document. */
static void halved(void) {
    static const struct {
        size_t machines, tiles;
        uint32_t speed, weights[8], separators[5];
        uint64_t bottleneck[2];
    } rows[] = {
        {1, 5, 7, {4, 3, 2, 6, 1}, {0, 5}, {16, 7}},
        {2, 3, 1, {1, 2, 1}, {0, 1, 3}, {3, 1}},
        {2, 4, 1, {2, 0, 0, 2}, {0, 1, 4}, {2, 1}},
        {4, 8, 3, {5, 1, 1, 1, 4, 2, 2, 2}, {0, 1, 4, 5, 8}, {6, 3}},
        {4, 5, 1, {1, 3, 1, 2, 3}, {0, 1, 3, 4, 5}, {4, 1}},
        {2, 0, 3, {0}, {0, 0, 0}, {0, 3}},
        {4, 1, 1, {6}, {0, 0, 0, 0, 1}, {6, 1}},
    };
    for (size_t k = 0; k < sizeof rows / sizeof *rows; k++) {
        struct job job = {.machines = rows[k].machines, .tiles = rows[k].tiles};
        for (size_t p = 0; p < job.machines; p++) job.speeds[p] = rows[k].speed;
        memcpy(job.weights, rows[k].weights, sizeof job.weights);
        size_t P = job.machines;
        struct list separators = filled(rows[k].separators, 4, P + 1, P + 1), figures = answer(rows[k].bottleneck, PELSHAQU_HALVE_ROW_ANSWERS);
        every(with(with(on(HALVE_ROW, &job, 0), separators), figures));
        job.holds[P - 1] = 1;
        every(with(with(on(HALVE_ROW, &job, PELSHAQU_NOT_WITH_HOLDS), separators), figures));
    }
}

/* Every call with nothing but null pointers, and with lists of one entry that is out of range. */
static void empty(void) {
    static const size_t given[LISTS];
    for (int call = TEST_JOB; call <= GRADE; call++) {
        struct asked a = {.call = (enum call)call, .method = PELSHAQU_TABLE, .speed = 1, .number = PELSHAQU_BAD_ROW};
        a.count = call == TEST_JOB ? 3 : call == LIST_JOB ? 3 : call == PLAN || call == WRITE_PLAN ? 6 : 5;
        for (size_t k = 0; k < a.count; k++) a.lists[k].width = 1;
        if (call == LIST_JOB) a.number = PELSHAQU_TOO_SHORT;
        both(&a, given);
        if (call == LIST_JOB || call == READ_JOB) continue;
        a.second = true, a.startup = PELSHAQU_MAX_STARTUP + 1;
        a.number = PELSHAQU_BAD_STARTUP;
        both(&a, given);
        a.second = false;
        static const uint32_t values[][3] = {{PELSHAQU_BAD_SPEED, 0, 0}, {PELSHAQU_BAD_SPEED, PELSHAQU_MAX_SPEED + 1, 0},
            {PELSHAQU_BAD_WEIGHT, 1, PELSHAQU_MAX_WEIGHT + 1}, {PELSHAQU_TOO_SHORT, 1, 0}};
        for (size_t k = 0; k < sizeof values / sizeof *values; k++) {
            static const size_t one[LISTS] = {1, 0, 1};
            a.lists[0] = lent(&values[k][1], 4, 1, LEFT, LEFT);
            a.lists[2] = lent(&values[k][2], 4, 1, LEFT, LEFT);
            a.number = values[k][0];
            both(&a, one);
        }
    }
}

int main(void) {
    jobs();
    halved();
    empty();
    printf("tests/guard/lists: %lu calls, all as they must be\n", calls);
    return 0;
}
