/* A host in C that trusts nothing: every buffer stands against guard bytes, or alone on the heap, so that a checker of memory sees
 * every byte too many that is read or written. Prints a line and gives 0 if all is well. */
#include <stdio.h>
#include <stdlib.h>
#include <string.h>

#include "../../include/pelshaqu.h"

#define GUARD 64
/* The most tiles of a job, of machines the header has the most; and the greatest start-up work. */
#define TILES PELSHAQU_MAX_TILES
#define STARTUP 1000000
/* Room for a machine and a tile more than a job of the second edition may have. */
#define LARGEST (8 * (1 + PELSHAQU_MAX_MACHINES + TILES + 2))
/* The start-up work of a job of the first edition. */
#define FIRST UINT32_MAX

static unsigned long calls;

static void fail(const char *what, uint32_t method, size_t job_len, size_t plan_len) {
    printf("tests/guard: FAILED: %s, method %u, job of %zu bytes, plan of %zu bytes\n", what, method, job_len, plan_len);
    exit(1);
}

static size_t put(uint8_t *at, uint8_t kind, uint32_t value) {
    memset(at, 0, 8);
    at[0] = kind;
    for (int i = 0; i < 4; i++) at[4 + i] = (uint8_t)(value >> (8 * i));
    return 8;
}

/* A machine with a hold. */
static size_t put_machine(uint8_t *at, uint32_t speed, uint32_t hold) {
    size_t n = put(at, 1, speed);
    at[2] = (uint8_t)hold;
    at[3] = (uint8_t)(hold >> 8);
    return n;
}

static uint8_t pattern(size_t i) {
    return (uint8_t)(167 * i + 91);
}

/* What a call must give: a number, and the plan's bytes where it is 0. */
struct wanted {
    uint32_t number;
    const uint8_t *plan;
    size_t plan_len;
};

/* The call inside two buffers with guard bytes on both sides. */
static void guarded(const uint8_t *job, size_t job_len, uint32_t method, size_t plan_len, struct wanted wanted) {
    static uint8_t jobs[LARGEST + 2 * GUARD], plans[LARGEST + 2 * GUARD];
    size_t job_all = job_len + 2 * GUARD, plan_all = plan_len + 2 * GUARD;
    for (size_t i = 0; i < job_all; i++) jobs[i] = pattern(i);
    for (size_t i = 0; i < plan_all; i++) plans[i] = pattern(i);
    if (job_len) memcpy(jobs + GUARD, job, job_len);
    calls++;
    uint32_t number = plan_job(jobs + GUARD, job_len, method, plans + GUARD, plan_len);
    if (number != wanted.number) fail("wrong number", method, job_len, plan_len);
    size_t filled = number == 0 ? wanted.plan_len : 0;
    for (size_t i = 0; i < plan_all; i++) {
        int inside = i >= GUARD && i - GUARD < filled;
        uint8_t must = inside ? wanted.plan[i - GUARD] : pattern(i);
        if (plans[i] != must) fail(inside ? "wrong plan" : "a byte that must stay was changed", method, job_len, plan_len);
    }
    for (size_t i = 0; i < job_all; i++) {
        int inside = i >= GUARD && i - GUARD < job_len;
        if (jobs[i] != (inside ? job[i - GUARD] : pattern(i))) fail("the job or its guard was changed", method, job_len, plan_len);
    }
}

/* The call on two buffers of exactly the lengths said, null where a length is 0. */
static void alone(const uint8_t *job, size_t job_len, uint32_t method, size_t plan_len, struct wanted wanted) {
    uint8_t *own = job_len ? malloc(job_len) : NULL;
    uint8_t *plan = plan_len ? malloc(plan_len) : NULL;
    if ((job_len && !own) || (plan_len && !plan)) fail("no memory", method, job_len, plan_len);
    if (job_len) memcpy(own, job, job_len);
    calls++;
    uint32_t number = plan_job(own, job_len, method, plan, plan_len);
    if (number != wanted.number) fail("wrong number, buffers alone", method, job_len, plan_len);
    if (number == 0 && memcmp(plan, wanted.plan, wanted.plan_len) != 0) fail("wrong plan, buffers alone", method, job_len, plan_len);
    free(own);
    free(plan);
}

static void both(const uint8_t *job, size_t job_len, uint32_t method, size_t plan_len, struct wanted wanted) {
    if (job_len > LARGEST || plan_len > LARGEST) fail("no room in the test itself", method, job_len, plan_len);
    guarded(job, job_len, method, plan_len, wanted);
    alone(job, job_len, method, plan_len, wanted);
}

static void fail_grade(const char *what, size_t job_len, size_t plan_len, size_t grade_len) {
    printf("tests/guard: FAILED: grading: %s, job of %zu bytes, plan of %zu bytes, grade buffer of %zu\n", what, job_len, plan_len, grade_len);
    exit(1);
}

/* Lends bytes between guard bytes. */
static uint8_t *lend(uint8_t *all, const uint8_t *bytes, size_t len) {
    for (size_t i = 0; i < len + 2 * GUARD; i++) all[i] = pattern(i);
    if (bytes && len) memcpy(all + GUARD, bytes, len);
    return all + GUARD;
}

/* Whether what was lent is as it was, but for a first byte that may have become another. */
static int stays(const uint8_t *all, const uint8_t *bytes, size_t len, int first) {
    for (size_t i = 0; i < len + 2 * GUARD; i++) {
        int inside = bytes && i >= GUARD && i - GUARD < len;
        uint8_t must = inside ? bytes[i - GUARD] : pattern(i);
        if (i == GUARD && first >= 0) must = (uint8_t)first;
        if (all[i] != must) return 0;
    }
    return 1;
}

/* Grading with guard bytes around all three buffers; on buffers of exactly the lengths said, null where a length is 0. The number is
 * known, and the grade where the number is 0. */
static void graded(const uint8_t *job, size_t job_len, const uint8_t *plan, size_t plan_len, size_t grade_len, uint32_t number, int grade) {
    static uint8_t jobs[LARGEST + 2 * GUARD], plans[LARGEST + 2 * GUARD], grades[LARGEST + 2 * GUARD];
    uint8_t *lent_job = lend(jobs, job, job_len), *lent_plan = lend(plans, plan, plan_len), *lent_grade = lend(grades, NULL, grade_len);
    calls++;
    uint32_t said = grade_plan(lent_job, job_len, lent_plan, plan_len, lent_grade, grade_len);
    if (said != number) fail_grade("wrong number", job_len, plan_len, grade_len);
    if (!stays(jobs, job, job_len, -1)) fail_grade("the job or its guard was changed", job_len, plan_len, grade_len);
    if (!stays(plans, plan, plan_len, -1)) fail_grade("the plan or its guard was changed", job_len, plan_len, grade_len);
    if (!stays(grades, NULL, grade_len, number == 0 ? grade : -1)) {
        fail_grade("wrong grade, or a byte that must stay was changed", job_len, plan_len, grade_len);
    }

    uint8_t *own_job = job_len ? malloc(job_len) : NULL, *own_plan = plan_len ? malloc(plan_len) : NULL;
    uint8_t *own_grade = grade_len ? malloc(grade_len) : NULL;
    if ((job_len && !own_job) || (plan_len && !own_plan) || (grade_len && !own_grade)) {
        fail_grade("no memory", job_len, plan_len, grade_len);
    }
    if (job_len) memcpy(own_job, job, job_len);
    if (plan_len) memcpy(own_plan, plan, plan_len);
    calls++;
    said = grade_plan(own_job, job_len, own_plan, plan_len, own_grade, grade_len);
    if (said != number) fail_grade("wrong number, buffers alone", job_len, plan_len, grade_len);
    if (said == 0 && own_grade[0] != grade) fail_grade("wrong grade, buffers alone", job_len, plan_len, grade_len);
    free(own_job);
    free(own_plan);
    free(own_grade);
}

/* A true plan, or one that is true but for a hold that it breaks, whose grade is said to be BROKEN: with every length of the plan and of the
 * grade buffer, and with each field a little off. */
#define BROKEN 0

static void graded_all(const uint8_t *job, size_t job_len, const uint8_t *plan, size_t plan_len, int grade) {
    uint8_t other[128] = {0};
    memcpy(other, plan, plan_len);
    for (size_t len = 0; len <= plan_len + 17; len++) {
        for (size_t room = 0; room <= 3; room++) {
            graded(job, job_len, other, len, room, room == 0 ? 9 : len != plan_len ? 12 : grade == BROKEN ? 11 : 0, grade);
        }
    }
    for (size_t at = 0; at < plan_len; at++) {
        uint32_t number = at % 16 < 8 || grade == BROKEN ? 11 : 13;
        for (int bit = 0; bit < 8; bit += 7) {
            other[at] ^= (uint8_t)(1 << bit);
            graded(job, job_len, other, plan_len, 1, number, 0);
            graded(job, job_len, other, plan_len, 0, 9, 0);
            graded(job, job_len, other, plan_len - 1, 1, 12, 0);
            other[at] = plan[at];
        }
    }
}

/* How a job stands to its holds: it has none; it has some; they are all limited and add up to less than the tiles. */
enum holds { FREE, HELD, SHORT };

/* What planning a good file gives, of a method of 1 to 4 and with room for the plan. */
static uint32_t by_holds(enum holds holds, uint32_t method) {
    return holds == SHORT ? 17 : holds == HELD && method == 4 ? 18 : 0;
}

/* A job by each method, with a plan buffer of every length from 0 to a record more than it needs. */
static void every_length(const uint8_t *job, size_t job_len, enum holds holds, const uint8_t *plan, size_t needed) {
    for (uint32_t method = 0; method <= 5; method++) {
        for (size_t len = 0; len <= needed + 17; len++) {
            struct wanted wanted = {method < 1 || method > 4 ? 1 : len < needed ? 9 : by_holds(holds, method), plan, needed};
            both(job, job_len, method, len, wanted);
        }
    }
}

static size_t field(uint8_t *at, uint32_t value) {
    for (int i = 0; i < 4; i++) at[i] = (uint8_t)(value >> (8 * i));
    return 4;
}

/* A record of a plan file. */
static size_t part(uint8_t *at, uint32_t from, uint32_t to, uint32_t load, uint32_t speed) {
    return field(at, from) + field(at + 4, to) + field(at + 8, load) + field(at + 12, speed);
}

/* The load of tiles from + 1 to to with this start-up work. */
static uint32_t load_of(const uint32_t *weights, uint32_t from, uint32_t to, uint32_t startup) {
    uint32_t load = from < to ? startup : 0;
    for (uint32_t i = from; i < to; i++) load += weights[i];
    return load;
}

/* Jobs A to E of the document, with their plans, and of the divisions 0 s N for s = 0 to N which are best (1) and which valid (2); then
 * jobs of the second edition, worked by hand: A without start-up work, with some and with more, which one machine does alone; tiles of
 * weight 0; a tile that either machine can have; no tiles; the most start-up work. Then jobs with holds, of which some separators break one
 * (BROKEN): S, U, V, X and Y of the document; tiles of weight 0; holds that add up to just enough and to just too little, in both editions. */
static void marked_jobs(void) {
    static const struct {
        uint32_t startup, tiles, speeds[2], holds[2], weights[5], separators[3];
        int grades[6];
    } jobs[] = {
        {FIRST, 3, {1, 3}, {0, 0}, {1, 3, 8}, {0, 1, 3}, {2, 1, 2, 2}},
        {FIRST, 5, {1, 2}, {0, 0}, {4, 3, 2, 6, 1}, {0, 1, 5}, {2, 1, 2, 2, 2, 2}},
        {FIRST, 0, {7, 2}, {0, 0}, {0}, {0, 0, 0}, {1}},
        {FIRST, 2, {1, 1}, {0, 0}, {0, 0}, {0, 2, 2}, {1, 1, 1}},
        {FIRST, 1, {1, 1}, {0, 0}, {6}, {0, 1, 1}, {1, 1}},
        {0, 3, {1, 3}, {0, 0}, {1, 3, 8}, {0, 1, 3}, {2, 1, 2, 2}},
        {2, 3, {1, 3}, {0, 0}, {1, 3, 8}, {0, 1, 3}, {2, 1, 2, 2}},
        {5, 3, {1, 3}, {0, 0}, {1, 3, 8}, {0, 0, 3}, {1, 2, 2, 2}},
        {3, 3, {1, 4}, {0, 0}, {1, 4, 4}, {0, 0, 3}, {1, 2, 2, 2}},
        {3, 2, {2, 1}, {0, 0}, {0, 0}, {0, 2, 2}, {2, 2, 1}},
        {2, 1, {1, 1}, {0, 0}, {5}, {0, 1, 1}, {1, 1}},
        {9, 0, {7, 2}, {0, 0}, {0}, {0, 0, 0}, {1}},
        {STARTUP, 2, {1, 1}, {0, 0}, {1000000, 0}, {0, 2, 2}, {1, 1, 1}},
        {FIRST, 3, {1, 3}, {0, 1}, {1, 3, 8}, {0, 2, 3}, {BROKEN, BROKEN, 1, 2}},
        {FIRST, 3, {3, 1}, {1, 2}, {2, 9, 4}, {0, 1, 3}, {BROKEN, 1, BROKEN, BROKEN}},
        {FIRST, 3, {3, 1}, {1, 1}, {2, 9, 4}, {0, 1, 3}, {BROKEN, BROKEN, BROKEN, BROKEN}},
        {FIRST, 3, {3, 1}, {1, 0}, {2, 9, 4}, {0, 1, 3}, {2, 1, BROKEN, BROKEN}},
        {3, 3, {1, 4}, {0, 2}, {1, 4, 4}, {0, 1, 3}, {BROKEN, 1, 2, 2}},
        {3, 3, {1, 4}, {2, 1}, {1, 4, 4}, {0, 2, 3}, {BROKEN, BROKEN, 1, BROKEN}},
        {3, 3, {1, 4}, {1, 1}, {1, 4, 4}, {0, 1, 3}, {BROKEN, BROKEN, BROKEN, BROKEN}},
        {FIRST, 3, {1, 3}, {3, 3}, {1, 3, 8}, {0, 1, 3}, {2, 1, 2, 2}},
        {FIRST, 3, {1, 3}, {PELSHAQU_MAX_HOLD, 256}, {1, 3, 8}, {0, 1, 3}, {2, 1, 2, 2}},
        {FIRST, 0, {7, 2}, {1, 1}, {0}, {0, 0, 0}, {1}},
        {FIRST, 3, {1, 1}, {2, 0}, {0, 0, 0}, {0, 2, 3}, {1, 1, 1, BROKEN}},
        {5, 3, {1, 1}, {2, 2}, {0, 0, 0}, {0, 2, 3}, {BROKEN, 1, 1, BROKEN}},
        {STARTUP, 2, {1, 1}, {1, 1}, {1000000, 0}, {0, 1, 2}, {BROKEN, 1, BROKEN}},
    };
    for (size_t k = 0; k < sizeof jobs / sizeof *jobs; k++) {
        uint8_t job[64], plan[32];
        uint32_t second = jobs[k].startup != FIRST, startup = second ? jobs[k].startup : 0, tiles = jobs[k].tiles;
        size_t n = second ? put(job, 3, startup) : 0, m = 0;
        const uint32_t *limit = jobs[k].holds;
        enum holds holds = !limit[0] && !limit[1] ? FREE : limit[0] && limit[1] && limit[0] + limit[1] < tiles ? SHORT : HELD;
        for (uint32_t p = 0; p < 2; p++) n += put_machine(job + n, jobs[k].speeds[p], limit[p]);
        for (uint32_t i = 0; i < tiles; i++) n += put(job + n, 2, jobs[k].weights[i]);
        for (uint32_t p = 0; p < 2; p++) {
            uint32_t from = jobs[k].separators[p], to = jobs[k].separators[p + 1];
            m += part(plan + m, from, to, load_of(jobs[k].weights, from, to, startup), jobs[k].speeds[p]);
        }
        every_length(job, n, holds, plan, m);
        for (uint32_t s = 0; s <= tiles; s++) {
            part(plan, 0, s, load_of(jobs[k].weights, 0, s, startup), jobs[k].speeds[0]);
            part(plan + 16, s, tiles, load_of(jobs[k].weights, s, tiles, startup), jobs[k].speeds[1]);
            graded_all(job, n, plan, m, jobs[k].grades[s]);
        }
    }
}

/* A job that is refused, whatever the method, the buffers and the plan beside it. */
static void refused(const uint8_t *job, size_t job_len, uint32_t number) {
    for (uint32_t method = 1; method <= 4; method++) {
        for (size_t len = 0; len <= 48; len++) both(job, job_len, method, len, (struct wanted){number, NULL, 0});
    }
    for (uint32_t method = 0; method <= 5; method += 5) both(job, job_len, method, 16, (struct wanted){1, NULL, 0});
    both(job, job_len, UINT32_MAX, 0, (struct wanted){1, NULL, 0});
    uint8_t plan[48] = {0};
    part(plan, 0, 0, 0, 1);
    for (size_t len = 0; len <= 48; len += len < 15 ? 5 : 1) {
        for (size_t room = 0; room <= 2; room++) graded(job, job_len, plan, len, room, number, 0);
    }
}

/* The smallest file for each number, cut files, and no file. */
static void refusals(void) {
    static uint8_t file[LARGEST];
    size_t n = put(file, 1, 1);
    for (size_t len = 1; len < 8; len++) refused(file, len, 2);
    refused(NULL, 0, 7);
    put(file, 4, 1);
    refused(file, 8, 3);
    for (int place = 1; place < 4; place++) {
        /* Bytes 2 and 3 of a machine are its hold. */
        for (uint8_t kind = place == 1 ? 1 : 2; kind <= 3; kind++) {
            put(file, kind, 1);
            file[place] = 1;
            refused(file, 8, 3);
        }
    }
    put(file, 3, STARTUP);
    refused(file, 8, 7);
    for (uint8_t kind = 1; kind <= 3; kind++) {
        put(file, kind, 1);
        put(file + 8, 3, STARTUP + 1);
        refused(file, 16, 15);
    }
    put(file, 3, STARTUP + 1);
    put(file + 8, 1, 0);
    refused(file, 8, 16);
    refused(file, 16, 16);
    put(file, 2, 0);
    refused(file, 8, 7);
    put(file + 8, 1, 1);
    refused(file, 16, 4);
    put(file, 1, 0);
    refused(file, 8, 5);
    put(file, 1, 10001);
    refused(file, 8, 5);
    put(file, 1, 1);
    put(file + 8, 2, 1000001);
    refused(file, 16, 6);
    for (n = put(file, 1, 1); n < 8 * (1 + TILES + 1);) n += put(file + n, 2, 0);
    refused(file, n, 8);
    n = put(file, 3, 1);
    for (n += put(file + n, 1, 1); n < 8 * (2 + TILES + 1);) n += put(file + n, 2, 0);
    refused(file, n, 8);
}

/* What is tested behind the plan buffer, 17, and what is tested before it, each with a hold of one tile and two tiles or more. */
static void holds_behind(void) {
    static uint8_t file[LARGEST];
    uint8_t plan[32];
    size_t n = put_machine(file, 1, 1);
    n += put(file + n, 2, 0);
    part(plan, 0, 1, 0, 1);
    every_length(file, n, HELD, plan, 16);
    graded_all(file, n, plan, 16, 1);
    n += put(file + n, 2, 0);
    part(plan, 0, 2, 0, 1);
    every_length(file, n, SHORT, plan, 16);
    graded_all(file, n, plan, 16, BROKEN);
    put_machine(file, 1, 2);
    every_length(file, n, HELD, plan, 16);
    graded_all(file, n, plan, 16, 1);
    /* 256 is no hold of 0 or of 1 tile, and 255 is none of all that there are. */
    put_machine(file, 1, 256);
    every_length(file, n, HELD, plan, 16);
    for (n = put_machine(file, 1, 256); n < 8 * (1 + 256);) n += put(file + n, 2, 0);
    part(plan, 0, 256, 0, 1);
    every_length(file, n, HELD, plan, 16);
    graded_all(file, n, plan, 16, 1);
    /* The lower byte of 257 is that of 1. */
    put_machine(file, 1, 257);
    every_length(file, n, HELD, plan, 16);
    graded_all(file, n, plan, 16, 1);
    put_machine(file, 1, 255);
    every_length(file, n, SHORT, plan, 16);
    graded_all(file, n, plan, 16, BROKEN);
    put_machine(file, 0, 1);
    refused(file, n, 5);
    put_machine(file, 1, 1);
    put(file + n - 8, 2, 1000001);
    refused(file, n, 6);
    put(file + n - 8, 1, 1);
    refused(file, n, 4);
    put(file + n - 8, 3, 1);
    refused(file, n, 15);
    put(file + n - 8, 4, 1);
    refused(file, n, 3);
    refused(file, n - 1, 2);
    for (n = put_machine(file, 1, 1); n < 8 * (1 + TILES + 1);) n += put(file + n, 2, 0);
    refused(file, n, 8);
}

/* Writes machines, then tiles, behind the start-up work if there is any, and gives the bytes. */
static size_t fill(uint8_t *job, uint32_t startup, uint32_t hold, size_t machines, size_t tiles) {
    size_t n = startup == FIRST ? 0 : put(job, 3, startup);
    for (size_t p = 0; p < machines; p++) n += put_machine(job + n, 1, hold);
    for (size_t i = 0; i < tiles; i++) n += put(job + n, 2, 0);
    return n;
}

/* Rows of the most machines and longer ones, by plan buffers and plans that would do for them. */
static void rows(uint32_t startup, uint32_t hold) {
    const size_t most = PELSHAQU_MAX_MACHINES, longer[] = {most + 1, most + 2, 2 * most - 1, 2 * most, 3 * most + 1};
    static uint8_t job[LARGEST], plan[LARGEST];
    size_t n, m = 0;
    for (size_t p = 0; p < LARGEST / 16; p++) m += part(plan + m, 0, 0, 0, 1);
    for (size_t row = PELSHAQU_MAX_MACHINES - 1; row <= PELSHAQU_MAX_MACHINES; row++) {
        n = fill(job, startup, hold, row, 0);
        for (uint32_t method = 1; method <= 4; method++) {
            for (size_t len = 16 * row - 1; len <= 16 * row + 1; len++) {
                both(job, n, method, len, (struct wanted){len < 16 * row ? 9 : by_holds(hold ? HELD : FREE, method), plan, 16 * row});
            }
        }
        graded(job, n, plan, 16 * row, 1, 0, 1);
        graded(job, n, plan, 16 * row + 16, 1, 12, 0);
        put(job + n - 8, 1, 0);
        refused(job, n, 5);
    }
    for (size_t k = 0; k < sizeof longer / sizeof *longer; k++) {
        n = fill(job, startup, hold, longer[k], 1);
        refused(job, n - 8, 7);
        for (uint32_t method = 1; method <= 4; method++) {
            for (size_t len = 16 * longer[k] - 1; len <= 16 * longer[k] + 1; len++) both(job, n, method, len, (struct wanted){7, NULL, 0});
        }
        graded(job, n - 8, plan, 16 * longer[k], 1, 7, 0);
        graded(job, n - 8, plan, PELSHAQU_MAX_PLAN, 1, 7, 0);
        put(job + n - 8, 2, 1000001);
        refused(job, n, 6);
        put(job + n - 16, 1, 10001);
        refused(job, n, 5);
    }
    n = fill(job, startup, hold, PELSHAQU_MAX_MACHINES + 1, TILES + 1);
    refused(job, n, 7);
    n = fill(job, startup, hold, PELSHAQU_MAX_MACHINES, TILES + 1);
    refused(job, n, 8);
}

/* A record of a plan of equal tiles on equal machines, and the start-up work of such a plan. */
static uint32_t equal_startup;

static size_t equal_part(uint8_t *at, uint32_t from, uint32_t to) {
    return part(at, from, to, (from < to ? equal_startup : 0) + 1000000 * (to - from), 10000);
}

/* The longest job: equal tiles and machines. Some machine has to take as many tiles as this share; the plan gives it to each machine
 * as long as there are tiles, and an even division is as good. With holds each machine holds the share, so that both keep them; with one
 * tile less they add up to too little. */
static void longest(uint32_t startup, enum holds holds) {
    static uint8_t job[LARGEST], plan[PELSHAQU_MAX_PLAN];
    const uint32_t machines = PELSHAQU_MAX_MACHINES, share = (TILES + machines - 1) / machines;
    const uint32_t hold = holds == FREE ? 0 : holds == HELD ? share : share - 1;
    size_t n = startup == FIRST ? 0 : put(job, 3, startup), m = 0;
    equal_startup = startup == FIRST ? 0 : startup;
    for (uint32_t p = 0; p < machines; p++) n += put_machine(job + n, 10000, hold);
    for (int i = 0; i < TILES; i++) n += put(job + n, 2, 1000000);
    for (uint32_t p = 0; p < machines; p++) {
        uint32_t from = share * p, to = from + share;
        m += equal_part(plan + m, from < TILES ? from : TILES, to < TILES ? to : TILES);
    }
    for (uint32_t method = 1; method <= 4; method++) {
        for (size_t len = m - 2; len <= m + 2; len++) both(job, n, method, len, (struct wanted){len < m ? 9 : by_holds(holds, method), plan, m});
    }
    static uint8_t longer[PELSHAQU_MAX_PLAN + 32];
    memcpy(longer, plan, m);
    const uint32_t kept = holds == SHORT ? 11 : 0, one = holds == FREE ? 0 : 11;
    for (size_t len = m - 17; len <= m + 17; len++) graded(job, n, longer, len, 1, len == m ? kept : 12, 1);
    graded(job, n, plan, m, 0, 9, 0);
    /* All on the first machine, and on the last. */
    for (uint32_t p = 0; p < machines; p++) equal_part(longer + 16 * p, p ? TILES : 0, TILES);
    graded(job, n, longer, m, 2, one, 2);
    for (uint32_t p = 0; p < machines; p++) equal_part(longer + 16 * p, 0, p + 1 < machines ? 0 : TILES);
    graded(job, n, longer, m, 2, one, 2);
    /* An even division; a load one off in its last record, and a gap before it. */
    uint32_t last = 0;
    for (uint32_t p = 0; p < machines; p++) {
        last = TILES * p / machines;
        equal_part(longer + 16 * p, last, TILES * (p + 1) / machines);
    }
    graded(job, n, longer, m, 1, kept, 1);
    part(longer + m - 16, last, TILES, equal_startup + 1000000 * (TILES - last) + 1, 10000);
    graded(job, n, longer, m, 1, kept ? kept : 13, 0);
    equal_part(longer + m - 16, last + 1, TILES);
    graded(job, n, longer, m, 1, 11, 0);
}

int main(void) {
    static const uint32_t startups[] = {FIRST, 0, STARTUP};
    marked_jobs();
    refusals();
    holds_behind();
    for (size_t k = 0; k < sizeof startups / sizeof *startups; k++) {
        rows(startups[k], 0);
        rows(startups[k], k == 1 ? 1 : PELSHAQU_MAX_HOLD);
        for (enum holds holds = FREE; holds <= SHORT; holds++) longest(startups[k], holds);
    }
    printf("tests/guard: %lu calls, all as they must be\n", calls);
    return 0;
}
