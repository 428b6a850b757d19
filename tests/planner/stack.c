/* How many bytes of stack the two calls take: on jobs of the largest size and smaller ones, of both editions, with holds and without, by all
 * four methods, and on files that are refused. Each call is made in a thread of its own, whose stack is an area filled with a pattern before; the lowest byte that has
 * changed says how deep the call went. An empty call of the same kind, made in the same way, is taken off, so the figure is what lies
 * below the return address of the call: the frames of all functions in it, memset's too. Two patterns, since a byte may be written with
 * the value that it had. The figures are the greatest of all calls. Prints one line and gives 0 if every call gave the number that it must.
 *
 * Not counted is what the dynamic linker takes where it binds memset at its first use: here that is done before. Linked with
 * -Wl,-z,lazy and run with LD_BIND_NOT=1, by which every use is a first one, both figures are 2,752 bytes greater on an Intel Xeon with
 * AVX-512, whose registers the linker saves meanwhile. */
#define _DEFAULT_SOURCE
#include <pthread.h>
#include <stdio.h>
#include <stdlib.h>
#include <string.h>
#include <sys/mman.h>

#include "../../include/pelshaqu.h"

#define MACHINES PELSHAQU_MAX_MACHINES
#define TILES PELSHAQU_MAX_TILES
#define STARTUP 1000000
/* The start-up work of a job of the first edition. */
#define FIRST UINT32_MAX
#define RECORDS (1 + MACHINES + TILES + 2)
#define AREA (512 * 1024)
/* What the thread did before the call lies within so many bytes above it. */
#define APART (16 * 1024)

typedef uint32_t planning(const uint8_t *job, size_t job_len, uint32_t method, uint8_t *plan, size_t plan_len);
typedef uint32_t grading(const uint8_t *job, size_t job_len, const uint8_t *plan, size_t plan_len, uint8_t *grade, size_t grade_len);

/* A call, by one of the two functions, and what came of it. */
struct ask {
    planning *planning;
    grading *grading;
    const uint8_t *job;
    size_t job_len;
    uint32_t method;
    uint8_t *plan;
    size_t plan_len;
    uint8_t *grade;
    size_t grade_len;
    uint8_t pattern;
    uint32_t number;
    size_t lowest;
};

static uint8_t *area;
static size_t most_planning, most_grading;
static uint8_t job[8 * RECORDS], plan[16 * (MACHINES + 1)], other[16 * (MACHINES + 1)], grade[1];

static void fail(const char *what, uint32_t number, uint32_t wanted) {
    printf("tests/guard/stack: FAILED: %s, number %u, wanted %u\n", what, number, wanted);
    exit(1);
}

static uint32_t no_planning(const uint8_t *a, size_t b, uint32_t c, uint8_t *d, size_t e) {
    (void)a, (void)b, (void)c, (void)d, (void)e;
    return 0;
}

static uint32_t no_grading(const uint8_t *a, size_t b, const uint8_t *c, size_t d, uint8_t *e, size_t f) {
    (void)a, (void)b, (void)c, (void)d, (void)e, (void)f;
    return 0;
}

/* The thread: the call, and at once the look at the area, in this frame, without a call of its own. */
static void *run(void *given) {
    struct ask *ask = given;
    volatile uint8_t apart[APART];
    apart[ask->pattern] = 0; /* a place that the compiler does not know, so that it keeps the array whole */
    (void)apart[ask->pattern];
    if (ask->planning) {
        ask->number = ask->planning(ask->job, ask->job_len, ask->method, ask->plan, ask->plan_len);
    } else {
        ask->number = ask->grading(ask->job, ask->job_len, ask->plan, ask->plan_len, ask->grade, ask->grade_len);
    }
    const volatile uint8_t *bytes = area;
    size_t i = 0;
    while (i < AREA && bytes[i] == ask->pattern) i++;
    ask->lowest = i;
    return NULL;
}

/* The lowest byte that changed, counted from the area's low end. */
static size_t lowest(struct ask *ask) {
    static const uint8_t patterns[] = {0x5a, 0xc3};
    size_t low = AREA;
    for (size_t k = 0; k < sizeof patterns; k++) {
        pthread_attr_t attributes;
        pthread_t thread;
        ask->pattern = patterns[k];
        memset(area, patterns[k], AREA);
        if (pthread_attr_init(&attributes) || pthread_attr_setstack(&attributes, area, AREA) ||
            pthread_create(&thread, &attributes, run, ask) || pthread_join(thread, NULL)) {
            fail("no thread", 0, 0);
        }
        pthread_attr_destroy(&attributes);
        if (ask->lowest < low) low = ask->lowest;
    }
    if (low == 0) fail("the area is too small", 0, 0);
    return low;
}

/* The bytes that a call takes, below what the empty call takes. */
static size_t taken(struct ask ask, uint32_t wanted, const char *what) {
    struct ask empty = ask;
    if (ask.planning) empty.planning = no_planning;
    if (ask.grading) empty.grading = no_grading;
    size_t top = lowest(&empty), low = lowest(&ask);
    if (AREA - top < APART || low >= top) fail("the empty call went as deep", 0, 0);
    if (ask.number != wanted) fail(what, ask.number, wanted);
    return top - low;
}

static void plans(size_t job_len, uint32_t method, size_t plan_len, uint32_t wanted) {
    struct ask ask = {.planning = plan_job, .job = job, .job_len = job_len, .method = method, .plan = plan, .plan_len = plan_len};
    size_t bytes = taken(ask, wanted, "plan_job");
    if (bytes > most_planning) most_planning = bytes;
}

static void grades(size_t job_len, uint8_t *file, size_t plan_len, size_t grade_len, uint32_t wanted) {
    struct ask ask = {.grading = grade_plan, .job = job, .job_len = job_len, .plan = file, .plan_len = plan_len, .grade = grade, .grade_len = grade_len};
    size_t bytes = taken(ask, wanted, "grade_plan");
    if (bytes > most_grading) most_grading = bytes;
}

static size_t put(size_t record, uint8_t kind, uint32_t value) {
    uint8_t *at = job + 8 * record;
    memset(at, 0, 8);
    at[0] = kind;
    for (int i = 0; i < 4; i++) at[4 + i] = (uint8_t)(value >> (8 * i));
    return record + 1;
}

static uint32_t field(const uint8_t *at) {
    return at[0] | (uint32_t)at[1] << 8 | (uint32_t)at[2] << 16 | (uint32_t)at[3] << 24;
}

static void set(uint8_t *at, uint32_t value) {
    for (int i = 0; i < 4; i++) at[i] = (uint8_t)(value >> (8 * i));
}

/* A speed or weight of a family, from 0 to most. */
static uint32_t drawn(int family, uint32_t i, uint32_t most) {
    static uint32_t x = 1;
    x = 1103515245 * x + 12345;
    switch (family) {
    case 0: return most;
    case 1: return 0;
    case 2: return i % 97 == 96 ? most : 1;
    case 3: return i % 2 ? most : 0;
    default: return (uint32_t)((uint64_t)(x >> 8) * most >> 24);
    }
}

/* Fills the job and gives its records. Each machine has the hold. */
static size_t fill(uint32_t startup, uint32_t hold, uint32_t machines, uint32_t tiles, int speeds, int weights) {
    size_t n = startup == FIRST ? 0 : put(0, 3, startup);
    for (uint32_t p = 0; p < machines; p++) {
        n = put(n, 1, 1 + drawn(speeds, p, 9999));
        job[8 * n - 6] = (uint8_t)hold;
        job[8 * n - 5] = (uint8_t)(hold >> 8);
    }
    for (uint32_t i = 0; i < tiles; i++) n = put(n, 2, drawn(weights, i, 1000000));
    return n;
}

/* All tiles on the first machine: a true plan. */
static void all_on_first(uint32_t startup, uint32_t machines, uint32_t tiles) {
    const uint8_t *row = job + (startup == FIRST ? 0 : 8);
    uint32_t load = startup == FIRST || tiles == 0 ? 0 : startup;
    for (uint32_t i = 0; i < tiles; i++) load += field(row + 8 * (machines + i) + 4);
    for (uint32_t p = 0; p < machines; p++) {
        set(other + 16 * p, p ? tiles : 0);
        set(other + 16 * p + 4, tiles);
        set(other + 16 * p + 8, p ? 0 : load);
        set(other + 16 * p + 12, field(row + 8 * p + 4));
    }
}

/* A job with this hold on each machine, 0 for no limit: by each method, graded as planned and with all on the first machine; and every
 * refusal that it can be given. */
static void accepted_with(uint32_t hold, uint32_t startup, uint32_t machines, uint32_t tiles, int speeds, int weights) {
    size_t len = 8 * fill(startup, hold, machines, tiles, speeds, weights), plan_len = 16 * machines;
    for (uint32_t method = 0; method <= 5; method++) {
        plans(len, method, plan_len - 1, method < 1 || method > 4 ? 1 : 9);
        plans(len, method, plan_len, method < 1 || method > 4 ? 1 : method == 4 && hold ? 18 : 0);
    }
    grades(len, plan, plan_len, 1, 0);
    if (grade[0] != PELSHAQU_BEST) fail("the plan is not best", grade[0], PELSHAQU_BEST);
    all_on_first(startup, machines, tiles);
    uint32_t broken = hold && tiles > hold ? 11 : 0;
    grades(len, other, plan_len, 1, broken);
    grades(len, other, plan_len, 0, 9);
    grades(len, other, plan_len + 16, 1, 12);
    other[plan_len - 4] ^= 1;
    grades(len, other, plan_len, 1, broken ? broken : 13);
    other[plan_len - 12] ^= 1;
    grades(len, other, plan_len, 1, 11);
}

/* A job without holds; with holds that add up to enough, and not much more; with the greatest. With one tile less to a machine, where that
 * is a limit still, they add up to too little. */
static void accepted(uint32_t startup, uint32_t machines, uint32_t tiles, int speeds, int weights) {
    uint32_t hold = tiles == 0 ? 1 : (tiles + machines - 1) / machines;
    accepted_with(0, startup, machines, tiles, speeds, weights);
    accepted_with(hold, startup, machines, tiles, speeds, weights);
    accepted_with(PELSHAQU_MAX_HOLD, startup, machines, tiles, speeds, weights);
    if (hold > 1) {
        size_t len = 8 * fill(startup, hold - 1, machines, tiles, speeds, weights);
        for (uint32_t method = 1; method <= 4; method++) plans(len, method, 16 * machines, 17);
    }
}

/* A file that is refused, by each method and by grading. */
static void refused(size_t len, uint32_t wanted) {
    for (uint32_t method = 1; method <= 4; method++) plans(len, method, sizeof plan, wanted);
    grades(len, plan, 16 * MACHINES, 1, wanted);
}

static void refusals(uint32_t startup) {
    size_t n = fill(startup, 0, MACHINES, TILES, 4, 4), last = n - 1, first = startup == FIRST ? 0 : 1;
    refused(8 * n - 1, 2);
    put(last, 4, 1);
    refused(8 * n, 3);
    put(last, 1, 1);
    refused(8 * n, 4);
    put(last, 3, 1);
    refused(8 * n, 15);
    put(first, 1, 0);
    refused(8 * n, 5);
    put(first, 1, 1);
    put(last, 2, 1000001);
    refused(8 * n, 6);
    put(0, 3, STARTUP + 1);
    refused(8 * n, 16);
    refused(0, 7);
    refused(8 * fill(startup, 1, MACHINES + 1, TILES, 4, 4), 7);
    refused(8 * fill(startup, 1, MACHINES, TILES + 1, 4, 4), 8);
}

int main(void) {
    area = mmap(NULL, AREA, PROT_READ | PROT_WRITE, MAP_PRIVATE | MAP_ANONYMOUS, -1, 0);
    if (area == MAP_FAILED) fail("no memory", 0, 0);
    for (int speeds = 0; speeds <= 4; speeds++) {
        for (int weights = 0; weights <= 4; weights++) {
            accepted(FIRST, MACHINES, TILES, speeds, weights);
            accepted(weights % 2 ? STARTUP : 1000, MACHINES, TILES, speeds, weights);
        }
    }
    static const uint32_t startups[] = {FIRST, 0, STARTUP};
    for (size_t k = 0; k < sizeof startups / sizeof *startups; k++) {
        accepted(startups[k], 1, 0, 4, 4);
        accepted(startups[k], 1, TILES, 4, 4);
        accepted(startups[k], 2, 3, 4, 4);
        accepted(startups[k], MACHINES, 0, 4, 4);
        refusals(startups[k]);
    }
    printf("plan_job %zu bytes, grade_plan %zu bytes\n", most_planning, most_grading);
    return 0;
}
