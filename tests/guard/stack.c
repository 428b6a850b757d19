/* How many bytes of stack each call takes: on jobs of the largest size and smaller ones, of both editions, with holds and without, by all
 * four methods, and on files and lists that are refused. Each call is made in a thread of its own, whose stack is an area filled with a
 * pattern before; the lowest byte that has changed says how deep the call went. An empty function of the same type, called in the same way,
 * is taken off, so the figure is what lies below the return address of the call: the frames of all functions in it, memset's too. Two
 * patterns, since a byte may be written with the value that it had. The figures are the greatest of all calls. Prints a line for each
 * function, its name and the bytes, and gives 0 if every call gave the number that it must.
 *
 * Not counted is what the dynamic linker takes where it binds memset at its first use: here that is done before. Linked with
 * -Wl,-z,lazy and run with LD_BIND_NOT=1, by which every use is a first one, the figures of plan_job and grade_plan are 2,752 bytes greater
 * on an Intel Xeon with AVX-512, whose registers the linker saves meanwhile. */
#define _DEFAULT_SOURCE
#include <pthread.h>
#include <stdio.h>
#include <stdlib.h>
#include <string.h>
#include <sys/mman.h>

#include "../../include/pelshaqu.h"

#define MACHINES PELSHAQU_MAX_MACHINES
#define TILES PELSHAQU_MAX_TILES
#define STARTUP PELSHAQU_MAX_STARTUP
/* The start-up work of a job of the first edition. */
#define FIRST UINT32_MAX
#define RECORD PELSHAQU_JOB_RECORD
#define SHARE PELSHAQU_PLAN_RECORD
#define RECORDS (1 + MACHINES + TILES + 2)
#define AREA (128 * 1024)
/* What the thread did before the call lies within so many bytes above it. */
#define APART (16 * 1024)

/* What a call is made with. The lists have room for one machine and one tile too many. */
static struct lent {
    uint8_t job[RECORD * RECORDS], plan[SHARE * (MACHINES + 1)], grade[1], text[PELSHAQU_LISTING];
    size_t job_len, plan_len, grade_len, text_len, machines, holds_len, tiles, separators_len, work_len;
    uint32_t method, startup, speeds[MACHINES + 1], weights[TILES + 1], separators[MACHINES + 2], work[PELSHAQU_WORK(TILES + 1)];
    uint16_t holds[MACHINES + 1];
    uint64_t load, speed, answer[PELSHAQU_MAX_ANSWERS];
    bool second;
} lent;

/* The arguments of each call, and the parameters of its type. */
#define LIST(name, len) lent.name, lent.len
#define JOB lent.second, lent.startup, LIST(speeds, machines), LIST(holds, holds_len), LIST(weights, tiles)
#define JOB_TYPE bool, uint32_t, const uint32_t *, size_t, const uint16_t *, size_t, const uint32_t *, size_t
#define ANSWER lent.answer, PELSHAQU_MAX_ANSWERS
#define ANSWER_TYPE uint64_t *, size_t
#define BYTES_TYPE const uint8_t *, size_t
#define ROOM_TYPE uint8_t *, size_t
#define LIST_TYPE const uint32_t *, size_t
#define WRITTEN_TYPE uint32_t *, size_t
#define BY_LISTS(X)                                                                                                            \
    X(pelshaqu_test_job, (JOB), (JOB_TYPE))                                                                                    \
    X(pelshaqu_write_job, (JOB, LIST(job, job_len), ANSWER), (JOB_TYPE, ROOM_TYPE, ANSWER_TYPE))                               \
    X(pelshaqu_measure, (JOB, LIST(separators, separators_len), ANSWER), (JOB_TYPE, LIST_TYPE, ANSWER_TYPE))                   \
    X(pelshaqu_trial, (JOB, lent.load, lent.speed, LIST(separators, separators_len), ANSWER),                                  \
      (JOB_TYPE, uint64_t, uint64_t, WRITTEN_TYPE, ANSWER_TYPE))                                                               \
    X(pelshaqu_quick_plan, (JOB, LIST(separators, separators_len), ANSWER), (JOB_TYPE, WRITTEN_TYPE, ANSWER_TYPE))             \
    X(pelshaqu_halve_row, (JOB, LIST(separators, separators_len), ANSWER), (JOB_TYPE, WRITTEN_TYPE, ANSWER_TYPE))              \
    X(pelshaqu_plan, (lent.method, JOB, LIST(separators, separators_len), LIST(work, work_len), ANSWER),                       \
      (uint32_t, JOB_TYPE, WRITTEN_TYPE, WRITTEN_TYPE, ANSWER_TYPE))                                                           \
    X(pelshaqu_write_plan, (JOB, LIST(separators, separators_len), LIST(plan, plan_len), ANSWER),                              \
      (JOB_TYPE, LIST_TYPE, ROOM_TYPE, ANSWER_TYPE))                                                                           \
    X(pelshaqu_grade, (JOB, LIST(plan, plan_len), ANSWER), (JOB_TYPE, BYTES_TYPE, ANSWER_TYPE))
#define BY_FILE(X)                                                                                                             \
    X(plan_job, (LIST(job, job_len), lent.method, LIST(plan, plan_len)), (BYTES_TYPE, uint32_t, ROOM_TYPE))                    \
    X(pelshaqu_plan_job, (LIST(job, job_len), lent.method, LIST(plan, plan_len)), (BYTES_TYPE, uint32_t, ROOM_TYPE))           \
    X(grade_plan, (LIST(job, job_len), LIST(plan, plan_len), LIST(grade, grade_len)), (BYTES_TYPE, BYTES_TYPE, ROOM_TYPE))     \
    X(pelshaqu_grade_plan, (LIST(job, job_len), LIST(plan, plan_len), LIST(grade, grade_len)),                                 \
      (BYTES_TYPE, BYTES_TYPE, ROOM_TYPE))                                                                                     \
    X(pelshaqu_read_job, (LIST(job, job_len), LIST(speeds, machines), LIST(holds, holds_len), LIST(weights, tiles), ANSWER),   \
      (BYTES_TYPE, WRITTEN_TYPE, uint16_t *, size_t, WRITTEN_TYPE, ANSWER_TYPE))                                               \
    X(pelshaqu_list_job, (LIST(job, job_len), LIST(text, text_len), ANSWER), (BYTES_TYPE, ROOM_TYPE, ANSWER_TYPE))
#define CALLS(X) BY_FILE(X) BY_LISTS(X)

/* A name for each call, and of each a function that makes it, by a pointer to the function itself or to an empty one of its type. */
#define NUMBERED(name, arguments, type) CALL_##name,
enum call { CALLS(NUMBERED) COUNT };
#define NAMED(name, arguments, type) #name,
static const char *const names[] = {CALLS(NAMED)};

static uint8_t *area;
static size_t most[COUNT];

static void fail(const char *what, uint32_t number, uint32_t wanted) {
    printf("tests/guard/stack: FAILED: %s, number %u, wanted %u\n", what, number, wanted);
    exit(1);
}

/* The empty function. It is called as if it had the type of the call: the caller puts the arguments down and takes them away. */
static uint32_t nothing(void) {
    return 0;
}

struct ask {
    enum call call;
    void (*volatile function)(void);
    uint8_t pattern;
    uint32_t number;
    size_t lowest;
};

/* The thread: the call, and at once the look at the area, in this frame, without a call of its own. */
static void *run(void *given) {
    struct ask *ask = given;
    volatile uint8_t apart[APART];
    apart[ask->pattern] = 0; /* a place that the compiler does not know, so that it keeps the array whole */
    (void)apart[ask->pattern];
    switch (ask->call) {
#define MADE(name, arguments, type) \
    case CALL_##name: ask->number = ((uint32_t(*) type)ask->function)arguments; break;
        CALLS(MADE)
    default: break;
    }
    const volatile uint8_t *bytes = area;
    size_t i = 0;
    while (i < AREA && bytes[i] == ask->pattern) i++;
    ask->lowest = i;
    return NULL;
}

/* The lowest byte that changed, counted from the area's low end. */
static size_t lowest(struct ask *ask) {
    static const uint8_t patterns[] = {0x5a, 0xc3};
    size_t low = AREA;
    for (size_t k = 0; k < sizeof patterns; k++) {
        pthread_attr_t attributes;
        pthread_t thread;
        ask->pattern = patterns[k];
        memset(area, patterns[k], AREA);
        if (pthread_attr_init(&attributes) || pthread_attr_setstack(&attributes, area, AREA) ||
            pthread_create(&thread, &attributes, run, ask) || pthread_join(thread, NULL)) {
            fail("no thread", 0, 0);
        }
        pthread_attr_destroy(&attributes);
        if (ask->lowest < low) low = ask->lowest;
    }
    if (low == 0) fail("the area is too small", 0, 0);
    return low;
}

/* Makes a call, which must give this number, and notes the bytes that it takes below what the empty function takes. */
static void made(enum call call, uint32_t wanted) {
    static void (*const functions[])(void) = {
#define FUNCTION(name, arguments, type) (void (*)(void))name,
        CALLS(FUNCTION)};
    struct ask ask = {.call = call, .function = functions[call]}, empty = {.call = call, .function = (void (*)(void))nothing};
    size_t top = lowest(&empty), low = lowest(&ask);
    if (AREA - top < APART || low > top) fail("the empty function went deeper", 0, 0);
    if (ask.number != wanted) fail(names[call], ask.number, wanted);
    if (top - low > most[call]) most[call] = top - low;
}

static void planned(uint32_t method, size_t plan_len, uint32_t wanted) {
    lent.method = method, lent.plan_len = plan_len;
    made(CALL_plan_job, wanted);
    made(CALL_pelshaqu_plan_job, wanted);
}

static void graded(size_t plan_len, size_t grade_len, uint32_t wanted) {
    lent.plan_len = plan_len, lent.grade_len = grade_len;
    made(CALL_grade_plan, wanted);
    made(CALL_pelshaqu_grade_plan, wanted);
}

static void set(uint8_t *at, uint32_t value) {
    for (int i = 0; i < 4; i++) at[i] = (uint8_t)(value >> (8 * i));
}

/* A speed or weight of a family, from 0 to most. */
static uint32_t drawn(int family, uint32_t i, uint32_t most) {
    static uint32_t x = 1;
    x = 1103515245 * x + 12345;
    switch (family) {
    case 0: return most;
    case 1: return 0;
    case 2: return i % 97 == 96 ? most : 1;
    case 3: return i % 2 ? most : 0;
    default: return (uint32_t)((uint64_t)(x >> 8) * most >> 24);
    }
}

/* Fills the job, as a file and as lists, and lends just the room that it needs. Each machine has the hold. */
static void fill(uint32_t startup, uint32_t hold, uint32_t machines, uint32_t tiles, int speeds, int weights) {
    size_t n = startup == FIRST ? 0 : pelshaqu_put_startup(lent.job, startup);
    for (uint32_t p = 0; p < machines; p++) {
        lent.speeds[p] = 1 + drawn(speeds, p, PELSHAQU_MAX_SPEED - 1);
        lent.holds[p] = (uint16_t)hold;
        n += pelshaqu_put_machine(lent.job + n, lent.speeds[p], lent.holds[p]);
    }
    for (uint32_t i = 0; i < tiles; i++) {
        lent.weights[i] = drawn(weights, i, PELSHAQU_MAX_WEIGHT);
        n += pelshaqu_put_tile(lent.job + n, lent.weights[i]);
    }
    lent.job_len = n;
    lent.second = startup != FIRST;
    lent.startup = startup == FIRST ? 0 : startup;
    lent.machines = lent.holds_len = machines;
    lent.tiles = tiles;
    lent.separators_len = PELSHAQU_SEPARATORS(machines);
    lent.work_len = PELSHAQU_WORK(tiles);
    lent.plan_len = SHARE * machines;
    lent.text_len = PELSHAQU_LISTING;
    lent.method = PELSHAQU_BISECTION;
    lent.load = lent.speed = 1;
}

/* All tiles on the first machine: a true plan. */
static void all_on_first(void) {
    uint32_t tiles = (uint32_t)lent.tiles, load = tiles == 0 ? 0 : lent.startup;
    for (uint32_t i = 0; i < tiles; i++) load += lent.weights[i];
    for (size_t p = 0; p < lent.machines; p++) {
        set(lent.plan + SHARE * p, p ? tiles : 0);
        set(lent.plan + SHARE * p + 4, tiles);
        set(lent.plan + SHARE * p + 8, p ? 0 : load);
        set(lent.plan + SHARE * p + 12, lent.speeds[p]);
    }
}

/* Whether the row can be halved. */
static bool halved(void) {
    for (size_t p = 1; p < lent.machines; p++) {
        if (lent.speeds[p] != lent.speeds[0]) return false;
    }
    return (lent.machines & (lent.machines - 1)) == 0;
}

/* Every call by lists, on a job that each refuses with this number; 14 comes before 9. */
static void refused_by_lists(uint32_t wanted) {
#define REFUSED(name, arguments, type) \
    made(CALL_##name, CALL_##name == CALL_pelshaqu_halve_row && wanted == PELSHAQU_TOO_SHORT && !halved() ? PELSHAQU_CANNOT_HALVE : wanted);
    BY_LISTS(REFUSED)
}

/* The calls by lists on a job with this hold on each machine, each with the room that it needs and with too little; `wanted` is what planning
 * gives it, 17 where the holds add up to too little. */
static void by_lists(uint32_t hold, uint32_t wanted) {
    made(CALL_pelshaqu_test_job, 0);
    made(CALL_pelshaqu_read_job, 0);
    made(CALL_pelshaqu_write_job, 0);
    made(CALL_pelshaqu_list_job, 0);
    for (uint32_t method = 1; method <= 4; method++) {
        lent.method = method;
        made(CALL_pelshaqu_plan, wanted ? wanted : method == PELSHAQU_NICOL && hold ? PELSHAQU_NOT_WITH_HOLDS : 0);
    }
    lent.method = 5;
    made(CALL_pelshaqu_plan, PELSHAQU_BAD_METHOD);
    if (!wanted) {
        made(CALL_pelshaqu_measure, 0);
        made(CALL_pelshaqu_write_plan, 0);
        made(CALL_pelshaqu_grade, 0);
        /* The next of the bounds is the plan's. */
        lent.method = PELSHAQU_BISECTION;
        if (pelshaqu_plan(lent.method, JOB, LIST(separators, separators_len), LIST(work, work_len), ANSWER) != 0) fail("no plan", 1, 0);
    }
    const uint64_t bounds[][2] = {{0, 1}, {lent.answer[2], wanted ? 1 : lent.answer[3]}, {PELSHAQU_MAX_BOUND_LOAD, 1}, {1, PELSHAQU_MAX_BOUND_SPEED}};
    for (size_t k = 0; k < sizeof bounds / sizeof *bounds; k++) {
        lent.load = bounds[k][0], lent.speed = bounds[k][1];
        made(CALL_pelshaqu_trial, wanted);
    }
    lent.speed = 0;
    made(CALL_pelshaqu_trial, wanted ? wanted : PELSHAQU_BAD_BOUND);
    made(CALL_pelshaqu_quick_plan, hold ? PELSHAQU_NOT_WITH_HOLDS : 0);
    made(CALL_pelshaqu_halve_row, !halved() ? PELSHAQU_CANNOT_HALVE : hold ? PELSHAQU_NOT_WITH_HOLDS : 0);
    lent.separators[0] = 1;
    made(CALL_pelshaqu_measure, PELSHAQU_NO_DIVISION);
    made(CALL_pelshaqu_write_plan, PELSHAQU_NO_DIVISION);
    lent.plan_len++;
    made(CALL_pelshaqu_grade, PELSHAQU_BAD_PLAN_LENGTH);
    lent.plan_len--;
    lent.holds_len--;
    lent.method = PELSHAQU_BISECTION;
    refused_by_lists(PELSHAQU_TOO_SHORT);
    made(CALL_pelshaqu_read_job, PELSHAQU_TOO_SHORT);
    lent.holds_len++;
    lent.text_len--;
    made(CALL_pelshaqu_list_job, PELSHAQU_TOO_SHORT);
    lent.text_len++;
}

/* A job with this hold on each machine, 0 for no limit: by each method, graded as planned and with all on the first machine; and every
 * refusal that it can be given. */
static void accepted_with(uint32_t hold, uint32_t startup, uint32_t machines, uint32_t tiles, int speeds, int weights) {
    fill(startup, hold, machines, tiles, speeds, weights);
    size_t plan_len = lent.plan_len;
    for (uint32_t method = 0; method <= 5; method++) {
        uint32_t unknown = method < 1 || method > 4 ? PELSHAQU_BAD_METHOD : 0;
        planned(method, plan_len - 1, unknown ? unknown : PELSHAQU_TOO_SHORT);
        planned(method, plan_len, unknown ? unknown : method == PELSHAQU_NICOL && hold ? PELSHAQU_NOT_WITH_HOLDS : 0);
    }
    graded(plan_len, 1, 0);
    if (lent.grade[0] != PELSHAQU_BEST) fail("the plan is not best", lent.grade[0], PELSHAQU_BEST);
    by_lists(hold, 0);
    all_on_first();
    uint32_t broken = hold && tiles > hold ? PELSHAQU_NO_DIVISION : 0;
    graded(plan_len, 1, broken);
    made(CALL_pelshaqu_grade, broken);
    graded(plan_len, 0, PELSHAQU_TOO_SHORT);
    graded(plan_len + SHARE, 1, PELSHAQU_BAD_PLAN_LENGTH);
    lent.plan[plan_len - 4] ^= 1;
    graded(plan_len, 1, broken ? broken : PELSHAQU_UNTRUE_PLAN);
    made(CALL_pelshaqu_grade, broken ? broken : PELSHAQU_UNTRUE_PLAN);
    lent.plan[plan_len - 12] ^= 1;
    graded(plan_len, 1, PELSHAQU_NO_DIVISION);
}

/* A job without holds; with holds that add up to enough, and not much more; with the greatest. With one tile less to a machine, where that
 * is a limit still, they add up to too little. */
static void accepted(uint32_t startup, uint32_t machines, uint32_t tiles, int speeds, int weights) {
    uint32_t hold = tiles == 0 ? 1 : (tiles + machines - 1) / machines;
    accepted_with(0, startup, machines, tiles, speeds, weights);
    accepted_with(hold, startup, machines, tiles, speeds, weights);
    accepted_with(PELSHAQU_MAX_HOLD, startup, machines, tiles, speeds, weights);
    if (hold > 1) {
        fill(startup, hold - 1, machines, tiles, speeds, weights);
        for (uint32_t method = 1; method <= 4; method++) planned(method, SHARE * machines, PELSHAQU_TOO_FEW_PLACES);
        by_lists(hold - 1, PELSHAQU_TOO_FEW_PLACES);
    }
}

/* A file that is refused, by each method, by grading, reading and listing it. */
static void refused(size_t len, uint32_t wanted) {
    lent.job_len = len;
    for (uint32_t method = 1; method <= 4; method++) planned(method, sizeof lent.plan, wanted);
    graded(SHARE * MACHINES, 1, wanted);
    made(CALL_pelshaqu_read_job, wanted);
    made(CALL_pelshaqu_list_job, 0);
}

static void refusals(uint32_t startup) {
    fill(startup, 0, MACHINES, TILES, 4, 4);
    size_t n = lent.job_len;
    uint8_t *last = lent.job + n - RECORD, *first = lent.job + (startup == FIRST ? 0 : RECORD);
    refused(n - 1, PELSHAQU_BAD_LENGTH);
    pelshaqu_put_record(last, PELSHAQU_STARTUP + 1, 0, 1);
    refused(n, PELSHAQU_BAD_RECORD);
    pelshaqu_put_machine(last, 1, 0);
    refused(n, PELSHAQU_LATE_MACHINE);
    pelshaqu_put_startup(last, 1);
    refused(n, PELSHAQU_LATE_STARTUP);
    pelshaqu_put_machine(first, 0, 0);
    refused(n, PELSHAQU_BAD_SPEED);
    pelshaqu_put_machine(first, 1, 0);
    pelshaqu_put_tile(last, PELSHAQU_MAX_WEIGHT + 1);
    refused(n, PELSHAQU_BAD_WEIGHT);
    pelshaqu_put_startup(lent.job, STARTUP + 1);
    refused(n, PELSHAQU_BAD_STARTUP);
    refused(0, PELSHAQU_BAD_ROW);
    lent.speeds[0] = 0;
    refused_by_lists(PELSHAQU_BAD_SPEED);
    lent.speeds[0] = 1;
    lent.weights[TILES - 1] = PELSHAQU_MAX_WEIGHT + 1;
    refused_by_lists(PELSHAQU_BAD_WEIGHT);
    lent.second = true;
    lent.startup = STARTUP + 1;
    refused_by_lists(PELSHAQU_BAD_STARTUP);
    fill(startup, 1, MACHINES + 1, TILES, 4, 4);
    refused_by_lists(PELSHAQU_BAD_ROW);
    refused(lent.job_len, PELSHAQU_BAD_ROW);
    fill(startup, 1, MACHINES, TILES + 1, 4, 4);
    refused_by_lists(PELSHAQU_TOO_MANY_TILES);
    refused(lent.job_len, PELSHAQU_TOO_MANY_TILES);
}

int main(void) {
    area = mmap(NULL, AREA, PROT_READ | PROT_WRITE, MAP_PRIVATE | MAP_ANONYMOUS, -1, 0);
    if (area == MAP_FAILED) fail("no memory", 0, 0);
    for (int speeds = 0; speeds <= 4; speeds++) {
        for (int weights = 0; weights <= 4; weights++) {
            accepted(FIRST, MACHINES, TILES, speeds, weights);
            accepted(weights % 2 ? STARTUP : 1000, MACHINES, TILES, speeds, weights);
        }
    }
    static const uint32_t startups[] = {FIRST, 0, STARTUP};
    for (size_t k = 0; k < sizeof startups / sizeof *startups; k++) {
        accepted(startups[k], 1, 0, 4, 4);
        accepted(startups[k], 1, TILES, 4, 4);
        accepted(startups[k], 2, 3, 4, 4);
        accepted(startups[k], MACHINES, 0, 4, 4);
        /* A row of the most machines that can be halved. */
        for (int weights = 0; weights <= 4; weights++) accepted(startups[k], 64, TILES, 0, weights);
        refusals(startups[k]);
    }
    for (int call = 0; call < COUNT; call++) printf("%s %zu\n", names[call], most[call]);
    return 0;
}
