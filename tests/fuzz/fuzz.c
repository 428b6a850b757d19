/* A fuzz target of plan_job and grade_plan. The first two bytes choose the method and the buffers, the next two what is graded: the
 * plan that plan_job wrote with a small change, or so many bytes from the end of the input; the rest is the job file. The answers are
 * judged by the rules of the scope and of requests M-102, M-106 and M-108 alone: the numbers by a reader of its own, a plan by what makes
 * it the only best one, a grade by whether a walk stays strictly below the plan's bottleneck. */
#include <stdio.h>
#include <stdlib.h>
#include <string.h>

#include "../../include/pelshaqu.h"

/* The most tiles of a job; the bytes of a record of a job file and of a plan. */
#define TILES PELSHAQU_MAX_TILES
#define RECORD PELSHAQU_JOB_RECORD
#define SHARE PELSHAQU_PLAN_RECORD

void blocks_watch(void);

static void must(int good, const char *what) {
    if (good) return;
    fprintf(stderr, "FAILED: %s\n", what);
    abort();
}

struct job {
    uint32_t startup, machines, tiles, speeds[PELSHAQU_MAX_MACHINES + 1], holds[PELSHAQU_MAX_MACHINES + 1], weights[TILES + 1];
};

/* The tests of one record; a good one is added as far as there is room. */
static uint32_t take(struct job *job, const uint8_t *r, int first) {
    uint32_t value = pelshaqu_read_field(r + 4);
    int machine = r[0] == PELSHAQU_MACHINE, tile = r[0] == PELSHAQU_TILE, startup = r[0] == PELSHAQU_STARTUP;
    if ((!machine && !tile && !startup) || r[1] || (!machine && (r[2] || r[3]))) return PELSHAQU_BAD_RECORD;
    if (machine && job->tiles) return PELSHAQU_LATE_MACHINE;
    if (startup && !first) return PELSHAQU_LATE_STARTUP;
    if (machine && (value < 1 || value > PELSHAQU_MAX_SPEED)) return PELSHAQU_BAD_SPEED;
    if (tile && value > PELSHAQU_MAX_WEIGHT) return PELSHAQU_BAD_WEIGHT;
    if (startup && value > PELSHAQU_MAX_STARTUP) return PELSHAQU_BAD_STARTUP;
    if (startup) job->startup = value;
    if (machine && job->machines++ < PELSHAQU_MAX_MACHINES) {
        job->speeds[job->machines - 1] = value;
        job->holds[job->machines - 1] = r[2] | (uint32_t)r[3] << 8;
    }
    if (tile && job->tiles++ < TILES) job->weights[job->tiles - 1] = value;
    return 0;
}

/* What the file alone gives. */
static uint32_t judge_file(struct job *job, const uint8_t *file, size_t len) {
    job->startup = job->machines = job->tiles = 0;
    if (len % RECORD) return PELSHAQU_BAD_LENGTH;
    for (size_t i = 0; i < len; i += RECORD) {
        uint32_t number = take(job, file + i, i == 0);
        if (number) return number;
    }
    if (job->machines < 1 || job->machines > PELSHAQU_MAX_MACHINES) return PELSHAQU_BAD_ROW;
    return job->tiles > TILES ? PELSHAQU_TOO_MANY_TILES : 0;
}

/* Whether the job has holds, and whether they are all limited and add up to less than the tiles. */
static int held(const struct job *job) {
    for (uint32_t p = 0; p < job->machines; p++) {
        if (job->holds[p]) return 1;
    }
    return 0;
}

static int short_of(const struct job *job) {
    uint32_t sum = 0;
    for (uint32_t p = 0; p < job->machines; p++) {
        if (!job->holds[p]) return 0;
        sum += job->holds[p];
    }
    return sum < job->tiles;
}

static uint32_t judge(struct job *job, const uint8_t *file, size_t len, uint32_t method, size_t plan_len) {
    if (method < PELSHAQU_TABLE || method > PELSHAQU_NICOL) return PELSHAQU_BAD_METHOD;
    uint32_t number = judge_file(job, file, len);
    if (number) return number;
    if (plan_len < SHARE * (size_t)job->machines) return PELSHAQU_TOO_SHORT;
    if (short_of(job)) return PELSHAQU_TOO_FEW_PLACES;
    return method == PELSHAQU_NICOL && held(job) ? PELSHAQU_NOT_WITH_HOLDS : 0;
}

/* Whether machine p holds the tiles from + 1 to to. */
static int keeps(const struct job *job, uint32_t p, uint32_t from, uint32_t to) {
    return !job->holds[p] || to - from <= job->holds[p];
}

/* The load of tiles from + 1 to to: the start-up work and their weight, 0 where there are none. */
static uint32_t load_of(const struct job *job, uint32_t from, uint32_t to) {
    uint32_t load = from < to ? job->startup : 0;
    for (uint32_t i = from; i < to; i++) load += job->weights[i];
    return load;
}

/* One walk at load/speed, where an equal share is within the bound or not; its separators, and whether the rest is within it. */
static int walk(const struct job *job, unsigned __int128 load, unsigned __int128 speed, int equal, uint32_t *separators) {
    uint32_t at = 0;
    for (uint32_t p = 0; p < job->machines; p++) {
        unsigned __int128 sum = 0;
        int last = p + 1 == job->machines;
        uint32_t from = at;
        for (; at < job->tiles; at++) {
            unsigned __int128 longer = sum + job->weights[at] + (at == from ? job->startup : 0), most = load * job->speeds[p];
            if (!last && (!keeps(job, p, from, at + 1) || (equal ? longer * speed > most : longer * speed >= most))) break;
            sum = longer;
        }
        separators[p] = at;
        if (last && (!keeps(job, p, from, at) || (equal ? sum * speed > load * job->speeds[p] : sum * speed >= load * job->speeds[p]))) return 0;
    }
    return 1;
}

/* The plan is a division with its loads and speeds; nothing strictly better exists; a walk at its bottleneck gives it back. */
static void best(const struct job *job, const uint8_t *plan) {
    uint32_t before = 0, separators[PELSHAQU_MAX_MACHINES];
    unsigned __int128 load = 0, speed = 1;
    for (uint32_t p = 0; p < job->machines; p++) {
        struct pelshaqu_share share = pelshaqu_read_share(plan, p);
        must(share.before == before && share.after >= before && share.after <= job->tiles, "no division");
        must(keeps(job, p, before, share.after), "a hold is broken");
        uint32_t sum = load_of(job, before, share.after);
        must(share.load == sum && share.speed == job->speeds[p], "a wrong load or speed");
        if ((unsigned __int128)sum * speed > load * job->speeds[p]) load = sum, speed = job->speeds[p];
        before = share.after;
    }
    must(before == job->tiles, "tiles are left over");
    must(load == 0 || !walk(job, load, speed, 0, separators), "a better division exists");
    must(walk(job, load, speed, 1, separators), "the bottleneck does not fit");
    for (uint32_t p = 0; p < job->machines; p++) must(separators[p] == pelshaqu_read_share(plan, p).after, "not the furthest division");
}

/* What grading must give for an accepted job: the number, and on 0 the grade. */
static uint32_t judge_plan(const struct job *job, const uint8_t *plan, size_t len, uint8_t *grade) {
    uint32_t before = 0, separators[PELSHAQU_MAX_MACHINES];
    unsigned __int128 load = 0, speed = 1;
    if (len != SHARE * (size_t)job->machines) return PELSHAQU_BAD_PLAN_LENGTH;
    for (uint32_t p = 0; p < job->machines; p++) {
        struct pelshaqu_share share = pelshaqu_read_share(plan, p);
        if (share.before != before || share.after < before || !keeps(job, p, before, share.after)) return PELSHAQU_NO_DIVISION;
        before = share.after;
    }
    if (before != job->tiles) return PELSHAQU_NO_DIVISION;
    for (uint32_t p = 0; p < job->machines; p++) {
        struct pelshaqu_share share = pelshaqu_read_share(plan, p);
        uint32_t sum = load_of(job, share.before, share.after);
        if (share.load != sum || share.speed != job->speeds[p]) return PELSHAQU_UNTRUE_PLAN;
        if ((unsigned __int128)sum * speed > load * job->speeds[p]) load = sum, speed = job->speeds[p];
    }
    *grade = load == 0 || !walk(job, load, speed, 0, separators) ? PELSHAQU_BEST : PELSHAQU_VALID;
    return 0;
}

/* Grades a plan beside a job file whose own number is known, and gives the grade, or 0. */
static uint8_t grades(const struct job *job, const uint8_t *file, size_t len, uint32_t number, const uint8_t *plan, size_t plan_len,
                      size_t room) {
    uint8_t buffer[8], grade = 0;
    memset(buffer, 0xA5, sizeof buffer);
    if (number == 0) number = room == 0 ? PELSHAQU_TOO_SHORT : judge_plan(job, plan, plan_len, &grade);
    must(grade_plan(file, len, plan, plan_len, room ? buffer : NULL, room) == number, "grading: a wrong number");
    must(buffer[0] == (number == 0 ? grade : 0xA5), "grading: a wrong grade, or one on refusal");
    for (size_t i = 1; i < sizeof buffer; i++) must(buffer[i] == 0xA5, "grading: a byte that must stay was changed");
    return number == 0 ? grade : 0;
}

static void put(uint8_t *at, uint32_t value) {
    for (int i = 0; i < 4; i++) at[i] = (uint8_t)(value >> (8 * i));
}

/* The separator after machine p moved by one, with true loads, where there is a tile to move. */
static void move(const struct job *job, uint8_t *plan, uint32_t p, int on) {
    if (p + 1 >= job->machines) return;
    uint8_t *here = plan + SHARE * p, *next = here + SHARE;
    uint32_t at = pelshaqu_read_field(here + 4);
    if (on ? at == pelshaqu_read_field(next + 4) : at == pelshaqu_read_field(here)) return;
    uint32_t to = on ? at + 1 : at - 1;
    put(here + 4, to);
    put(next, to);
    put(here + 8, load_of(job, pelshaqu_read_field(here), to));
    put(next + 8, load_of(job, to, pelshaqu_read_field(next + 4)));
}

/* A small change of a plan: gives its new length. There is room for a record more. */
static size_t change(const struct job *job, uint8_t *plan, uint8_t place, uint8_t kind) {
    size_t len = SHARE * (size_t)job->machines, at = 4 * (place % (len / 4));
    uint32_t p = place % job->machines;
    switch (kind % 16) {
    case 0: return len;
    case 1: put(plan + at, pelshaqu_read_field(plan + at) + 1); return len;
    case 2: put(plan + at, pelshaqu_read_field(plan + at) - 1); return len;
    case 3: plan[place % len] ^= (uint8_t)(1 << kind / 32); return len;
    case 4: return len - 1 - kind / 16;
    case 5: return len + 1 + kind / 16;
    case 6: put(plan + at, 0); return len;
    case 7: put(plan + at, UINT32_MAX); return len;
    case 8: plan[place % len] ^= 1; plan[(place + kind) % len] ^= 2; return len;
    default:
        for (int times = 0; times < 1 + kind / 64; times++) move(job, plan, p, kind % 2);
        return len;
    }
}

int LLVMFuzzerInitialize(int *argc, char ***argv) {
    (void)argc, (void)argv;
    blocks_watch();
    return 0;
}

int LLVMFuzzerTestOneInput(const uint8_t *data, size_t size) {
    static struct job job;
    static uint8_t plan[PELSHAQU_MAX_PLAN + 256], before[sizeof plan];
    if (size < 4) return 0;
    uint32_t method = data[0] % 6;
    const uint8_t *file = data + 4;
    size_t len = size - 4, tail = data[0] < 128 ? 0 : 16 * (size_t)data[2] + data[3] % 32;
    if (tail > len) tail = len;
    len -= tail;
    size_t records = len / RECORD < PELSHAQU_MAX_MACHINES ? len / RECORD : PELSHAQU_MAX_MACHINES;
    /* Room for any plan; about the room of a job without tiles; anything from none on. */
    size_t room = SHARE * records + data[1] % 32;
    if (data[1] < 128) room = sizeof plan - 64 - data[1];
    else if (data[1] < 192) room = room < SHARE ? 0 : room - SHARE;
    else room = data[1] - 192;
    memset(plan, 0xA5, sizeof plan);
    memset(before, 0xA5, sizeof before);
    uint32_t number = judge(&job, file, len, method, room);
    must(plan_job(file, len, method, plan, room) == number, "a wrong number");
    size_t filled = number == 0 ? SHARE * (size_t)job.machines : 0;
    must(memcmp(plan + filled, before + filled, sizeof plan - filled) == 0, "a byte that must stay was changed");
    if (number == 0) {
        best(&job, plan);
        must(grades(&job, file, len, 0, plan, filled, 1) == PELSHAQU_BEST, "the planner's own plan is not graded best");
        size_t changed = change(&job, plan, data[2], data[3]);
        grades(&job, file, len, 0, plan, changed, data[1] % 4);
    }
    /* A refusal of the plan buffer, the method or what the holds add up to is none of grading. */
    number = judge_file(&job, file, len);
    grades(&job, file, len, number, file + len, tail, data[1] % 4);
    return 0;
}
