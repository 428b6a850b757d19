/* A fuzz target of plan_job and grade_plan. The first two bytes choose the method and the buffers, the next two what is graded: the
 * plan that plan_job wrote with a small change, or so many bytes from the end of the input; the rest is the job file. The answers are
 * judged by the rules of the scope and of requests M-102, M-106 and M-108 alone: the numbers by a reader of its own, a plan by what makes
 * it the only best one, a grade by whether a walk stays strictly below the plan's bottleneck. */
#include <stdio.h>
#include <stdlib.h>
#include <string.h>

#include "../../include/pelshaqu.h"

/* The most tiles of a job; of machines the header has the most. tests/fuzz/run reads both. */
#define TILES PELSHAQU_MAX_TILES

void blocks_watch(void);

static void must(int good, const char *what) {
    if (good) return;
    fprintf(stderr, "FAILED: %s\n", what);
    abort();
}

static uint32_t field(const uint8_t *at) {
    return (uint32_t)at[0] | (uint32_t)at[1] << 8 | (uint32_t)at[2] << 16 | (uint32_t)at[3] << 24;
}

struct job {
    uint32_t startup, machines, tiles, speeds[PELSHAQU_MAX_MACHINES + 1], holds[PELSHAQU_MAX_MACHINES + 1], weights[TILES + 1];
};

/* The tests of one record; a good one is added as far as there is room. */
static uint32_t take(struct job *job, const uint8_t *r, int first) {
    uint32_t value = field(r + 4);
    if ((r[0] != 1 && r[0] != 2 && r[0] != 3) || r[1] || (r[0] != 1 && (r[2] || r[3]))) return 3;
    if (r[0] == 1 && job->tiles) return 4;
    if (r[0] == 3 && !first) return 15;
    if (r[0] == 1 && (value < 1 || value > 10000)) return 5;
    if (r[0] == 2 && value > 1000000) return 6;
    if (r[0] == 3 && value > 1000000) return 16;
    if (r[0] == 3) job->startup = value;
    if (r[0] == 1 && job->machines++ < PELSHAQU_MAX_MACHINES) {
        job->speeds[job->machines - 1] = value;
        job->holds[job->machines - 1] = r[2] | (uint32_t)r[3] << 8;
    }
    if (r[0] == 2 && job->tiles++ < TILES) job->weights[job->tiles - 1] = value;
    return 0;
}

/* What the file alone gives. */
static uint32_t judge_file(struct job *job, const uint8_t *file, size_t len) {
    job->startup = job->machines = job->tiles = 0;
    if (len % 8) return 2;
    for (size_t i = 0; i < len; i += 8) {
        uint32_t number = take(job, file + i, i == 0);
        if (number) return number;
    }
    if (job->machines < 1 || job->machines > PELSHAQU_MAX_MACHINES) return 7;
    return job->tiles > TILES ? 8 : 0;
}

/* Whether the job has holds, and whether they are all limited and add up to less than the tiles. */
static int held(const struct job *job) {
    for (uint32_t p = 0; p < job->machines; p++) {
        if (job->holds[p]) return 1;
    }
    return 0;
}

static int short_of(const struct job *job) {
    uint32_t sum = 0;
    for (uint32_t p = 0; p < job->machines; p++) {
        if (!job->holds[p]) return 0;
        sum += job->holds[p];
    }
    return sum < job->tiles;
}

static uint32_t judge(struct job *job, const uint8_t *file, size_t len, uint32_t method, size_t plan_len) {
    if (method < 1 || method > 4) return 1;
    uint32_t number = judge_file(job, file, len);
    if (number) return number;
    if (plan_len < 16 * (size_t)job->machines) return 9;
    if (short_of(job)) return 17;
    return method == 4 && held(job) ? 18 : 0;
}

/* Whether machine p holds the tiles from + 1 to to. */
static int keeps(const struct job *job, uint32_t p, uint32_t from, uint32_t to) {
    return !job->holds[p] || to - from <= job->holds[p];
}

/* The load of tiles from + 1 to to: the start-up work and their weight, 0 where there are none. */
static uint32_t load_of(const struct job *job, uint32_t from, uint32_t to) {
    uint32_t load = from < to ? job->startup : 0;
    for (uint32_t i = from; i < to; i++) load += job->weights[i];
    return load;
}

/* One walk at load/speed, where an equal share is within the bound or not; its separators, and whether the rest is within it. */
static int walk(const struct job *job, unsigned __int128 load, unsigned __int128 speed, int equal, uint32_t *separators) {
    uint32_t at = 0;
    for (uint32_t p = 0; p < job->machines; p++) {
        unsigned __int128 sum = 0;
        int last = p + 1 == job->machines;
        uint32_t from = at;
        for (; at < job->tiles; at++) {
            unsigned __int128 longer = sum + job->weights[at] + (at == from ? job->startup : 0), most = load * job->speeds[p];
            if (!last && (!keeps(job, p, from, at + 1) || (equal ? longer * speed > most : longer * speed >= most))) break;
            sum = longer;
        }
        separators[p] = at;
        if (last && (!keeps(job, p, from, at) || (equal ? sum * speed > load * job->speeds[p] : sum * speed >= load * job->speeds[p]))) return 0;
    }
    return 1;
}

/* The plan is a division with its loads and speeds; nothing strictly better exists; a walk at its bottleneck gives it back. */
static void best(const struct job *job, const uint8_t *plan) {
    uint32_t before = 0, separators[PELSHAQU_MAX_MACHINES];
    unsigned __int128 load = 0, speed = 1;
    for (uint32_t p = 0; p < job->machines; p++, plan += 16) {
        uint32_t to = field(plan + 4), sum;
        must(field(plan) == before && to >= before && to <= job->tiles, "no division");
        must(keeps(job, p, before, to), "a hold is broken");
        sum = load_of(job, before, to);
        must(field(plan + 8) == sum && field(plan + 12) == job->speeds[p], "a wrong load or speed");
        if ((unsigned __int128)sum * speed > load * job->speeds[p]) load = sum, speed = job->speeds[p];
        before = to;
    }
    must(before == job->tiles, "tiles are left over");
    plan -= 16 * (size_t)job->machines;
    must(load == 0 || !walk(job, load, speed, 0, separators), "a better division exists");
    must(walk(job, load, speed, 1, separators), "the bottleneck does not fit");
    for (uint32_t p = 0; p < job->machines; p++) must(separators[p] == field(plan + 16 * p + 4), "not the furthest division");
}

/* What grading must give for an accepted job: the number, and on 0 the grade. */
static uint32_t judge_plan(const struct job *job, const uint8_t *plan, size_t len, uint8_t *grade) {
    uint32_t before = 0, separators[PELSHAQU_MAX_MACHINES];
    unsigned __int128 load = 0, speed = 1;
    if (len != 16 * (size_t)job->machines) return 12;
    for (uint32_t p = 0; p < job->machines; p++) {
        uint32_t from = field(plan + 16 * p), to = field(plan + 16 * p + 4);
        if (from != before || to < from || !keeps(job, p, from, to)) return 11;
        before = to;
    }
    if (before != job->tiles) return 11;
    for (uint32_t p = 0; p < job->machines; p++) {
        uint32_t sum = load_of(job, field(plan + 16 * p), field(plan + 16 * p + 4));
        if (field(plan + 16 * p + 8) != sum || field(plan + 16 * p + 12) != job->speeds[p]) return 13;
        if ((unsigned __int128)sum * speed > load * job->speeds[p]) load = sum, speed = job->speeds[p];
    }
    *grade = load == 0 || !walk(job, load, speed, 0, separators) ? 1 : 2;
    return 0;
}

/* Grades a plan beside a job file whose own number is known, and gives the grade, or 0. */
static uint8_t grades(const struct job *job, const uint8_t *file, size_t len, uint32_t number, const uint8_t *plan, size_t plan_len,
                      size_t room) {
    uint8_t buffer[8], grade = 0;
    memset(buffer, 0xA5, sizeof buffer);
    if (number == 0) number = room == 0 ? 9 : judge_plan(job, plan, plan_len, &grade);
    must(grade_plan(file, len, plan, plan_len, room ? buffer : NULL, room) == number, "grading: a wrong number");
    must(buffer[0] == (number == 0 ? grade : 0xA5), "grading: a wrong grade, or one on refusal");
    for (size_t i = 1; i < sizeof buffer; i++) must(buffer[i] == 0xA5, "grading: a byte that must stay was changed");
    return number == 0 ? grade : 0;
}

static void put(uint8_t *at, uint32_t value) {
    for (int i = 0; i < 4; i++) at[i] = (uint8_t)(value >> (8 * i));
}

/* The separator after machine p moved by one, with true loads, where there is a tile to move. */
static void move(const struct job *job, uint8_t *plan, uint32_t p, int on) {
    if (p + 1 >= job->machines) return;
    uint8_t *here = plan + 16 * p, *next = here + 16;
    uint32_t at = field(here + 4);
    if (on ? at == field(next + 4) : at == field(here)) return;
    uint32_t to = on ? at + 1 : at - 1;
    put(here + 4, to);
    put(next, to);
    put(here + 8, load_of(job, field(here), to));
    put(next + 8, load_of(job, to, field(next + 4)));
}

/* A small change of a plan: gives its new length. There is room for a record more. */
static size_t change(const struct job *job, uint8_t *plan, uint8_t place, uint8_t kind) {
    size_t len = 16 * (size_t)job->machines, at = 4 * (place % (len / 4));
    uint32_t p = place % job->machines;
    switch (kind % 16) {
    case 0: return len;
    case 1: put(plan + at, field(plan + at) + 1); return len;
    case 2: put(plan + at, field(plan + at) - 1); return len;
    case 3: plan[place % len] ^= (uint8_t)(1 << kind / 32); return len;
    case 4: return len - 1 - kind / 16;
    case 5: return len + 1 + kind / 16;
    case 6: put(plan + at, 0); return len;
    case 7: put(plan + at, UINT32_MAX); return len;
    case 8: plan[place % len] ^= 1; plan[(place + kind) % len] ^= 2; return len;
    default:
        for (int times = 0; times < 1 + kind / 64; times++) move(job, plan, p, kind % 2);
        return len;
    }
}

int LLVMFuzzerInitialize(int *argc, char ***argv) {
    (void)argc, (void)argv;
    blocks_watch();
    return 0;
}

int LLVMFuzzerTestOneInput(const uint8_t *data, size_t size) {
    static struct job job;
    static uint8_t plan[PELSHAQU_MAX_PLAN + 256], before[sizeof plan];
    if (size < 4) return 0;
    uint32_t method = data[0] % 6;
    const uint8_t *file = data + 4;
    size_t len = size - 4, tail = data[0] < 128 ? 0 : 16 * (size_t)data[2] + data[3] % 32;
    if (tail > len) tail = len;
    len -= tail;
    size_t records = len / 8 < PELSHAQU_MAX_MACHINES ? len / 8 : PELSHAQU_MAX_MACHINES;
    /* Room for any plan; about the room of a job without tiles; anything from none on. */
    size_t room = 16 * records + data[1] % 32;
    if (data[1] < 128) room = sizeof plan - 64 - data[1];
    else if (data[1] < 192) room = room < 16 ? 0 : room - 16;
    else room = data[1] - 192;
    memset(plan, 0xA5, sizeof plan);
    memset(before, 0xA5, sizeof before);
    uint32_t number = judge(&job, file, len, method, room);
    must(plan_job(file, len, method, plan, room) == number, "a wrong number");
    size_t filled = number == 0 ? 16 * (size_t)job.machines : 0;
    must(memcmp(plan + filled, before + filled, sizeof plan - filled) == 0, "a byte that must stay was changed");
    if (number == 0) {
        best(&job, plan);
        must(grades(&job, file, len, 0, plan, filled, 1) == 1, "the planner's own plan is not graded best");
        size_t changed = change(&job, plan, data[2], data[3]);
        grades(&job, file, len, 0, plan, changed, data[1] % 4);
    }
    /* A refusal of the plan buffer, the method or what the holds add up to is none of grading. */
    number = judge_file(&job, file, len);
    grades(&job, file, len, number, file + len, tail, data[1] % 4);
    return 0;
}
