/* A planner with one fault made on purpose, for tests/faults: linked in front of plan_job and grade_plan by --wrap. FAULT is its number. */
#include <stdlib.h>
#include <string.h>

#include "../../include/pelshaqu.h"

uint32_t __real_plan_job(const uint8_t *job, size_t job_len, uint32_t method, uint8_t *plan, size_t plan_len);
uint32_t __wrap_plan_job(const uint8_t *job, size_t job_len, uint32_t method, uint8_t *plan, size_t plan_len);

/* Whether a job is of the second edition, and how many machines it has. */
static size_t second(const uint8_t *job, size_t job_len) {
    return job_len >= 8 && job[0] == 3;
}

static size_t row(const uint8_t *job, size_t job_len) {
    size_t n = 0, front = second(job, job_len);
    while (8 * (front + n) + 8 <= job_len && job[8 * (front + n)] == 1) n++;
    return n;
}

/* A copy of a job whose holds have only these bits, as far as there is room; the job itself where there is not. */
static const uint8_t *masked(const uint8_t *job, size_t job_len, uint16_t bits) {
    static uint8_t copy[PELSHAQU_MAX_JOB];
    size_t front = second(job, job_len), machines = row(job, job_len);
    if (job_len == 0 || job_len > sizeof copy) return job;
    memcpy(copy, job, job_len);
    for (size_t p = front; p < front + machines; p++) {
        copy[8 * p + 2] &= (uint8_t)bits;
        copy[8 * p + 3] &= (uint8_t)(bits >> 8);
    }
    return copy;
}

/* What a plan buffer with room for every plan would give. */
static uint32_t with_room(const uint8_t *job, size_t job_len, uint32_t method) {
    static uint8_t room[PELSHAQU_MAX_PLAN];
    return __real_plan_job(job, job_len, method, room, sizeof room);
}

volatile uint8_t seen;
void *volatile lost;

uint32_t __wrap_plan_job(const uint8_t *job, size_t job_len, uint32_t method, uint8_t *plan, size_t plan_len) {
    if (FAULT == 31) job = masked(job, job_len, 0);                                             /* holds left out of account */
    if (FAULT == 32) job = masked(job, job_len, 0xff);                                          /* of a hold the lower byte alone */
    if (FAULT == 33) job = masked(job, job_len, 0xff00);                                        /* of a hold the higher byte alone */
    uint32_t number = __real_plan_job(job, job_len, method, plan, plan_len);
    if (FAULT == 34 && number == 9 && with_room(job, job_len, method) == 17) return 17;         /* 17 before 9 */
    if (FAULT == 35 && number == 9 && with_room(job, job_len, method) == 18) return 18;         /* 18 before 9 */
    if (FAULT == 36 && number == 17 && method == 4) return 18;                                  /* 18 before 17 */
    if (FAULT == 37 && number == 18) return __real_plan_job(job, job_len, 3, plan, plan_len);   /* a plan by method 4 with holds */
    if (FAULT == 38 && number == 17) return 11;                                                 /* 11 for holds that add up to too little */
    if (FAULT == 1 && number == 0) plan[plan_len] ^= 1;            /* a byte past the plan */
    if (FAULT == 2 && number == 0) plan[-1] ^= 1;                  /* a byte before the plan */
    if (FAULT == 3 && number != 0 && plan_len) plan[0] ^= 1;       /* a store on refusal */
    if (FAULT == 4 && number == 0 && plan_len % 16) plan[plan_len - 1] ^= 1; /* a later byte */
    if (FAULT == 5 && job_len) seen = job[job_len];                /* a byte past the job, read only */
    if (FAULT == 6 && number == 0) seen = plan[plan_len];          /* a byte past the plan, read only */
    if (FAULT == 7) seen = plan[0];                                /* the plan read where it may be null */
    if (FAULT == 8 && number == 9 && plan_len % 16 == 15) return 0; /* a buffer one short taken */
    if (FAULT == 9 && number == 0) lost = calloc(1, 1);            /* memory asked for and lost */
    if (FAULT == 10 && number == 0) plan[8] ^= 1;                  /* a wrong load */
    if (FAULT == 21 && number == 0 && row(job, job_len) == PELSHAQU_MAX_MACHINES) return 7;     /* the most machines refused */
    if (FAULT == 22 && number == 7 && row(job, job_len) == PELSHAQU_MAX_MACHINES + 1) return 0; /* one machine too many taken */
    if (FAULT == 25 && number == 0 && second(job, job_len)) plan[8] ^= 2;                       /* a wrong load in the second edition */
    if (FAULT == 26 && number == 15) return 3;                                                  /* 3 for start-up work in the wrong place */
    if (FAULT == 27 && number == 16) return 6;                                                  /* 6 for start-up work out of range */
    if (FAULT == 28 && number == 0 && job_len == 8 * (size_t)(1 + PELSHAQU_MAX_MACHINES + PELSHAQU_MAX_TILES)) return 8; /* the longest job refused */
    return number;
}

typedef uint32_t grading(const uint8_t *job, size_t job_len, const uint8_t *plan, size_t plan_len, uint8_t *grade, size_t grade_len);
grading __real_grade_plan, __wrap_grade_plan;

uint32_t __wrap_grade_plan(const uint8_t *job, size_t job_len, const uint8_t *plan, size_t plan_len, uint8_t *grade, size_t grade_len) {
    if (FAULT == 39) job = masked(job, job_len, 0);                /* grading: holds left out of account */
    if (FAULT == 40) job = masked(job, job_len, 0xff);             /* grading: of a hold the lower byte alone */
    uint32_t number = __real_grade_plan(job, job_len, plan, plan_len, grade, grade_len);
    if (FAULT == 41 && number == 11 && with_room(job, job_len, 1) == 17) return 17;             /* grading: 17 for holds that add up to too little */
    if (FAULT == 11 && number == 0) grade[grade_len] ^= 1;         /* grading: a byte past the grade buffer */
    if (FAULT == 12 && number == 0) grade[-1] ^= 1;                /* grading: a byte before the grade buffer */
    if (FAULT == 13 && number != 0 && grade_len) grade[0] = 2;     /* grading: a grade on refusal */
    if (FAULT == 14 && number == 0 && grade_len > 1) grade[1] = 0; /* grading: a later byte of the grade buffer */
    if (FAULT == 15 && plan_len) seen = plan[plan_len];            /* grading: a byte past the plan, read only */
    if (FAULT == 16 && job_len) seen = job[job_len];               /* grading: a byte past the job, read only */
    if (FAULT == 17) seen = plan[0];                               /* grading: the plan read where it may be null */
    if (FAULT == 18 && number == 0) *(uint8_t *)plan ^= 1;         /* grading: the plan changed */
    if (FAULT == 19 && number == 0) grade[0] ^= 3;                 /* grading: best and valid exchanged */
    if (FAULT == 20 && number == 9) return 12;                     /* grading: 12 for a grade buffer of no bytes */
    if (FAULT == 23 && number == 0 && row(job, job_len) == PELSHAQU_MAX_MACHINES) return 7;     /* grading: the most machines refused */
    if (FAULT == 24 && number == 7 && row(job, job_len) == PELSHAQU_MAX_MACHINES + 1) return 0; /* grading: one machine too many taken */
    if (FAULT == 29 && number == 0 && second(job, job_len)) grade[0] = 1;                       /* grading: best always in the second edition */
    if (FAULT == 30 && number == 13 && second(job, job_len)) { grade[0] = 2; return 0; }        /* grading: loads not compared in the second edition */
    return number;
}
