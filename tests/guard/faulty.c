/* A planner with one fault made on purpose, for tests/faults: linked in front of plan_job, grade_plan and pelshaqu_plan by --wrap. FAULT is its
 * number; what is wrong stands in a comment on the same line. */
#include <stdlib.h>
#include <string.h>

#include "../../include/pelshaqu.h"

#define RECORD PELSHAQU_JOB_RECORD

uint32_t __real_plan_job(const uint8_t *job, size_t job_len, uint32_t method, uint8_t *plan, size_t plan_len);
uint32_t __wrap_plan_job(const uint8_t *job, size_t job_len, uint32_t method, uint8_t *plan, size_t plan_len);

/* Whether a job is of the second edition, and how many machines it has. */
static size_t second(const uint8_t *job, size_t job_len) {
    return job_len >= RECORD && job[0] == PELSHAQU_STARTUP;
}

static size_t row(const uint8_t *job, size_t job_len) {
    size_t n = 0, front = second(job, job_len);
    while (RECORD * (front + n + 1) <= job_len && job[RECORD * (front + n)] == PELSHAQU_MACHINE) n++;
    return n;
}

/* A copy of a job whose holds have only these bits, as far as there is room; the job itself where there is not. */
static const uint8_t *masked(const uint8_t *job, size_t job_len, uint16_t bits) {
    static uint8_t copy[PELSHAQU_MAX_JOB];
    size_t front = second(job, job_len), machines = row(job, job_len);
    if (job_len == 0 || job_len > sizeof copy) return job;
    memcpy(copy, job, job_len);
    for (size_t p = front; p < front + machines; p++) {
        copy[RECORD * p + 2] &= (uint8_t)bits;
        copy[RECORD * p + 3] &= (uint8_t)(bits >> 8);
    }
    return copy;
}

/* What a plan buffer with room for every plan would give. */
static uint32_t with_room(const uint8_t *job, size_t job_len, uint32_t method) {
    static uint8_t room[PELSHAQU_MAX_PLAN];
    return __real_plan_job(job, job_len, method, room, sizeof room);
}

volatile uint8_t seen;
void *volatile lost;

uint32_t __wrap_plan_job(const uint8_t *job, size_t job_len, uint32_t method, uint8_t *plan, size_t plan_len) {
    if (FAULT == 31) job = masked(job, job_len, 0); /* holds left out of account */
    if (FAULT == 32) job = masked(job, job_len, 0xff); /* of a hold the lower byte alone */
    if (FAULT == 33) job = masked(job, job_len, 0xff00); /* of a hold the higher byte alone */
    uint32_t number = __real_plan_job(job, job_len, method, plan, plan_len);
    uint32_t roomy = (FAULT == 34 || FAULT == 35) && number == PELSHAQU_TOO_SHORT ? with_room(job, job_len, method) : 0;
    if (FAULT == 34 && roomy == PELSHAQU_TOO_FEW_PLACES) return roomy; /* 17 before 9 */
    if (FAULT == 35 && roomy == PELSHAQU_NOT_WITH_HOLDS) return roomy; /* 18 before 9 */
    if (FAULT == 36 && number == PELSHAQU_TOO_FEW_PLACES && method == PELSHAQU_NICOL) return PELSHAQU_NOT_WITH_HOLDS; /* 18 before 17 */
    if (FAULT == 37 && number == PELSHAQU_NOT_WITH_HOLDS) /* a plan by method 4 with holds */
        return __real_plan_job(job, job_len, PELSHAQU_BISECTION, plan, plan_len);
    if (FAULT == 38 && number == PELSHAQU_TOO_FEW_PLACES) return PELSHAQU_NO_DIVISION; /* 11 for holds that add up to too little */
    if (FAULT == 1 && number == 0) plan[plan_len] ^= 1; /* a byte past the plan */
    if (FAULT == 2 && number == 0) plan[-1] ^= 1; /* a byte before the plan */
    if (FAULT == 3 && number != 0 && plan_len) plan[0] ^= 1; /* a store on refusal */
    if (FAULT == 4 && number == 0 && plan_len % PELSHAQU_PLAN_RECORD) plan[plan_len - 1] ^= 1; /* a later byte */
    if (FAULT == 5 && job_len) seen = job[job_len]; /* a byte past the job, read only */
    if (FAULT == 6 && number == 0) seen = plan[plan_len]; /* a byte past the plan, read only */
    if (FAULT == 7) seen = plan[0]; /* the plan read where it may be null */
    if (FAULT == 8 && number == PELSHAQU_TOO_SHORT && plan_len % PELSHAQU_PLAN_RECORD == 15) return 0; /* a buffer one short taken */
    if (FAULT == 9 && number == 0) lost = calloc(1, 1); /* memory asked for and lost */
    if (FAULT == 10 && number == 0) plan[8] ^= 1; /* a wrong load */
    if (FAULT == 21 && number == 0 && row(job, job_len) == PELSHAQU_MAX_MACHINES) return PELSHAQU_BAD_ROW; /* the most machines refused */
    if (FAULT == 22 && number == PELSHAQU_BAD_ROW && row(job, job_len) == PELSHAQU_MAX_MACHINES + 1) return 0; /* one machine too many taken */
    if (FAULT == 25 && number == 0 && second(job, job_len)) plan[8] ^= 2; /* a wrong load in the second edition */
    if (FAULT == 26 && number == PELSHAQU_LATE_STARTUP) return PELSHAQU_BAD_RECORD; /* 3 for start-up work in the wrong place */
    if (FAULT == 27 && number == PELSHAQU_BAD_STARTUP) return PELSHAQU_BAD_WEIGHT; /* 6 for start-up work out of range */
    if (FAULT == 28 && number == 0 && job_len == PELSHAQU_MAX_JOB) return PELSHAQU_TOO_MANY_TILES; /* the longest job refused */
    return number;
}

typedef uint32_t grading(const uint8_t *job, size_t job_len, const uint8_t *plan, size_t plan_len, uint8_t *grade, size_t grade_len);
grading __real_grade_plan, __wrap_grade_plan;

uint32_t __wrap_grade_plan(const uint8_t *job, size_t job_len, const uint8_t *plan, size_t plan_len, uint8_t *grade, size_t grade_len) {
    if (FAULT == 39) job = masked(job, job_len, 0); /* grading: holds left out of account */
    if (FAULT == 40) job = masked(job, job_len, 0xff); /* grading: of a hold the lower byte alone */
    uint32_t number = __real_grade_plan(job, job_len, plan, plan_len, grade, grade_len);
    uint32_t planned = FAULT == 41 && number == PELSHAQU_NO_DIVISION ? with_room(job, job_len, PELSHAQU_TABLE) : 0;
    if (FAULT == 41 && planned == PELSHAQU_TOO_FEW_PLACES) return planned; /* grading: 17 for holds that add up to too little */
    if (FAULT == 11 && number == 0) grade[grade_len] ^= 1; /* grading: a byte past the grade buffer */
    if (FAULT == 12 && number == 0) grade[-1] ^= 1; /* grading: a byte before the grade buffer */
    if (FAULT == 13 && number != 0 && grade_len) grade[0] = PELSHAQU_VALID; /* grading: a grade on refusal */
    if (FAULT == 14 && number == 0 && grade_len > 1) grade[1] = 0; /* grading: a later byte of the grade buffer */
    if (FAULT == 15 && plan_len) seen = plan[plan_len]; /* grading: a byte past the plan, read only */
    if (FAULT == 16 && job_len) seen = job[job_len]; /* grading: a byte past the job, read only */
    if (FAULT == 17) seen = plan[0]; /* grading: the plan read where it may be null */
    if (FAULT == 18 && number == 0) *(uint8_t *)plan ^= 1; /* grading: the plan changed */
    if (FAULT == 19 && number == 0) grade[0] ^= 3; /* grading: best and valid exchanged */
    if (FAULT == 20 && number == PELSHAQU_TOO_SHORT) return PELSHAQU_BAD_PLAN_LENGTH; /* grading: 12 for a grade buffer of no bytes */
    if (FAULT == 23 && number == 0 && row(job, job_len) == PELSHAQU_MAX_MACHINES) return PELSHAQU_BAD_ROW; /* grading: the most machines refused */
    if (FAULT == 24 && number == PELSHAQU_BAD_ROW && row(job, job_len) == PELSHAQU_MAX_MACHINES + 1) /* grading: one machine too many taken */
        return 0;
    if (FAULT == 29 && number == 0 && second(job, job_len)) grade[0] = PELSHAQU_BEST; /* grading: best always in the second edition */
    if (FAULT == 30 && number == PELSHAQU_UNTRUE_PLAN && second(job, job_len)) { /* grading: loads not compared in the second edition */
        grade[0] = PELSHAQU_VALID;
        return 0;
    }
    return number;
}

typedef uint32_t by_lists(uint32_t method, bool edition, uint32_t startup, const uint32_t *speeds, size_t speeds_len, const uint16_t *holds,
                          size_t holds_len, const uint32_t *weights, size_t weights_len, uint32_t *separators, size_t separators_len,
                          uint32_t *work, size_t work_len, uint64_t *answer, size_t answer_len);
by_lists __real_pelshaqu_plan, __wrap_pelshaqu_plan;

uint32_t __wrap_pelshaqu_plan(uint32_t method, bool edition, uint32_t startup, const uint32_t *speeds, size_t speeds_len, const uint16_t *holds,
                              size_t holds_len, const uint32_t *weights, size_t weights_len, uint32_t *separators, size_t separators_len,
                              uint32_t *work, size_t work_len, uint64_t *answer, size_t answer_len) {
    uint32_t number = __real_pelshaqu_plan(method, edition, startup, speeds, speeds_len, holds, holds_len, weights, weights_len, separators,
                                           separators_len, work, work_len, answer, answer_len);
    size_t needed = PELSHAQU_WORK(weights_len);
    if (FAULT == 42 && number != 0 && answer_len) answer[0] ^= 1; /* by lists: an answer on refusal */
    if (FAULT == 43 && number == 0 && answer_len > PELSHAQU_PLAN_ANSWERS) /* by lists: a later entry of the answer */
        answer[PELSHAQU_PLAN_ANSWERS] ^= 1;
    if (FAULT == 44 && number == 0) seen = (uint8_t)answer[0]; /* by lists: the answer read where it may be null */
    if (FAULT == 45 && number == 0 && answer_len) answer[answer_len - 1] ^= 1; /* by lists: a wrong last figure, or one that must stay */
    if (FAULT == 46 && number == 0) separators[separators_len] ^= 1; /* by lists: an entry past the separators */
    if (FAULT == 47 && number != 0 && separators_len) separators[0] ^= 1; /* by lists: a separator on refusal */
    if (FAULT == 48 && number == 0 && work_len > needed) work[needed] ^= 1; /* by lists: a later work number */
    if (FAULT == 49 && number == 0) seen = (uint8_t)weights[weights_len]; /* by lists: an entry past the weights, read only */
    if (FAULT == 50 && number == 0) seen = (uint8_t)holds[holds_len]; /* by lists: an entry past the holds, read only */
    if (FAULT == 51 && number == 0 && answer_len < PELSHAQU_PLAN_ANSWERS) return PELSHAQU_TOO_SHORT; /* by lists: 9 for a short answer */
    return number;
}
