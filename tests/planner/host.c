/* A scheduling host: plans job A of the documents by each method, prints the plan and its grade, grades a plan from elsewhere, plans
 * the same job with start-up work and with a hold, then shows refusals. */
#include <stdio.h>
#include <string.h>

#include "../../include/pelshaqu.h"

static size_t put(uint8_t *at, uint8_t kind, uint32_t value) {
    memset(at, 0, PELSHAQU_JOB_RECORD);
    at[0] = kind;
    for (int i = 0; i < 4; i++) at[4 + i] = (uint8_t)(value >> (8 * i));
    return PELSHAQU_JOB_RECORD;
}

/* Gives a machine's record its hold, the most tiles that it can take; 0 is no limit. */
static void put_hold(uint8_t *at, uint16_t hold) {
    at[2] = (uint8_t)hold;
    at[3] = (uint8_t)(hold >> 8);
}

static uint32_t field(const uint8_t *at) {
    return (uint32_t)at[0] | (uint32_t)at[1] << 8 | (uint32_t)at[2] << 16 | (uint32_t)at[3] << 24;
}

/* Plans a job of two machines by a method and prints the plan; whether it was accepted. */
static int print_plan(const uint8_t *job, size_t job_len, uint32_t method, uint8_t plan[2 * PELSHAQU_PLAN_RECORD]) {
    uint32_t number = plan_job(job, job_len, method, plan, 2 * PELSHAQU_PLAN_RECORD);
    if (number != 0) {
        printf("method %u: refused %u\n", method, number);
        return 0;
    }
    for (int p = 0; p < 2; p++) {
        const uint8_t *record = plan + PELSHAQU_PLAN_RECORD * p;
        printf("method %u machine %d tiles %u to %u load %u speed %u\n", method, p + 1, field(record) + 1, field(record + 4),
               field(record + 8), field(record + 12));
    }
    return 1;
}

/* Grades a plan and prints the answer. */
static void print_grade(const char *name, const uint8_t *job, size_t job_len, const uint8_t *plan, size_t plan_len) {
    uint8_t grade;
    uint32_t number = grade_plan(job, job_len, plan, plan_len, &grade, 1);
    if (number != 0) {
        printf("%s: refused %u\n", name, number);
    } else {
        printf("%s: %s\n", name, grade == PELSHAQU_BEST ? "best" : grade == PELSHAQU_VALID ? "valid" : "no grade");
    }
}

int main(void) {
    uint8_t job[5 * PELSHAQU_JOB_RECORD];
    uint8_t plan[2 * PELSHAQU_PLAN_RECORD];
    size_t n = 0;
    n += put(job + n, PELSHAQU_MACHINE, 1); /* two machines, of speed 1 and 3 */
    n += put(job + n, PELSHAQU_MACHINE, 3);
    n += put(job + n, PELSHAQU_TILE, 1); /* three tiles, of weight 1, 3 and 8 */
    n += put(job + n, PELSHAQU_TILE, 3);
    n += put(job + n, PELSHAQU_TILE, 8);
    for (uint32_t method = PELSHAQU_TABLE; method <= PELSHAQU_NICOL; method++) {
        if (!print_plan(job, n, method, plan)) return 1;
        print_grade("its grade", job, n, plan, sizeof plan);
    }
    /* A plan of another maker: the first machine takes two tiles, which weigh 4, the second one takes the third, which weighs 8. */
    uint8_t other[2 * PELSHAQU_PLAN_RECORD] = {0, 0, 0, 0, 2, 0, 0, 0, 4, 0, 0, 0, 1, 0, 0, 0, 2, 0, 0, 0, 3, 0, 0, 0, 8, 0, 0, 0, 3, 0, 0, 0};
    print_grade("a plan of another maker", job, n, other, sizeof other);
    other[8] = 5;
    print_grade("with an untrue load", job, n, other, sizeof other);
    other[4] = 1;
    print_grade("with a gap", job, n, other, sizeof other);
    print_grade("cut off", job, n, other, sizeof other - 1);
    /* The same job in the second edition, with start-up work 2: a record of kind 3 in front. */
    uint8_t second[6 * PELSHAQU_JOB_RECORD];
    memcpy(second + put(second, PELSHAQU_STARTUP, 2), job, n);
    printf("with start-up work 2:\n");
    if (!print_plan(second, sizeof second, PELSHAQU_BISECTION, plan)) return 1;
    print_grade("its grade", second, sizeof second, plan, sizeof plan);
    print_grade("that plan without start-up work", job, n, plan, sizeof plan);
    /* Job A where the second machine holds one tile: bytes 2 and 3 of its record. That is job S of the documents. */
    uint8_t held[5 * PELSHAQU_JOB_RECORD];
    memcpy(held, job, n);
    put_hold(held + PELSHAQU_JOB_RECORD, 1);
    printf("with hold 1 on machine 2:\n");
    if (!print_plan(held, n, PELSHAQU_BISECTION, plan)) return 1;
    print_grade("its grade", held, n, plan, sizeof plan);
    if (plan_job(job, n, PELSHAQU_BISECTION, plan, sizeof plan) != 0) return 1;
    print_grade("the plan without holds", held, n, plan, sizeof plan);
    printf("by method 4: refused %u\n", plan_job(held, n, PELSHAQU_NICOL, plan, sizeof plan));
    put_hold(held, 1);
    printf("with hold 1 on both machines: refused %u\n", plan_job(held, n, PELSHAQU_TABLE, plan, sizeof plan));
    held[1] = 1;
    printf("with byte 1 not zero: refused %u\n", plan_job(held, n, PELSHAQU_TABLE, plan, sizeof plan));
    put(second, PELSHAQU_STARTUP, PELSHAQU_MAX_STARTUP + 1);
    printf("start-up work out of range: refused %u\n", plan_job(second, sizeof second, PELSHAQU_TABLE, plan, sizeof plan));
    memcpy(second, job, n);
    put(second + n, PELSHAQU_STARTUP, 2);
    printf("start-up work behind the tiles: refused %u\n", plan_job(second, sizeof second, PELSHAQU_TABLE, plan, sizeof plan));
    printf("a plan buffer one byte short: refused %u\n", plan_job(job, n, PELSHAQU_TABLE, plan, sizeof plan - 1));
    printf("a file of 7 bytes: refused %u\n", plan_job(job, 7, PELSHAQU_TABLE, plan, sizeof plan));
    return 0;
}
