/* A scheduling host: plans job A of the documents by each method, prints the plan and its grade, grades a plan from elsewhere, plans
 * the same job with start-up work and with a hold, then shows refusals. */
#include <stdio.h>
#include <string.h>

#include "../../include/pelshaqu.h"

/* Plans a job of two machines by a method and prints the plan; whether it was accepted. */
static int print_plan(const uint8_t *job, size_t job_len, uint32_t method, uint8_t plan[2 * PELSHAQU_PLAN_RECORD]) {
    uint32_t number = plan_job(job, job_len, method, plan, 2 * PELSHAQU_PLAN_RECORD);
    if (number != PELSHAQU_ACCEPTED) {
        printf("method %u: refused %u, %s\n", method, number, pelshaqu_refusal_text(number));
        return 0;
    }
    for (unsigned p = 0; p < 2; p++) {
        struct pelshaqu_share share = pelshaqu_read_share(plan, p);
        printf("method %u machine %u tiles %u to %u load %u speed %u\n", method, p + 1, share.before + 1, share.after, share.load, share.speed);
    }
    return 1;
}

/* Grades a plan and prints the answer. */
static void print_grade(const char *name, const uint8_t *job, size_t job_len, const uint8_t *plan, size_t plan_len) {
    uint8_t grade;
    uint32_t number = grade_plan(job, job_len, plan, plan_len, &grade, 1);
    if (number != PELSHAQU_ACCEPTED) {
        printf("%s: refused %u\n", name, number);
    } else {
        printf("%s: %s\n", name, grade == PELSHAQU_BEST ? "best" : grade == PELSHAQU_VALID ? "valid" : "no grade");
    }
}

int main(void) {
    uint8_t job[5 * PELSHAQU_JOB_RECORD];
    uint8_t plan[2 * PELSHAQU_PLAN_RECORD];
    size_t n = 0;
    n += pelshaqu_put_machine(job + n, 1, 0); /* two machines, of speed 1 and 3, without a limit */
    n += pelshaqu_put_machine(job + n, 3, 0);
    n += pelshaqu_put_tile(job + n, 1); /* three tiles, of weight 1, 3 and 8 */
    n += pelshaqu_put_tile(job + n, 3);
    n += pelshaqu_put_tile(job + n, 8);
    for (uint32_t method = PELSHAQU_TABLE; method <= PELSHAQU_NICOL; method++) {
        if (!print_plan(job, n, method, plan)) return 1;
        print_grade("its grade", job, n, plan, sizeof plan);
    }
    /* A plan of another maker: the first machine takes two tiles, which weigh 4, the second one takes the third, which weighs 8. */
    uint8_t other[2 * PELSHAQU_PLAN_RECORD] = {0, 0, 0, 0, 2, 0, 0, 0, 4, 0, 0, 0, 1, 0, 0, 0, 2, 0, 0, 0, 3, 0, 0, 0, 8, 0, 0, 0, 3, 0, 0, 0};
    print_grade("a plan of another maker", job, n, other, sizeof other);
    other[8] = 5;
    print_grade("with an untrue load", job, n, other, sizeof other);
    other[4] = 1;
    print_grade("with a gap", job, n, other, sizeof other);
    print_grade("cut off", job, n, other, sizeof other - 1);
    /* The same job in the second edition, with start-up work 2: a record of kind 3 in front. */
    uint8_t second[6 * PELSHAQU_JOB_RECORD];
    memcpy(second + pelshaqu_put_startup(second, 2), job, n);
    printf("with start-up work 2:\n");
    if (!print_plan(second, sizeof second, PELSHAQU_BISECTION, plan)) return 1;
    print_grade("its grade", second, sizeof second, plan, sizeof plan);
    print_grade("that plan without start-up work", job, n, plan, sizeof plan);
    /* Job A where the second machine holds one tile. That is job S of the documents. */
    uint8_t held[5 * PELSHAQU_JOB_RECORD];
    memcpy(held, job, n);
    pelshaqu_put_machine(held + PELSHAQU_JOB_RECORD, 3, 1);
    printf("with hold 1 on machine 2:\n");
    if (!print_plan(held, n, PELSHAQU_BISECTION, plan)) return 1;
    print_grade("its grade", held, n, plan, sizeof plan);
    if (plan_job(job, n, PELSHAQU_BISECTION, plan, sizeof plan) != PELSHAQU_ACCEPTED) return 1;
    print_grade("the plan without holds", held, n, plan, sizeof plan);
    printf("by method 4: refused %u\n", plan_job(held, n, PELSHAQU_NICOL, plan, sizeof plan));
    pelshaqu_put_machine(held, 1, 1);
    printf("with hold 1 on both machines: refused %u\n", plan_job(held, n, PELSHAQU_TABLE, plan, sizeof plan));
    held[1] = 1;
    printf("with byte 1 not zero: refused %u\n", plan_job(held, n, PELSHAQU_TABLE, plan, sizeof plan));
    pelshaqu_put_startup(second, PELSHAQU_MAX_STARTUP + 1);
    printf("start-up work out of range: refused %u\n", plan_job(second, sizeof second, PELSHAQU_TABLE, plan, sizeof plan));
    memcpy(second, job, n);
    pelshaqu_put_startup(second + n, 2);
    printf("start-up work behind the tiles: refused %u\n", plan_job(second, sizeof second, PELSHAQU_TABLE, plan, sizeof plan));
    printf("a plan buffer one byte short: refused %u\n", plan_job(job, n, PELSHAQU_TABLE, plan, sizeof plan - 1));
    printf("a file of 7 bytes: refused %u\n", plan_job(job, PELSHAQU_JOB_RECORD - 1, PELSHAQU_TABLE, plan, sizeof plan));
    return 0;
}
