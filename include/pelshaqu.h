/*
 * Pelshaqu: the best division of a row of tiles among a row of machines.
 *
 * Link with what `pkg-config --cflags --libs pelshaqu` says once the library is installed, or with the archive that `make`
 * writes, target/staticlib/libpelshaqu.a. It needs memcpy and memset of libc and nothing else.
 *
 * A host that has a function plan_job or grade_plan of its own defines PELSHAQU_PREFIXED before it includes this header, and calls these two by
 * their names with the prefix. It links the shared library, or a copy of the archive in which its own names go first:
 * objcopy --weaken-symbol=plan_job --weaken-symbol=grade_plan libpelshaqu.a own.a
 *
 * Of every call:
 *
 * - It returns 0, or the number of a refusal: the first test that fails, in the order that its comment gives. A refusal changes nothing
 *   that was lent. docs/REFUSALS.md says more about each number, docs/API.md about each call.
 * - It asks nothing of its caller but true pointers and lengths. A list or buffer is a pointer, then its length in entries. A pointer may
 *   be NULL where its length is 0. A list of 16-, 32- or 64-bit numbers is aligned as C aligns them; bytes need no alignment.
 * - What is lent for writing must not overlap with anything else that is lent in the same call.
 * - A list or buffer may be longer than it need be: what lies behind the entries that the call speaks of is not looked at and stays. The
 *   exceptions are the bytes of a file, which are the whole file, and the lists of speeds and weights, whose lengths are the job's.
 * - `answer` takes the figures of an accepted call, one number an entry. Entries that do not fit are dropped, so NULL with 0 will do where
 *   the figures are not wanted. Entries behind them stay, and on refusal all do.
 * - It keeps no state, asks for no memory and may run in several threads at once. The stack that it takes is measured; some 3 KB come on top
 *   where the dynamic linker binds memset or memcpy during the call, as it may at its first use in a process.
 */
#ifndef PELSHAQU_H
#define PELSHAQU_H

#include <stddef.h>
#include <stdint.h>
#ifndef __cplusplus
#include <stdbool.h>
#endif

#ifdef __cplusplus
extern "C" {
#endif

/* The methods. All four give the same plan; they differ in the work that they do. If unsure: bisection. Nicol's search is for jobs without
 * holds, as are the two quick plans. */
#define PELSHAQU_TABLE 1
#define PELSHAQU_BIDDING 2
#define PELSHAQU_BISECTION 3
#define PELSHAQU_NICOL 4

/* The kinds of the records of a job file. */
#define PELSHAQU_MACHINE 1
#define PELSHAQU_TILE 2
#define PELSHAQU_STARTUP 3

/* The editions of a job, as reading answers them. A job of the second edition has start-up work. */
#define PELSHAQU_FIRST_EDITION 1
#define PELSHAQU_SECOND_EDITION 2

/* The grades of a plan. */
#define PELSHAQU_BEST 1
#define PELSHAQU_VALID 2

/* What a trial answers first. */
#define PELSHAQU_FAILS 0
#define PELSHAQU_FITS 1

/* The limits of a job: its machines (at least 1) and tiles, the speed of a machine (at least 1), its hold, which is 0 for no limit, the
 * weight of a tile, the start-up work. The limits of a lent bound: its load, and its speed (at least 1). */
#define PELSHAQU_MAX_MACHINES 96
#define PELSHAQU_MAX_TILES 2048
#define PELSHAQU_MAX_SPEED 10000
#define PELSHAQU_MAX_HOLD 65535
#define PELSHAQU_MAX_WEIGHT 1000000
#define PELSHAQU_MAX_STARTUP 1000000
#define PELSHAQU_MAX_BOUND_LOAD UINT64_C(100000000000000)
#define PELSHAQU_MAX_BOUND_SPEED UINT64_C(1000000000)

/* The bytes of a record; of the longest job file (of the second edition, which has one record more), of the longest plan, and of the buffer
 * that a listing wants. */
#define PELSHAQU_JOB_RECORD 8
#define PELSHAQU_PLAN_RECORD 16
#define PELSHAQU_MAX_JOB (PELSHAQU_JOB_RECORD * (1 + PELSHAQU_MAX_MACHINES + PELSHAQU_MAX_TILES))
#define PELSHAQU_MAX_PLAN (PELSHAQU_PLAN_RECORD * PELSHAQU_MAX_MACHINES)
#define PELSHAQU_LISTING 8736

/* The separators of so many machines, and the work numbers that a plan of so many tiles wants; the most of either. */
#define PELSHAQU_SEPARATORS(machines) ((machines) + 1)
#define PELSHAQU_WORK(tiles) (5 * ((tiles) + 1))
#define PELSHAQU_MAX_SEPARATORS PELSHAQU_SEPARATORS(PELSHAQU_MAX_MACHINES)
#define PELSHAQU_MAX_WORK PELSHAQU_WORK(PELSHAQU_MAX_TILES)

/* The entries of each call's `answer`; no call has more than the last. */
#define PELSHAQU_READ_JOB_ANSWERS 4
#define PELSHAQU_WRITE_JOB_ANSWERS 1
#define PELSHAQU_LIST_JOB_ANSWERS 1
#define PELSHAQU_MEASURE_ANSWERS 2
#define PELSHAQU_TRIAL_ANSWERS 3
#define PELSHAQU_QUICK_PLAN_ANSWERS 2
#define PELSHAQU_HALVE_ROW_ANSWERS 2
#define PELSHAQU_PLAN_ANSWERS 5
#define PELSHAQU_WRITE_PLAN_ANSWERS 1
#define PELSHAQU_GRADE_ANSWERS 1
#define PELSHAQU_MAX_ANSWERS 5

/* The refusals by their numbers; pelshaqu_refusal_text has what each means. */
#define PELSHAQU_ACCEPTED 0
#define PELSHAQU_BAD_METHOD 1
#define PELSHAQU_BAD_LENGTH 2
#define PELSHAQU_BAD_RECORD 3
#define PELSHAQU_LATE_MACHINE 4
#define PELSHAQU_BAD_SPEED 5
#define PELSHAQU_BAD_WEIGHT 6
#define PELSHAQU_BAD_ROW 7
#define PELSHAQU_TOO_MANY_TILES 8
#define PELSHAQU_TOO_SHORT 9
#define PELSHAQU_BAD_BOUND 10
#define PELSHAQU_NO_DIVISION 11
#define PELSHAQU_BAD_PLAN_LENGTH 12
#define PELSHAQU_UNTRUE_PLAN 13
#define PELSHAQU_CANNOT_HALVE 14
#define PELSHAQU_LATE_STARTUP 15
#define PELSHAQU_BAD_STARTUP 16
#define PELSHAQU_TOO_FEW_PLACES 17
#define PELSHAQU_NOT_WITH_HOLDS 18

/* What a refusal means, in short: the words of docs/REFUSALS.md. */
static inline const char *pelshaqu_refusal_text(uint32_t number) {
    switch (number) {
    case PELSHAQU_ACCEPTED: return "accepted";
    case PELSHAQU_BAD_METHOD: return "the method is not 1 to 4";
    case PELSHAQU_BAD_LENGTH: return "the file's length is not a multiple of 8";
    case PELSHAQU_BAD_RECORD: return "a kind other than 1, 2 or 3, or a byte not zero that has to be";
    case PELSHAQU_LATE_MACHINE: return "a machine after a tile";
    case PELSHAQU_BAD_SPEED: return "a speed out of range";
    case PELSHAQU_BAD_WEIGHT: return "a weight out of range";
    case PELSHAQU_BAD_ROW: return "no machine, or more than 96";
    case PELSHAQU_TOO_MANY_TILES: return "more than 2,048 tiles";
    case PELSHAQU_TOO_SHORT: return "a lent list or buffer is too short";
    case PELSHAQU_BAD_BOUND: return "the lent bound is out of range";
    case PELSHAQU_NO_DIVISION: return "no division, or a record that does not begin where the one before ends";
    case PELSHAQU_BAD_PLAN_LENGTH: return "the plan file's length is not 16 bytes a machine";
    case PELSHAQU_UNTRUE_PLAN: return "a load or a speed of the plan file is untrue";
    case PELSHAQU_CANNOT_HALVE:
        return "speeds that are not all equal, or a number of machines that is no power of two, where a row is to be halved";
    case PELSHAQU_LATE_STARTUP: return "a record of kind 3 stands behind the first record";
    case PELSHAQU_BAD_STARTUP: return "the start-up work is out of range";
    case PELSHAQU_TOO_FEW_PLACES: return "the holds are all limited and add up to less than the tiles";
    case PELSHAQU_NOT_WITH_HOLDS: return "method 4 or a quick plan on a job with holds";
    default: return "no such refusal";
    }
}

/* Puts a record of a job file, from its parts, and gives the bytes put, 8. The numbers go in as they are: a call makes the tests. */
static inline size_t pelshaqu_put_record(uint8_t *at, uint8_t kind, uint16_t hold, uint32_t value) {
    at[0] = kind;
    at[1] = 0;
    at[2] = (uint8_t)(hold & 255);
    at[3] = (uint8_t)(hold >> 8);
    at[4] = (uint8_t)(value & 255);
    at[5] = (uint8_t)(value >> 8 & 255);
    at[6] = (uint8_t)(value >> 16 & 255);
    at[7] = (uint8_t)(value >> 24);
    return PELSHAQU_JOB_RECORD;
}

/* A machine with its speed and its hold, the most tiles that it can take, 0 for no limit. */
static inline size_t pelshaqu_put_machine(uint8_t *at, uint32_t speed, uint16_t hold) {
    return pelshaqu_put_record(at, PELSHAQU_MACHINE, hold, speed);
}

/* A tile with its weight. Tiles come behind all machines. */
static inline size_t pelshaqu_put_tile(uint8_t *at, uint32_t weight) {
    return pelshaqu_put_record(at, PELSHAQU_TILE, 0, weight);
}

/* The start-up work of a job of the second edition: the first record of its file. */
static inline size_t pelshaqu_put_startup(uint8_t *at, uint32_t startup) {
    return pelshaqu_put_record(at, PELSHAQU_STARTUP, 0, startup);
}

/* A 32-bit little-endian field. */
static inline uint32_t pelshaqu_read_field(const uint8_t *at) {
    return (uint32_t)at[0] | (uint32_t)at[1] << 8 | (uint32_t)at[2] << 16 | (uint32_t)at[3] << 24;
}

/* The share of a machine: the separator before its tiles and the one after them, their load, its speed. It takes the tiles before + 1 to
 * after, counted from 1; none where the two are equal. */
struct pelshaqu_share {
    uint32_t before, after, load, speed;
};

/* Reads the share of a machine from a plan file; machine 0 is the first. */
static inline struct pelshaqu_share pelshaqu_read_share(const uint8_t *plan, size_t machine) {
    const uint8_t *at = plan + PELSHAQU_PLAN_RECORD * machine;
    struct pelshaqu_share share;
    share.before = pelshaqu_read_field(at);
    share.after = pelshaqu_read_field(at + 4);
    share.load = pelshaqu_read_field(at + 8);
    share.speed = pelshaqu_read_field(at + 12);
    return share;
}

/*
 * Plans a job file by a method and writes its plan file.
 *
 * job, job_len    a job file: 8-byte records without a header, little-endian. Byte 0 is the kind (1 machine, 2 tile, 3 start-up
 *                 work), bytes 4 to 7 are the speed (1 to 10,000), the weight (0 to 1,000,000) or the start-up work (0 to
 *                 1,000,000). Bytes 2 and 3 of a machine are its hold, the most tiles that it can take, 0 for no limit; bytes 2 and
 *                 3 of the other kinds and byte 1 of each are zero. Machines come before tiles: 1 to 96 machines, then 0 to 2,048
 *                 tiles. A job whose first record has kind 3 is of the second edition: each machine that has tiles does that work
 *                 before its first one. A record of kind 3 may stand nowhere else; a job that has none is of the first edition.
 * method          1 table, 2 bidding, 3 bisection, 4 Nicol's search. If unsure: bisection. With a hold that is not 0 it is 1, 2 or 3.
 * plan, plan_len  the buffer for the plan: a 16-byte record a machine, four 32-bit little-endian fields: the separator before
 *                 the machine's tiles, the separator after them, their load (their weight, and the start-up work where there are
 *                 tiles), the machine's speed. Machine p takes the tiles from the first field plus 1 to the second field. The
 *                 first 16 bytes a machine are filled, later bytes stay.
 *
 * Returns 0, or the number of the refusal; a refusal changes nothing. They are tested in this order:
 *    1  the method is not 1 to 4
 *    2  the file's length is not a multiple of 8
 *    3  a kind other than 1, 2 or 3, or a byte not zero that has to be   } record by record from the front,
 *    4  a machine after a tile                                           } in this order within a record
 *   15  a record of kind 3 stands behind the first record                }
 *    5  a speed out of range                                             }
 *    6  a weight out of range                                            }
 *   16  the start-up work is out of range                                }
 *    7  no machine, or more than 96
 *    8  more than 2,048 tiles
 *    9  a lent list or buffer is too short
 *       (here the plan buffer, which needs 16 bytes a machine)
 *   17  the holds are all limited and add up to less than the tiles
 *   18  method 4 or a quick plan on a job with holds
 *       (here method 4)
 *
 * No division of the job has a smaller bottleneck (the greatest load / speed of a machine), and of all best divisions this is
 * the one whose separators are furthest along. In a division a machine whose hold is not 0 takes at most so many tiles.
 *
 * Takes at most 53 KB of stack. pelshaqu_plan_job is the same call.
 */
#ifndef PELSHAQU_PREFIXED
uint32_t plan_job(const uint8_t *job, size_t job_len, uint32_t method, uint8_t *plan, size_t plan_len);
#endif
uint32_t pelshaqu_plan_job(const uint8_t *job, size_t job_len, uint32_t method, uint8_t *plan, size_t plan_len);

/*
 * Grades a plan file of any maker beside its job file.
 *
 * job, job_len      a job file, as above.
 * plan, plan_len    a plan file: as plan_job fills it, 16 bytes a machine and no byte more.
 * grade, grade_len  a buffer of at least one byte. Its first byte becomes 1 (best) where no division of the job has a smaller
 *                   bottleneck, 2 (valid) for every other true plan; later bytes stay.
 *
 * Returns 0, or the number of the refusal; a refusal changes nothing. 2 to 8, 15 and 16 are tested first, on the job file, as
 * above; then:
 *    9  a lent list or buffer is too short
 *       (here the buffer for the grade)
 *   12  the plan file's length is not 16 bytes a machine
 *   11  no division, or a record that does not begin where the one before ends
 *       (a plan that breaks a hold is no division)
 *   13  a load or a speed of the plan file is untrue
 *
 * A plan need not have the separators that plan_job gives to be best. What plan_job fills is graded best.
 *
 * Takes at most 19 KB of stack. pelshaqu_grade_plan is the same call.
 */
#ifndef PELSHAQU_PREFIXED
uint32_t grade_plan(const uint8_t *job, size_t job_len, const uint8_t *plan, size_t plan_len, uint8_t *grade, size_t grade_len);
#endif
uint32_t pelshaqu_grade_plan(const uint8_t *job, size_t job_len, const uint8_t *plan, size_t plan_len, uint8_t *grade, size_t grade_len);

/*
 * Jobs by lists: five parameters, of which three are lists.
 *
 * second   whether the job is of the second edition.
 * startup  its start-up work, 0 to 1,000,000. In the first edition it is not looked at and counts as 0.
 * speeds   a speed for each machine, 1 to 10,000. Its length is the number of machines, P: 1 to 96.
 * holds    for each machine the most tiles that it can take, 0 for no limit. Fewer than P entries are refused with 9; of more the first P
 *          are the holds. For a job without holds lend P zeros.
 * weights  a weight for each tile, 0 to 1,000,000. Its length is the number of tiles, N: 0 to 2,048.
 *
 * A division is P + 1 separators: the first is 0, none is smaller than the one before, the last is N; machine p, counted from 0, takes the
 * tiles separators[p] + 1 to separators[p + 1], no more than its hold. A bound is a load over a speed; a bottleneck is one.
 */

/*
 * Tests a job. A job that is refused here is refused by every other call by lists.
 *
 * Refusals, in this order: 16, 5, 6, 7, 8, 9 (fewer than P holds).
 * Takes less than 1 KB of stack.
 */
uint32_t pelshaqu_test_job(bool second, uint32_t startup, const uint32_t *speeds, size_t speeds_len, const uint16_t *holds, size_t holds_len,
                           const uint32_t *weights, size_t weights_len);

/*
 * Reads a job file into lists. The first P entries of speeds and of holds and the first N of weights are filled, later ones stay.
 *
 * answer: the edition (1 or 2), the start-up work (0 in the first edition), P, N.
 *
 * Refusals, in this order: 2; 3, 4, 15, 5, 6, 16 record by record; 7, 8; 9 (fewer than P entries of speeds or holds, or than N of weights).
 * Takes less than 1 KB of stack.
 */
uint32_t pelshaqu_read_job(const uint8_t *file, size_t file_len, uint32_t *speeds, size_t speeds_len, uint16_t *holds, size_t holds_len,
                           uint32_t *weights, size_t weights_len, uint64_t *answer, size_t answer_len);

/*
 * Writes a job as a file: 8 bytes a machine and a tile, 8 more in the second edition. Later bytes of file stay.
 *
 * answer: the bytes written.
 *
 * Refusals, in this order: 16, 5, 6, 7, 8, 9 (fewer than P holds, or too few bytes).
 * Takes less than 1 KB of stack.
 */
uint32_t pelshaqu_write_job(bool second, uint32_t startup, const uint32_t *speeds, size_t speeds_len, const uint16_t *holds, size_t holds_len,
                            const uint32_t *weights, size_t weights_len, uint8_t *file, size_t file_len, uint64_t *answer, size_t answer_len);

/*
 * Writes the listing of a job file as text: its counts and a line for each method, without method 4 where there are holds; or `refused` and
 * a number. README.md says how to read it. Bytes behind the text stay: no byte 0 is put there.
 *
 * answer: the bytes of the text.
 *
 * Refusal: 9 (a text buffer of fewer than PELSHAQU_LISTING bytes, however short the text is).
 * Takes at most 53 KB of stack.
 */
uint32_t pelshaqu_list_job(const uint8_t *file, size_t file_len, uint8_t *text, size_t text_len, uint64_t *answer, size_t answer_len);

/*
 * Measures a division.
 *
 * answer: the load and the speed of its bottleneck.
 *
 * Refusals, in this order: 16, 5, 6, 7, 8, 9 (fewer than P holds or P + 1 separators), 11.
 * Takes at most 9 KB of stack.
 */
uint32_t pelshaqu_measure(bool second, uint32_t startup, const uint32_t *speeds, size_t speeds_len, const uint16_t *holds, size_t holds_len,
                          const uint32_t *weights, size_t weights_len, const uint32_t *separators, size_t separators_len, uint64_t *answer,
                          size_t answer_len);

/*
 * Makes a trial at a bound, load over speed: gives the machines tiles from the first on, each as many as it can take within the bound. The
 * first P + 1 separators are filled whether it fits or fails; where it fails, the last is the greatest index that was reached.
 *
 * answer: 1 and the number of machines that the trial came to, where it fits: all tiles are placed. The third entry stays then. Or 0, and
 * the load and the speed of the next bid: no bound below it fits.
 *
 * Refusals, in this order: 16, 5, 6, 7, 8, 9 (fewer than P holds or P + 1 separators), 17, 10.
 * Takes at most 9 KB of stack.
 */
uint32_t pelshaqu_trial(bool second, uint32_t startup, const uint32_t *speeds, size_t speeds_len, const uint16_t *holds, size_t holds_len,
                        const uint32_t *weights, size_t weights_len, uint64_t load, uint64_t speed, uint32_t *separators,
                        size_t separators_len, uint64_t *answer, size_t answer_len);

/*
 * Makes the quick plan, which is not always best: the first P + 1 separators are filled. For jobs without holds.
 *
 * answer: the load and the speed of its bottleneck.
 *
 * Refusals, in this order: 16, 5, 6, 7, 8, 9 (fewer than P holds or P + 1 separators), 18.
 * Takes at most 9 KB of stack.
 */
uint32_t pelshaqu_quick_plan(bool second, uint32_t startup, const uint32_t *speeds, size_t speeds_len, const uint16_t *holds, size_t holds_len,
                             const uint32_t *weights, size_t weights_len, uint32_t *separators, size_t separators_len, uint64_t *answer,
                             size_t answer_len);

/*
 * Makes the other quick plan, by halving the row, for 1, 2, 4, 8, 16, 32 or 64 machines of one speed: the first P + 1 separators are filled.
 * For jobs without holds.
 *
 * answer: the load and the speed of its bottleneck.
 *
 * Refusals, in this order: 16, 5, 6, 7, 8, 14, 9 (fewer than P holds or P + 1 separators), 18.
 * Takes at most 9 KB of stack.
 */
uint32_t pelshaqu_halve_row(bool second, uint32_t startup, const uint32_t *speeds, size_t speeds_len, const uint16_t *holds, size_t holds_len,
                            const uint32_t *weights, size_t weights_len, uint32_t *separators, size_t separators_len, uint64_t *answer,
                            size_t answer_len);

/*
 * Plans a job by a method: the best division, as plan_job gives it. The first P + 1 separators are filled; the first 5 * (N + 1) work
 * numbers may hold anything afterwards, and need hold nothing before.
 *
 * answer: the count of the method's moves or trials, its allowance, the load and the speed of the bottleneck, the imbalance in thousandths of
 * the ideal, rounded up.
 *
 * Refusals, in this order: 1, 16, 5, 6, 7, 8, 9 (fewer than P holds, P + 1 separators or 5 * (N + 1) work numbers), 17, and 18 by method 4.
 * Takes at most 2.1 KB of stack.
 */
uint32_t pelshaqu_plan(uint32_t method, bool second, uint32_t startup, const uint32_t *speeds, size_t speeds_len, const uint16_t *holds,
                       size_t holds_len, const uint32_t *weights, size_t weights_len, uint32_t *separators, size_t separators_len,
                       uint32_t *work, size_t work_len, uint64_t *answer, size_t answer_len);

/*
 * Writes a division as a plan file, 16 bytes a machine, as plan_job writes its own. Later bytes of plan stay.
 *
 * answer: the bytes written.
 *
 * Refusals, in this order: 16, 5, 6, 7, 8, 9 (fewer than P holds or P + 1 separators, or too few bytes), 11.
 * Takes at most 9 KB of stack.
 */
uint32_t pelshaqu_write_plan(bool second, uint32_t startup, const uint32_t *speeds, size_t speeds_len, const uint16_t *holds, size_t holds_len,
                             const uint32_t *weights, size_t weights_len, const uint32_t *separators, size_t separators_len, uint8_t *plan,
                             size_t plan_len, uint64_t *answer, size_t answer_len);

/*
 * Grades a plan file of any maker beside its job.
 *
 * answer: 1 (best) or 2 (valid), as grade_plan.
 *
 * Refusals, in this order: 16, 5, 6, 7, 8, 9 (fewer than P holds), 12, 11, 13.
 * Takes at most 11 KB of stack.
 */
uint32_t pelshaqu_grade(bool second, uint32_t startup, const uint32_t *speeds, size_t speeds_len, const uint16_t *holds, size_t holds_len,
                        const uint32_t *weights, size_t weights_len, const uint8_t *plan, size_t plan_len, uint64_t *answer,
                        size_t answer_len);

#ifdef __cplusplus
}
#endif

#endif
