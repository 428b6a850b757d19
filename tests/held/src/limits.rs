//! The limits of the scope (docs/SCOPE.md), each written here and nowhere else in this test, and what follows from them. They are the
//! test's own: nothing of the planner is read.

/// The most machines and the most tiles of a job: 1.3, 1.1.
pub const MACHINES: usize = 96;
pub const TILES: usize = 2_048;

/// The most machines of a row that can be halved, the greatest power of two up to the most machines: 16.1.
pub const LONGEST_HALVED: usize = 1 << MACHINES.ilog2();

/// The greatest speed and the greatest weight: 1.4, 1.2. The least are 1 and 0.
pub const SPEED: u32 = 10_000;
pub const WEIGHT: u32 = 1_000_000;

/// The greatest start-up work of a job of the second edition, request M-106. The least is 0.
pub const STARTUP: u32 = 1_000_000;

/// The greatest load and the greatest speed of a lent bound: 2.9. The least are 0 and 1.
pub const BOUND_LOAD: u64 = 100_000_000_000_000;
pub const BOUND_SPEED: u64 = 1_000_000_000;

/// What is needed of lent lists, 8.7: the bytes of a job file, which has one record more in the second edition, and of a plan file, and
/// the work numbers.
pub const fn job_bytes(second: bool, machines: usize, tiles: usize) -> usize {
    8 * (second as usize + machines + tiles)
}

pub const fn plan_bytes(machines: usize) -> usize {
    16 * machines
}

pub const fn work_numbers(tiles: usize) -> usize {
    5 * (tiles + 1)
}

/// The bytes of the longest job, which is one of the second edition, and of the longest plan.
pub const LONGEST_JOB: usize = job_bytes(true, MACHINES, TILES);
pub const LONGEST_PLAN: usize = plan_bytes(MACHINES);

/// What the programs take in of a job file and of a plan file, one record more than the longest has: 9.6, 14.9.
pub const JOB_INTAKE: usize = LONGEST_JOB + 8;
pub const PLAN_INTAKE: usize = LONGEST_PLAN + 16;

/// The room of a listing: the first line, and four lines of a plan with the most machines, each number taken for one of 20 digits.
pub const LISTING: usize = 84 + 4 * (126 + 21 * (MACHINES + 1));

/// Rows that are too long: just past the limit, twice the most and about it, and longer.
pub const TOO_MANY: [usize; 5] = [MACHINES + 1, MACHINES + 2, 2 * MACHINES - 1, 2 * MACHINES, 3 * MACHINES + 1];
