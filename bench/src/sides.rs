//! The two sides of the comparison behind one signature each: the planner's archive, whose calls are in planner.rs, and plain Rust. Every function
//! is kept whole, under a name of its own, so that callgrind can count inside it.
use crate::plain::{self, Bound, Grade, Lists, Method, Outcome};

/// The grades as answers.
pub const BEST: u64 = 1;
pub const VALID: u64 = 2;

/// The buffers that a call is lent, never cleared between calls.
pub struct Room {
    pub separators: Vec<u32>,
    pub scratch: Vec<u32>,
    pub answer: [u64; 5],
    pub plan: Vec<u8>,
}

impl Room {
    pub fn new() -> Room {
        Room {
            separators: vec![0; plain::MAX_PROCESSORS + 1],
            scratch: vec![0; 5 * (plain::MAX_TASKS + 1)],
            answer: [0; 5],
            plan: vec![0; plain::PLAN_RECORD * plain::MAX_PROCESSORS],
        }
    }
}

/// A job by lists, of either edition, with holds or without (all 0), its file, the bound at which its single trial is made, and the plan file
/// that is graded.
pub struct Job {
    pub second: bool,
    pub startup: u32,
    pub speeds: Vec<u32>,
    pub holds: Vec<u16>,
    pub weights: Vec<u32>,
    pub file: Vec<u8>,
    pub trial: Bound,
    pub plan: Vec<u8>,
}

impl Job {
    pub fn lists(&self) -> Lists<'_> {
        Lists { second: self.second, startup: self.startup, speeds: &self.speeds, holds: &self.holds, weights: &self.weights }
    }
}

/// A call by one side: 0 or the refusal's number, the results in the room.
pub type Call = fn(&Job, &mut Room) -> u32;

/// Calls that are kept whole, each under its name behind a prefix.
macro_rules! sides {
    ($prefix:expr; $($name:ident: |$job:ident, $room:ident| $call:expr;)*) => {
        $(#[export_name = concat!($prefix, stringify!($name))]
        #[inline(never)]
        pub fn $name($job: &Job, $room: &mut Room) -> u32 {
            $call
        })*
    };
}

/// What the names of the library's functions begin with in the next module.
macro_rules! prefix {
    () => {
        ""
    };
}
pub mod planner;

/// The second library of `bench/compare`.
#[cfg(feature = "compare")]
macro_rules! prefix {
    () => {
        "after_"
    };
}
#[cfg(feature = "compare")]
#[path = "sides/planner.rs"]
pub mod after;

/// A plan by plain Rust, its figures in the order of the planner's.
#[inline(always)]
fn plain_plan(method: Method, job: &Job, room: &mut Room) -> u32 {
    let planned = plain::plan(
        method,
        job.second,
        job.startup,
        &job.speeds,
        &job.holds,
        &job.weights,
        &mut room.separators,
        &mut room.scratch,
    );
    match planned {
        Err(number) => number,
        Ok(figures) => {
            room.answer = [
                figures.count as u64,
                figures.allowance as u64,
                figures.bottleneck.load,
                figures.bottleneck.speed,
                figures.imbalance,
            ];
            0
        }
    }
}

sides! { "";
    plain_table: |job, room| plain_plan(Method::Table, job, room);
    plain_bidding: |job, room| plain_plan(Method::Bidding, job, room);
    plain_bisection: |job, room| plain_plan(Method::Bisection, job, room);
    plain_nicol: |job, room| plain_plan(Method::Nicol, job, room);
}

/// The bottleneck of a quick plan as the planner answers it.
#[inline(always)]
fn plain_bottleneck(answered: Result<Bound, u32>, room: &mut Room) -> u32 {
    match answered {
        Err(number) => number,
        Ok(bound) => {
            room.answer[0] = bound.load;
            room.answer[1] = bound.speed;
            0
        }
    }
}

sides! { "";
    plain_quick: |job, room| plain_bottleneck(plain::heuristic(job.lists(), &mut room.separators), room);
    plain_halving: |job, room| plain_bottleneck(plain::halving(job.lists(), &mut room.separators), room);
    plain_halvingsides: |job, room| plain_bottleneck(plain::halving_by_sides(job.lists(), &mut room.separators), room);
    plain_call: |job, room| plain::plan_job(&job.file, &mut room.plan).err().unwrap_or(0);
}

#[no_mangle]
#[inline(never)]
pub fn plain_trial(job: &Job, room: &mut Room) -> u32 {
    match plain::probe(job.lists(), job.trial, &mut room.separators) {
        Err(number) => number,
        Ok(Outcome::Fits(machines)) => {
            room.answer[0] = 1;
            room.answer[1] = machines as u64;
            0
        }
        Ok(Outcome::Fails(next)) => {
            room.answer[0] = 0;
            room.answer[1] = next.load;
            room.answer[2] = next.speed;
            0
        }
    }
}

#[no_mangle]
#[inline(never)]
pub fn plain_grade(job: &Job, room: &mut Room) -> u32 {
    match plain::grade(job.lists(), &job.plan) {
        Err(number) => number,
        Ok(grade) => {
            room.answer[0] = match grade {
                Grade::Best => BEST,
                Grade::Valid => VALID,
            };
            0
        }
    }
}
