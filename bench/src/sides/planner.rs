//! The planner's side: the calls of the library whose functions' names begin with `prefix!()`.
use super::{Job, Room};

/// The planner's calls: numbers in front of the job, the job, and what comes behind it.
macro_rules! calls {
    ($($name:ident($($front:ident: $number:ty)?; $($behind:ident: $kind:ty),*);)*) => {
        extern "C" {
            $(#[link_name = concat!(prefix!(), stringify!($name))]
            fn $name(
                $($front: $number,)?
                second: bool,
                startup: u32,
                speeds: *const u32,
                speeds_len: usize,
                holds: *const u16,
                holds_len: usize,
                weights: *const u32,
                weights_len: usize,
                $($behind: $kind),*
            ) -> u32;)*
        }
    };
}

calls! {
    pelshaqu_quick_plan(; separators: *mut u32, separators_len: usize, answer: *mut u64, answer_len: usize);
    pelshaqu_halve_row(; separators: *mut u32, separators_len: usize, answer: *mut u64, answer_len: usize);
    pelshaqu_trial(; load: u64, speed: u64, separators: *mut u32, separators_len: usize, answer: *mut u64, answer_len: usize);
    pelshaqu_plan(method: u32; separators: *mut u32, separators_len: usize, scratch: *mut u32, scratch_len: usize, answer: *mut u64, answer_len: usize);
    pelshaqu_grade(; plan: *const u8, plan_len: usize, answer: *mut u64, answer_len: usize);
}

extern "C" {
    #[link_name = concat!(prefix!(), "pelshaqu_plan_job")]
    fn pelshaqu_plan_job(job: *const u8, job_len: usize, method: u32, plan: *mut u8, plan_len: usize) -> u32;
}

/// A call of the planner on a job, with the numbers behind it, then the lists that it writes.
macro_rules! asked {
    ($call:ident($($front:expr)?), $job:ident $(, $number:expr)*; $($list:expr),*) => {
        // SAFETY: each pointer comes with the length of the list that it is taken from.
        unsafe {
            $call(
                $($front,)?
                $job.second,
                $job.startup,
                $job.speeds.as_ptr(),
                $job.speeds.len(),
                $job.holds.as_ptr(),
                $job.holds.len(),
                $job.weights.as_ptr(),
                $job.weights.len(),
                $($number,)*
                $($list.as_mut_ptr(), $list.len()),*
            )
        }
    };
}

fn planner_plan(method: u32, job: &Job, room: &mut Room) -> u32 {
    asked!(pelshaqu_plan(method), job; room.separators, room.scratch, room.answer)
}

sides! { prefix!();
    planner_table: |job, room| planner_plan(1, job, room);
    planner_bidding: |job, room| planner_plan(2, job, room);
    planner_bisection: |job, room| planner_plan(3, job, room);
    planner_nicol: |job, room| planner_plan(4, job, room);
    planner_quick: |job, room| asked!(pelshaqu_quick_plan(), job; room.separators, room.answer);
    planner_halving: |job, room| asked!(pelshaqu_halve_row(), job; room.separators, room.answer);
    planner_trial: |job, room| asked!(pelshaqu_trial(), job, job.trial.load, job.trial.speed; room.separators, room.answer);
    planner_grade: |job, room| asked!(pelshaqu_grade(), job, job.plan.as_ptr(), job.plan.len(); room.answer);
    planner_call: |job, room| call_on(&job.file, &mut room.plan);
}

/// The C call by bisection on any bytes.
pub fn call_on(file: &[u8], plan: &mut [u8]) -> u32 {
    // SAFETY: as above.
    unsafe { pelshaqu_plan_job(file.as_ptr(), file.len(), 3, plan.as_mut_ptr(), plan.len()) }
}
