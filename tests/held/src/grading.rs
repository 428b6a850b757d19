//! Grading a plan file beside its job, as request M-102 says it: the tests of the plan file in their order, and best or valid.

use crate::answers::{self, Solved};
use crate::job::{self, Job};
use crate::slow::{self, less, Bound};
use crate::{damage, fast};

#[derive(Clone, Copy, Debug, PartialEq)]
pub enum Grade {
    Best,
    Valid,
}

impl Grade {
    /// As the calls give it.
    pub fn number(self) -> u8 {
        match self {
            Grade::Best => 1,
            Grade::Valid => 2,
        }
    }
}

/// The division of a true plan file of an accepted job, or the number of the refusal.
pub fn read(job: &Job, plan: &[u8]) -> Result<Vec<usize>, u32> {
    if plan.len() != 16 * job.speeds.len() {
        return Err(12);
    }
    let records = job::decode(plan);
    let mut separators = vec![records[0][0]];
    separators.extend(records.iter().map(|r| r[1]));
    let joined = records.windows(2).all(|two| two[1][0] == two[0][1]);
    if !answers::is_division(job, &separators) || !joined {
        return Err(11);
    }
    let division: Vec<usize> = separators.iter().map(|&s| s as usize).collect();
    let is_true = |p: usize| {
        let load = job.load(division[p], division[p + 1]);
        records[p][2] as u128 == load && records[p][3] == job.speeds[p]
    };
    if !(0..records.len()).all(is_true) {
        return Err(13);
    }
    Ok(division)
}

/// Whether some division of the job has a smaller bottleneck, by trying every one.
pub fn beaten(job: &Job, bound: Bound) -> bool {
    let mut found = false;
    slow::every_division(job, &mut |other| {
        found |= less(slow::bottleneck(job, other), bound);
    });
    found
}

/// The grade of a division: of a job already solved by its least bottleneck, of a tiny job by every division, of any other by the
/// fast reference.
pub fn of(job: &Job, division: &[usize], solved: Option<&Solved>) -> Grade {
    let found = slow::bottleneck(job, division);
    let beaten = match solved {
        Some(s) if s.job == *job => less(s.bottleneck, found),
        _ if damage::is_tiny(job) => beaten(job, found),
        _ => less(fast::solve(job).1, found),
    };
    if beaten {
        Grade::Valid
    } else {
        Grade::Best
    }
}

/// What a plan file is beside an accepted job: its grade, or the number of the refusal.
pub fn grade(job: &Job, plan: &[u8], solved: Option<&Solved>) -> Result<Grade, u32> {
    Ok(of(job, &read(job, plan)?, solved))
}

/// The plan file of a division.
pub fn file(job: &Job, division: &[usize]) -> Vec<u8> {
    job::encode(&job::plan_of(job, division))
}

/// A best division from the other end: each machine, from the last one back, takes as many tiles as stay within the bound and its hold, the
/// first one all the rest.
pub fn backwards(job: &Job, bound: Bound) -> Vec<usize> {
    let mut at = job.weights.len();
    let mut separators = vec![at];
    for (p, &e) in job.speeds.iter().enumerate().skip(1).rev() {
        let (end, mut load) = (at, job.c());
        while at > 0 && job.keeps(p, at - 1, end) && !less(bound, (load + job.weights[at - 1] as u128, e as u128)) {
            at -= 1;
            load += job.weights[at] as u128;
        }
        separators.push(at);
    }
    separators.push(0);
    separators.reverse();
    separators
}
