//! Plan files beside their jobs: worked by hand, every division of small jobs, the planner's own, damaged ones, every set of faults;
//! and what the program `grade` says of some.

use std::process::Command;

use crate::answers::{bytes_of, bytes_of_holds, Solved};
use crate::check::{self, Check};
use crate::damage::{self, is_tiny};
use crate::grading::{self, Grade};
use crate::job::{self, head, machine, Job, Plan};
use crate::limits::{plan_bytes, work_numbers, JOB_INTAKE, LONGEST_PLAN, MACHINES, PLAN_INTAKE, SPEED, STARTUP, TILES, TOO_MANY, WEIGHT};
use crate::lists::{job_with, kept_holds};
use crate::planner::{Call, Edition};
use crate::rng::Rng;
use crate::{listing, methods, slow, small};

use Grade::{Best, Valid};

/// A job with plans whose grade is known.
struct Worked {
    startup: Option<u32>,
    weights: &'static [u32],
    speeds: &'static [u32],
    plans: &'static [(&'static [usize], Grade)],
}

/// Jobs A to E, every division of each; then two best plans whose bottlenecks 6/2 and 3/1 are one fraction, a lesser load on a
/// slower machine that is not best, one machine, and a row of weight 0 at the end that may go to any machine from the second on. Then the
/// second edition: A without start-up work; work that makes one machine do all, and a little less of it, with which two plans have the
/// bottlenecks 8/4 and 2/1; tiles of weight 0, whose machines have a load; a machine without a tile, which has none; no tiles; the most.
#[rustfmt::skip]
const WORKED: [Worked; 16] = [
    Worked { startup: None, weights: &[1, 3, 8], speeds: &[1, 3], plans: &[(&[0, 0, 3], Valid), (&[0, 1, 3], Best), (&[0, 2, 3], Valid), (&[0, 3, 3], Valid)] },
    Worked { startup: None, weights: &[4, 3, 2, 6, 1], speeds: &[1, 2], plans: &[(&[0, 0, 5], Valid), (&[0, 1, 5], Best), (&[0, 2, 5], Valid), (&[0, 3, 5], Valid), (&[0, 4, 5], Valid), (&[0, 5, 5], Valid)] },
    Worked { startup: None, weights: &[], speeds: &[7, 2], plans: &[(&[0, 0, 0], Best)] },
    Worked { startup: None, weights: &[0, 0], speeds: &[1, 1], plans: &[(&[0, 0, 2], Best), (&[0, 1, 2], Best), (&[0, 2, 2], Best)] },
    Worked { startup: None, weights: &[6], speeds: &[1, 1], plans: &[(&[0, 0, 1], Best), (&[0, 1, 1], Best)] },
    Worked { startup: None, weights: &[1, 2, 4], speeds: &[1, 2], plans: &[(&[0, 0, 3], Valid), (&[0, 1, 3], Best), (&[0, 2, 3], Best), (&[0, 3, 3], Valid)] },
    Worked { startup: None, weights: &[9, 10], speeds: &[1, 10_000], plans: &[(&[0, 0, 2], Best), (&[0, 1, 2], Valid), (&[0, 2, 2], Valid)] },
    Worked { startup: None, weights: &[4, 0, 3], speeds: &[5], plans: &[(&[0, 3], Best)] },
    Worked { startup: None, weights: &[5, 5, 0, 0], speeds: &[1, 1, 1], plans: &[(&[0, 1, 2, 4], Best), (&[0, 1, 3, 4], Best), (&[0, 1, 4, 4], Best), (&[0, 0, 1, 4], Best), (&[0, 2, 3, 4], Valid), (&[0, 0, 4, 4], Valid), (&[0, 0, 0, 4], Valid)] },
    Worked { startup: Some(0), weights: &[1, 3, 8], speeds: &[1, 3], plans: &[(&[0, 0, 3], Valid), (&[0, 1, 3], Best), (&[0, 2, 3], Valid), (&[0, 3, 3], Valid)] },
    Worked { startup: Some(2), weights: &[6, 1], speeds: &[4, 1], plans: &[(&[0, 0, 2], Valid), (&[0, 1, 2], Valid), (&[0, 2, 2], Best)] },
    Worked { startup: Some(1), weights: &[6, 1], speeds: &[4, 1], plans: &[(&[0, 0, 2], Valid), (&[0, 1, 2], Best), (&[0, 2, 2], Best)] },
    Worked { startup: Some(3), weights: &[0, 0], speeds: &[2, 1], plans: &[(&[0, 0, 2], Valid), (&[0, 1, 2], Valid), (&[0, 2, 2], Best)] },
    Worked { startup: Some(2), weights: &[5], speeds: &[1, 1], plans: &[(&[0, 0, 1], Best), (&[0, 1, 1], Best)] },
    Worked { startup: Some(9), weights: &[], speeds: &[7, 2], plans: &[(&[0, 0, 0], Best)] },
    Worked { startup: Some(1_000_000), weights: &[1_000_000, 0], speeds: &[1, 2, 3], plans: &[(&[0, 0, 0, 2], Best), (&[0, 0, 1, 2], Valid), (&[0, 0, 2, 2], Valid), (&[0, 1, 1, 2], Valid)] },
];

/// The same with holds, all divisions of each that would be one without: those that break a hold give 11. Among them one that is best for the
/// holds alone, and one where another is.
#[rustfmt::skip]
const HELD: [(&[u16], Worked, &[&[usize]]); 7] = [
    (&[0, 1], Worked { startup: None, weights: &[1, 3, 8], speeds: &[1, 3], plans: &[(&[0, 2, 3], Best), (&[0, 3, 3], Valid)] }, &[&[0, 0, 3], &[0, 1, 3]]),
    (&[1, 0], Worked { startup: None, weights: &[1, 3, 8], speeds: &[1, 3], plans: &[(&[0, 0, 3], Valid), (&[0, 1, 3], Best)] }, &[&[0, 2, 3], &[0, 3, 3]]),
    (&[2, 1], Worked { startup: None, weights: &[1, 3, 8], speeds: &[1, 3], plans: &[(&[0, 2, 3], Best)] }, &[&[0, 0, 3], &[0, 1, 3], &[0, 3, 3]]),
    (&[1, 1], Worked { startup: None, weights: &[0, 0], speeds: &[1, 1], plans: &[(&[0, 1, 2], Best)] }, &[&[0, 0, 2], &[0, 2, 2]]),
    (&[2, 1], Worked { startup: None, weights: &[0, 0], speeds: &[1, 1], plans: &[(&[0, 1, 2], Best), (&[0, 2, 2], Best)] }, &[&[0, 0, 2]]),
    (&[1, 0], Worked { startup: Some(2), weights: &[6, 1], speeds: &[4, 1], plans: &[(&[0, 0, 2], Valid), (&[0, 1, 2], Best)] }, &[&[0, 2, 2]]),
    (&[65_535, 3], Worked { startup: None, weights: &[1, 3, 8], speeds: &[1, 3], plans: &[(&[0, 0, 3], Valid), (&[0, 1, 3], Best), (&[0, 2, 3], Valid), (&[0, 3, 3], Valid)] }, &[]),
];

/// Plan files of job A, field by field, each with what it gives.
#[rustfmt::skip]
const OF_A: [(&[[u32; 4]], Result<Grade, u32>); 26] = [
    (&[[0, 1, 1, 1], [1, 3, 11, 3]], Ok(Best)),
    (&[[0, 2, 4, 1], [2, 3, 8, 3]], Ok(Valid)),
    (&[[0, 0, 0, 1], [0, 3, 12, 3]], Ok(Valid)),
    (&[[0, 3, 12, 1], [3, 3, 0, 3]], Ok(Valid)),
    // Another count of records.
    (&[], Err(12)),
    (&[[0, 3, 12, 1]], Err(12)),
    (&[[0, 1, 1, 1], [1, 3, 11, 3], [3, 3, 0, 1]], Err(12)),
    (&[[9, 9, 9, 9]], Err(12)),
    // A gap, an overlap, another start, another end, a separator past the end, one that falls: each before any load or speed.
    (&[[0, 1, 1, 1], [2, 3, 8, 3]], Err(11)),
    (&[[0, 2, 4, 1], [1, 3, 11, 3]], Err(11)),
    (&[[1, 1, 0, 1], [1, 3, 11, 3]], Err(11)),
    (&[[0, 2, 4, 1], [2, 2, 0, 3]], Err(11)),
    (&[[0, 2, 4, 1], [2, 4, 8, 3]], Err(11)),
    (&[[0, 4, 12, 1], [4, 3, 0, 3]], Err(11)),
    (&[[0, u32::MAX, 12, 1], [u32::MAX, 3, 0, 3]], Err(11)),
    (&[[0, 9, 1, 1], [1, 3, 11, 3]], Err(11)),
    (&[[0, 1, 1, 1], [0, 3, 11, 3]], Err(11)),
    (&[[0, 1, 9, 9], [1, 2, 11, 3]], Err(11)),
    (&[[0, 1, 9, 9], [2, 3, 8, 3]], Err(11)),
    // An untrue load or speed, in the first record, in the last, in both; loads exchanged, that add up all the same.
    (&[[0, 1, 2, 1], [1, 3, 11, 3]], Err(13)),
    (&[[0, 1, 1, 2], [1, 3, 11, 3]], Err(13)),
    (&[[0, 1, 1, 1], [1, 3, 10, 3]], Err(13)),
    (&[[0, 1, 1, 1], [1, 3, 11, 1]], Err(13)),
    (&[[0, 1, 11, 1], [1, 3, 1, 3]], Err(13)),
    (&[[0, 1, 1, 3], [1, 3, 11, 1]], Err(13)),
    (&[[0, 1, 1 + (1 << 24), 1], [1, 3, 11, 3]], Err(13)),
];

/// A plan file beside an accepted job, by lists and by the C call; what it gives is also known by a rule.
fn both(c: &mut Check, s: &Solved, plan: &[u8], rule: Result<Grade, u32>) {
    let said = grading::grade(&s.job, plan, Some(s));
    if said != rule {
        let what = format!("the solver's grading says {:?}, the rule {:?}", said, rule);
        c.fail(&what, format!("  {:?}, plan {:?}", s.job, job::decode(plan)));
    }
    let (entries, room) = (c.rng.below(4), c.rng.pick(&[1, 1, 1, 2, 3, 17]));
    by_lists(c, s, plan, entries);
    by_call(c, s, plan, room);
}

fn by_lists(c: &mut Check, s: &Solved, plan: &[u8], entries: usize) {
    let (e, w, answer) = (bytes_of(&s.job.speeds), bytes_of(&s.job.weights), c.rng.pattern(8 * entries));
    let (edition, h) = (c.edition(&s.job), c.holds(&s.job));
    c.judge(Call::Grade(edition), &[&e, &h, &w, plan, &answer], Some(s));
}

fn by_call(c: &mut Check, s: &Solved, plan: &[u8], room: usize) {
    let (file, grade) = (s.job.file(), c.rng.pattern(room));
    c.judge(Call::HostGrade, &[&file, plan, &grade], Some(s));
}

/// The true plan of a division: its grade by the rule, and whether it is a best one that is not the planner's own. Where a share breaks the
/// hold of its machine it is no division.
fn of_division(c: &mut Check, s: &Solved, division: &[usize], rule: Grade) {
    if !keeps(&s.job, division) {
        c.held_files[2] += 1;
        return both(c, s, &grading::file(&s.job, division), Err(11));
    }
    if rule == Best && division != s.best {
        c.others[0] += 1;
        c.others[1] += (slow::bottleneck(&s.job, division) != s.bottleneck) as u64;
    }
    both(c, s, &grading::file(&s.job, division), Ok(rule));
}

/// Whether each share keeps the hold of its machine.
fn keeps(job: &Job, division: &[usize]) -> bool {
    (0..job.speeds.len()).all(|p| job.keeps(p, division[p], division[p + 1]))
}

/// The plans of a worked job: each as it is, of other lengths, and damaged.
fn plans_of(c: &mut Check, s: &Solved, k: &Worked) {
    for (division, grade) in k.plans {
        for _ in 0..8 {
            of_division(c, s, division, *grade);
        }
        lengths(c, s, division);
        damaged(c, s, division);
    }
}

fn worked(c: &mut Check) {
    for k in &WORKED {
        plans_of(c, &Solved::of(&Job::of(k.startup, k.speeds, k.weights)), k);
    }
    for (holds, k, broken) in &HELD {
        let s = Solved::of(&Job::held(k.startup, k.speeds, holds, k.weights));
        plans_of(c, &s, k);
        for division in *broken {
            // 11 for the hold comes before an untrue load or speed, and after the length.
            let plan = job::plan_of(&s.job, division);
            for p in 0..plan.len() {
                for field in 2..4 {
                    let mut untrue = plan.clone();
                    untrue[p][field] += 1;
                    both(c, &s, &job::encode(&untrue), Err(11));
                }
            }
            of_division(c, &s, division, Valid);
            lengths(c, &s, division);
        }
    }
    let a = Solved::of(&Job::new(&[1, 3], &[1, 3, 8]));
    for (records, rule) in OF_A {
        for _ in 0..8 {
            both(c, &a, &job::encode(&records.to_vec()), rule);
        }
    }
    // Byte by byte, and a grade buffer of each length.
    let bytes: [u8; 32] = [
        0, 0, 0, 0, 1, 0, 0, 0, 1, 0, 0, 0, 1, 0, 0, 0, //
        1, 0, 0, 0, 3, 0, 0, 0, 11, 0, 0, 0, 3, 0, 0, 0,
    ];
    for room in 0..40 {
        by_call(c, &a, &bytes, room);
        by_call(c, &a, &bytes[..room.min(31)], room);
    }
    both(c, &a, &bytes, Ok(Best));
    // With start-up work 5 the same division has the loads 6 and 16 and is no longer best: 6/1 against 17/3 of all on machine 2. Plans
    // whose loads leave it out, count it once, or count it without a tile are untrue.
    let second = Solved::of(&Job::of(Some(5), &[1, 3], &[1, 3, 8]));
    for (records, rule) in OF_A_SECOND {
        for _ in 0..8 {
            both(c, &second, &job::encode(&records.to_vec()), rule);
        }
    }
}

/// Plan files of A in the second edition, with start-up work 5.
const OF_A_SECOND: [(&[[u32; 4]], Result<Grade, u32>); 11] = [
    (&[[0, 0, 0, 1], [0, 3, 17, 3]], Ok(Best)),
    (&[[0, 1, 6, 1], [1, 3, 16, 3]], Ok(Valid)),
    (&[[0, 2, 9, 1], [2, 3, 13, 3]], Ok(Valid)),
    (&[[0, 3, 17, 1], [3, 3, 0, 3]], Ok(Valid)),
    (&[[0, 0, 0, 1], [0, 3, 12, 3]], Err(13)),
    (&[[0, 0, 5, 1], [0, 3, 17, 3]], Err(13)),
    (&[[0, 1, 1, 1], [1, 3, 11, 3]], Err(13)),
    (&[[0, 1, 6, 1], [1, 3, 11, 3]], Err(13)),
    (&[[0, 1, 1, 1], [1, 3, 16, 3]], Err(13)),
    (&[[0, 1, 6, 1], [1, 3, 21, 3]], Err(13)),
    (&[[0, 3, 17, 1], [3, 3, 5, 3]], Err(13)),
];

/// The longest job of equal tiles and machines, of either edition: as many tiles on each machine, but for one, and all on one, which is none
/// where each holds so many.
fn longest(c: &mut Check, startup: Option<u32>, hold: u16) {
    let s = Solved::of(&Job::held(startup, &[SPEED; MACHINES], &[hold; MACHINES], &[WEIGHT; TILES]));
    let even: Vec<usize> = (0..=MACHINES).map(|p| p * TILES / MACHINES).collect();
    of_division(c, &s, &even, Best);
    damaged(c, &s, &even);
    lengths(c, &s, &even);
    for first in [0, 1, MACHINES / 2, MACHINES - 1] {
        let all: Vec<usize> = (0..=MACHINES).map(|p| if p > first { TILES } else { 0 }).collect();
        of_division(c, &s, &all, Valid);
    }
    let nothing = Solved::of(&Job::of(startup, &[1; MACHINES], &[0; TILES]));
    for _ in 0..20 {
        let division = some_division(&mut c.rng, MACHINES, TILES);
        of_division(c, &nothing, &division, Best);
    }
}

/// Every division of every job of small numbers, of a fourth of them with start-up work, and of a fourth with holds; best or valid by every
/// other division.
fn every(c: &mut Check) {
    for (tiles, machines, heaviest, fastest) in
        [(0, 3, 0, 3), (1, 3, 5, 4), (2, 3, 4, 3), (3, 3, 4, 3), (4, 3, 2, 2), (5, 3, 2, 2), (3, 4, 2, 2)]
    {
        for m in 1..=machines {
            small::every_list(m, 1, fastest, &mut |speeds| {
                small::every_list(tiles, 0, heaviest, &mut |weights| {
                    let job = Job::new(speeds, weights);
                    every_division(c, &job);
                    if c.rng.once_in(4) {
                        let job = small::in_second(&mut c.rng, &job);
                        every_division(c, &job);
                    }
                    if c.rng.once_in(4) {
                        let job = small::held(&mut c.rng, &job);
                        every_division(c, &job);
                    }
                });
            });
        }
    }
}

/// Best or valid: of a tiny job by every other division, of any other by its solution.
fn rule_of(s: &Solved, division: &[usize]) -> Grade {
    if !is_tiny(&s.job) {
        return grading::of(&s.job, division, Some(s));
    }
    if grading::beaten(&s.job, slow::bottleneck(&s.job, division)) {
        Valid
    } else {
        Best
    }
}

/// Those too that would be divisions without the holds.
fn every_division(c: &mut Check, job: &Job) {
    c.jobs_seen += 1;
    let s = Solved::of(job);
    let mut all: Vec<Vec<usize>> = Vec::new();
    slow::every_division(&job.unlimited(), &mut |division| all.push(division.to_vec()));
    for division in &all {
        of_division(c, &s, division, rule_of(&s, division));
    }
}

/// The planner's own files: of a plan by each method written by the call for it, and of the C call. All are best. The quick plan's
/// file is best just where its bottleneck is the least. With holds there is no fourth method and no quick plan.
fn own(c: &mut Check, job: &Job) {
    c.jobs_seen += 1;
    let s = Solved::of(job);
    let (machines, tiles) = (job.speeds.len(), job.weights.len());
    let (e, w) = (bytes_of(&job.speeds), bytes_of(&job.weights));
    let separators = c.rng.pattern(4 * (machines + 1));
    for method in 1..=if job.has_holds() { 3 } else { 4 } {
        let (work, edition, h) = (c.rng.pattern(4 * work_numbers(tiles)), c.edition(job), c.holds(job));
        c.judge(Call::Plan(edition, method), &[&e, &h, &w, &separators, &work, &[]], Some(&s));
        let plan = written(c, &e, &w, &s);
        both(c, &s, &plan, Ok(Best));
        let room = c.rng.pattern(plan_bytes(machines));
        c.judge(Call::Host { method }, &[&job.file(), &room], Some(&s));
        let plan = c.after(1);
        both(c, &s, &plan, Ok(Best));
    }
    if job.has_holds() {
        return;
    }
    let (edition, h) = (c.edition(job), c.holds(job));
    c.judge(Call::Quick(edition), &[&e, &h, &w, &separators, &[]], Some(&s));
    let plan = written(c, &e, &w, &s);
    let level = slow::bottleneck(job, &s.quick);
    both(c, &s, &plan, Ok(if slow::less(s.bottleneck, level) { Valid } else { Best }));
}

/// The plan file that the planner writes of the separators that its last call left.
fn written(c: &mut Check, e: &[u8], w: &[u8], s: &Solved) -> Vec<u8> {
    let (separators, room) = (c.after(3), c.rng.pattern(plan_bytes(s.job.speeds.len())));
    let (edition, h) = (c.edition(&s.job), c.holds(&s.job));
    c.judge(Call::PlanFile(edition), &[e, &h, w, &separators, &room, &[]], Some(s));
    c.after(4)
}

/// A true plan cut and lengthened: 12 for every length but its own.
fn lengths(c: &mut Check, s: &Solved, division: &[usize]) {
    let plan = grading::file(&s.job, division);
    for len in 0..plan.len() {
        both(c, s, &plan[..len], Err(12));
    }
    let last = plan[plan.len() - 16..].to_vec();
    let end = job::encode(&vec![[s.job.weights.len() as u32, s.job.weights.len() as u32, 0, 1]]);
    for more in [1, 2, 8, 15, 16, 17, 32, 160, LONGEST_PLAN, PLAN_INTAKE, 4_096] {
        for filler in [vec![0; more], c.rng.pattern(more)] {
            both(c, s, &[&plan[..], &filler].concat(), Err(12));
        }
    }
    both(c, s, &[&plan[..], &end].concat(), Err(12));
    both(c, s, &[&plan[..], &last].concat(), Err(12));
    both(c, s, &plan.repeat(2), Err(12));
}

/// A true plan with one field changed, records or fields exchanged, a separator moved, loads moved.
fn damaged(c: &mut Check, s: &Solved, division: &[usize]) {
    let plan = job::plan_of(&s.job, division);
    let few = plan.len() <= 4;
    for p in (0..plan.len()).filter(|&p| few || p < 2 || p + 2 >= plan.len() || p % 13 == 0) {
        for field in 0..4 {
            one_field(c, s, &plan, p, field);
        }
        if p + 1 < plan.len() {
            exchanged(c, s, &plan, p, p + 1);
            exchanged(c, s, &plan, p, plan.len() - 1);
            moved(c, s, division, p);
        }
    }
}

/// A separator that changes alone is no division or leaves a gap; a load or a speed is untrue.
fn one_field(c: &mut Check, s: &Solved, plan: &Plan, p: usize, field: usize) {
    let v = plan[p][field];
    for new in [v.wrapping_add(1), v.wrapping_sub(1), 0, u32::MAX, v ^ 1 << 8, v ^ 1 << 16, v ^ 1 << 24, v ^ 1 << 31, v.swap_bytes()] {
        if new != v {
            let mut broken = plan.clone();
            broken[p][field] = new;
            both(c, s, &job::encode(&broken), Err(if field < 2 { 11 } else { 13 }));
        }
    }
}

/// Two records, their loads, or their speeds exchanged; load and speed of one exchanged.
fn exchanged(c: &mut Check, s: &Solved, plan: &Plan, p: usize, q: usize) {
    let grade = grading::grade(&s.job, &job::encode(plan), Some(s));
    for fields in [&[2][..], &[3], &[2, 3]] {
        let mut broken = plan.clone();
        for &f in fields {
            (broken[p][f], broken[q][f]) = (plan[q][f], plan[p][f]);
        }
        both(c, s, &job::encode(&broken), if broken == *plan { grade } else { Err(13) });
    }
    let mut broken = plan.clone();
    broken[p].swap(2, 3);
    both(c, s, &job::encode(&broken), if broken == *plan { grade } else { Err(13) });
    let mut broken = plan.clone();
    broken.swap(p, q);
    // Where only loads or speeds differ the separators are those of before.
    let same = |k: usize| plan[p][k] == plan[q][k];
    let rule = if !same(0) || !same(1) { Err(11) } else { Err(13) };
    both(c, s, &job::encode(&broken), if broken == *plan { grade } else { rule });
}

/// The separator after machine p moved in both records, the loads as they were: untrue, but for a tile of weight 0 where no start-up work
/// comes or goes with it; and no division where a hold is broken.
fn moved(c: &mut Check, s: &Solved, division: &[usize], p: usize) {
    let plan = job::plan_of(&s.job, division);
    let at = division[p + 1];
    let (from, end) = (division[p], division[p + 2]);
    for to in [at.wrapping_add(1), at.wrapping_sub(1)] {
        let mut broken = plan.clone();
        (broken[p][1], broken[p + 1][0]) = (to as u32, to as u32);
        let inside = to >= from && to <= end && s.job.keeps(p, from, to) && s.job.keeps(p + 1, to, end);
        let same = || s.job.load(from, to) == s.job.load(from, at) && s.job.load(to, end) == s.job.load(at, end);
        let rule = match inside {
            false => Err(11),
            true if same() => grading::grade(&s.job, &job::encode(&plan), Some(s)),
            true => Err(13),
        };
        both(c, s, &job::encode(&broken), rule);
    }
}

fn some_division(r: &mut Rng, machines: usize, tiles: usize) -> Vec<usize> {
    let mut inner: Vec<usize> = (1..machines).map(|_| r.below(tiles + 1)).collect();
    inner.sort();
    [&[0], &inner[..], &[tiles]].concat()
}

/// A true plan, or one that is a little off: for any job.
pub fn some_plan(r: &mut Rng, s: &Solved) -> Vec<u8> {
    let (machines, tiles) = (s.job.speeds.len(), s.job.weights.len());
    let division = match r.below(6) {
        0 => s.best.clone(),
        1 => s.quick.clone(),
        2 => grading::backwards(&s.job, s.bottleneck),
        3 | 4 => nudged(r, &s.job, &s.best),
        _ => some_division(r, machines, tiles),
    };
    let mut plan = grading::file(&s.job, &division);
    if r.once_in(3) {
        spoil(r, &mut plan);
    }
    plan
}

/// An inner separator one on or one back, where that is a division.
fn nudged(r: &mut Rng, job: &Job, division: &[usize]) -> Vec<usize> {
    let mut new = division.to_vec();
    if new.len() > 2 {
        let k = 1 + r.below(new.len() - 2);
        if r.once_in(2) && new[k] < new[k + 1] {
            new[k] += 1;
        } else if new[k] > new[k - 1] {
            new[k] -= 1;
        }
    }
    if keeps(job, &new) {
        new
    } else {
        division.to_vec()
    }
}

/// A field, a bit, a byte or the length changed.
fn spoil(r: &mut Rng, plan: &mut Vec<u8>) {
    let at = r.below(plan.len());
    let field = at / 4 * 4;
    match r.below(6) {
        0 => plan[at] ^= 1 << r.below(8),
        1 => plan[at] = r.next() as u8,
        2 => plan.truncate(at),
        3 => {
            let more = 1 + r.below(33);
            plan.extend(r.pattern(more));
        }
        k => {
            let old = u32::from_le_bytes(plan[field..field + 4].try_into().unwrap());
            let new = if k == 4 { old.wrapping_add(1) } else { old.wrapping_sub(1) };
            plan[field..field + 4].copy_from_slice(&new.to_le_bytes());
        }
    }
}

/// The plan file of any lists with as many machines as they have, then with these faults; those that could be made are added. And the holds
/// beside it, which a division without a fault keeps; one with a fault may break one of them and be right but for that.
fn plan_with(r: &mut Rng, edition: Edition, speeds: &[u32], weights: &[u32], faults: &[u32], made: &mut Vec<u32>) -> (Vec<u8>, Vec<u16>) {
    let has = |n: u32| faults.contains(&n);
    let machines = speeds.len();
    let division = some_division(r, machines.max(1), weights.len());
    let startup = |p: usize| if division[p] == division[p + 1] { 0 } else { edition.counts().unwrap_or(0) };
    let load = |p: usize| weights[division[p]..division[p + 1]].iter().fold(startup(p), |sum, &w| sum.wrapping_add(w));
    let mut plan: Plan = (0..machines).map(|p| [division[p] as u32, division[p + 1] as u32, load(p), speeds[p]]).collect();
    // The first record, the last, or one between; for 13 and 11 each for itself.
    let places = [0, machines / 2, machines.saturating_sub(1)];
    if has(13) && machines > 0 {
        let (p, field, off) = (r.pick(&places), r.pick(&[2, 3]), r.pick(&[1, u32::MAX, 1 << 24]));
        plan[p][field] = plan[p][field].wrapping_add(off);
        made.push(13);
    }
    let separators: Vec<u32> = division.iter().map(|&s| s as u32).collect();
    let mut holds = kept_holds(r, &separators[..machines + 1]);
    let wide = separators.windows(2).position(|s| s[1] - s[0] > 1).filter(|_| r.once_in(3));
    if let (true, Some(p)) = (has(11) && machines > 0, wide) {
        holds[p] = r.range(1, (separators[p + 1] - separators[p] - 1).min(u16::MAX as u32)) as u16;
        made.push(11);
    } else if has(11) && machines > 0 {
        let (p, field, off) = (r.pick(&places), r.pick(&[0, 1]), r.pick(&[1, u32::MAX, 1 << 24]));
        plan[p][field] = plan[p][field].wrapping_add(off);
        made.push(11);
    }
    let mut bytes = job::encode(&plan);
    if has(12) {
        match r.below(5) {
            0 if machines > 0 => bytes.truncate(0),
            1 if machines > 0 => bytes.truncate(plan_bytes(machines) - 1),
            2 if machines > 0 => bytes.truncate(plan_bytes(machines - 1)),
            3 => bytes.extend([0; 16]),
            _ => bytes.push(0),
        }
        made.push(12);
    }
    (bytes, holds)
}

/// Every set of faults by lists: the first of 16, 5, 6, 7, 8, 9, 12, 11, 13 counts.
fn together(c: &mut Check, rounds: usize) {
    let order = [16, 5, 6, 7, 8, 9, 12, 11, 13];
    for set in 1u32..1 << order.len() {
        let faults: Vec<u32> = (0..order.len()).filter(|k| set >> k & 1 == 1).map(|k| order[k]).collect();
        for _ in 0..rounds {
            let (edition, speeds, weights, mut made) = job_with(&mut c.rng, &faults);
            let (plan, mut holds) = plan_with(&mut c.rng, edition, &speeds, &weights, &faults, &mut made);
            let (entries, more) = (c.rng.below(3), c.rng.below(3));
            let answer = c.rng.pattern(8 * entries);
            holds.extend((0..more).map(|_| c.rng.next() as u16));
            if faults.contains(&9) && !speeds.is_empty() {
                holds.truncate(c.rng.pick(&[0, speeds.len() / 2, speeds.len() - 1]));
                made.push(9);
            }
            let number = order.iter().copied().find(|n| made.contains(n)).unwrap_or(0);
            let lists = [bytes_of(&speeds), bytes_of_holds(&holds), bytes_of(&weights)];
            c.refuse(Call::Grade(edition), &[&lists[0], &lists[1], &lists[2], &plan, &answer], number);
        }
    }
}

/// Every set of faults by the C call. A record spoilt for 3 is the first, so is one for 16; one for 4 is the last, so that 3 and 16 come
/// before 5 and 6, and 4 after them. One for 15 stands behind all others, or as the second record behind a first one of kind 3.
fn together_in_c(c: &mut Check, rounds: usize) {
    let order = [2, 3, 16, 5, 6, 4, 15, 7, 8, 9, 12, 11, 13];
    for set in 1u32..1 << order.len() {
        let faults: Vec<u32> = (0..order.len()).filter(|k| set >> k & 1 == 1).map(|k| order[k]).collect();
        for _ in 0..rounds {
            one_set_in_c(c, &order, &faults);
        }
    }
}

fn one_set_in_c(c: &mut Check, order: &[u32], faults: &[u32]) {
    let has = |n: u32| faults.contains(&n);
    let (edition, speeds, weights, mut made) = job_with(&mut c.rng, faults);
    let (plan, holds) = plan_with(&mut c.rng, edition, &speeds, &weights, faults, &mut made);
    let mut order = order.to_vec();
    let mut file = Job { startup: edition.counts(), speeds, holds, weights }.file();
    let kind_3 = head(c.rng.pick(&[0, 1, STARTUP, STARTUP + 1, u32::MAX]));
    let early = has(15) && edition.second && c.rng.once_in(2);
    if early {
        file.splice(8..8, kind_3);
        order.retain(|&n| n != 15);
        order.insert(3, 15);
    }
    if has(3) {
        let place = if file[0] == 1 { c.rng.below(2) } else { c.rng.below(4) };
        file[place] ^= 0x80;
        made.push(3);
    }
    if has(4) {
        file.extend(machine(7));
        made.push(4);
    }
    if has(15) {
        if !early {
            file.extend(kind_3);
        }
        made.push(15);
    }
    if has(2) {
        let more = 1 + c.rng.below(7);
        let len = file.len();
        if c.rng.once_in(2) {
            file.truncate(len - more);
        } else {
            file.extend(vec![2; more]);
        }
        made.push(2);
    }
    let room = if has(9) { 0 } else { c.rng.pick(&[1, 2, 16]) };
    made.extend(has(9).then_some(9));
    let number = order.iter().copied().find(|n| made.contains(n)).unwrap_or(0);
    let grade = c.rng.pattern(room);
    c.refuse(Call::HostGrade, &[&file, &plan, &grade], number);
}

/// Grading beside a job file that may be damaged: a true plan where it is a job, else anything.
pub fn beside(c: &mut Check, file: &[u8]) {
    let plan = match job::read(file, 1, usize::MAX) {
        Ok(job) => {
            let mut plan = grading::file(&job, &methods::quick(&job));
            if c.rng.once_in(3) {
                spoil(&mut c.rng, &mut plan);
            }
            plan
        }
        Err(_) => {
            let records = c.rng.below(5);
            c.rng.pattern(16 * records)
        }
    };
    let room = c.rng.pick(&[0, 1, 1, 2]);
    let grade = c.rng.pattern(room);
    c.judge(Call::HostGrade, &[file, &plan, &grade], None);
}

/// What the program must say of two files.
fn line(file: &[u8], plan: &[u8]) -> String {
    let (file, plan) = (&file[..file.len().min(JOB_INTAKE)], &plan[..plan.len().min(PLAN_INTAKE)]);
    match job::read(file, 1, usize::MAX).and_then(|job| grading::grade(&job, plan, None)) {
        Ok(Best) => "best\n".to_string(),
        Ok(Valid) => "valid\n".to_string(),
        Err(number) => format!("refused {}\n", number),
    }
}

fn said(c: &mut Check, program: &str, folder: &std::path::Path, file: &[u8], plan: &[u8]) {
    c.calls += 1;
    let (job_name, plan_name) = (folder.join("job"), folder.join("plan"));
    std::fs::write(&job_name, file).unwrap();
    std::fs::write(&plan_name, plan).unwrap();
    let out = Command::new(program).args([&job_name, &plan_name]).output().unwrap_or_else(|e| panic!("{}: {}", program, e));
    let (got, must) = (String::from_utf8_lossy(&out.stdout).into_owned(), line(file, plan));
    if got != must {
        c.fail(&format!("grade writes '{}' instead of '{}'", got, must), check::describe(Call::HostGrade, &[file, plan, &[]]));
    }
}

/// A refusal whose number is also known by a rule.
fn said_refused(c: &mut Check, program: &str, folder: &std::path::Path, file: &[u8], plan: &[u8], number: u32) {
    let (must, rule) = (line(file, plan), format!("refused {}\n", number));
    if must != rule {
        c.fail(&format!("the solver says {} the rule {}", must, rule), check::describe(Call::HostGrade, &[file, plan, &[]]));
    }
    said(c, program, folder, file, plan);
}

/// The program on rows of machines at the limit and past it, beside plans that would be true, and beside others.
fn rows(c: &mut Check, program: &str, folder: &std::path::Path) {
    for machines in [MACHINES - 1, MACHINES] {
        for tiles in [0, 1, TILES] {
            let job = small::sized(&mut c.rng, machines, tiles);
            let plan = grading::file(&job, &some_division(&mut c.rng, machines, tiles));
            said(c, program, folder, &job.file(), &plan);
            said_refused(c, program, folder, &job.file(), &[&plan[..], &[0; 16]].concat(), 12);
            said_refused(c, program, folder, &job.file(), &plan[16..], 12);
        }
    }
    for machines in TOO_MANY {
        for tiles in [0, 1, TILES, TILES + 1] {
            let job = small::sized(&mut c.rng, machines, tiles);
            let plan = grading::file(&job, &some_division(&mut c.rng, machines, tiles));
            said_refused(c, program, folder, &job.file(), &plan, 7);
            said_refused(c, program, folder, &job.file(), &[], 7);
        }
    }
}

/// The program on random jobs and plans, some damaged, and on longer files than it takes in.
fn program(c: &mut Check, times: usize) {
    let program = std::env::var("HELD_GRADE").unwrap_or_else(|_| concat!(env!("CARGO_MANIFEST_DIR"), "/../../target/bin/grade").to_string());
    let folder = std::env::temp_dir().join(format!("held-{}", std::process::id()));
    std::fs::create_dir_all(&folder).unwrap();
    for k in 0..300 * times {
        let (most, longest) = if k % 10 == 0 { (MACHINES, TILES + 1) } else { (4, 8) };
        let (machines, tiles) = (1 + c.rng.below(most), c.rng.below(longest));
        let job = small::sized(&mut c.rng, machines, tiles);
        let s = Solved::of(&job);
        let short = if c.rng.once_in(12) { small::short(&mut c.rng, &job) } else { None };
        let (mut file, plan) = (short.unwrap_or(job).file(), some_plan(&mut c.rng, &s));
        if c.rng.once_in(5) {
            damage::spoil(c, &mut file);
        }
        said(c, &program, &folder, &file, &plan);
    }
    let job = small::sized(&mut c.rng, MACHINES, TILES);
    let (file, plan) = (job.file(), grading::file(&job, &methods::quick(&job)));
    for more in [0, 1, 8, 9, 16, 17, 100_000] {
        let filler = c.rng.pattern(more);
        said(c, &program, &folder, &file, &[&plan[..], &filler].concat());
        said(c, &program, &folder, &[&file[..], &vec![0; more]].concat(), &plan);
    }
    for (file, number) in listing::around_intake(&job) {
        said_refused(c, &program, &folder, &file, &plan, number);
    }
    rows(c, &program, &folder);
    let _ = std::fs::remove_dir_all(&folder);
}

/// Damaged plans and the planner's own files of random jobs.
fn random(c: &mut Check, machines: usize, tiles: usize) {
    let job = small::sized(&mut c.rng, machines, tiles);
    own(c, &job);
    let s = Solved::of(&job);
    let back = grading::backwards(&job, s.bottleneck);
    if grading::of(&job, &back, Some(&s)) != Best {
        c.fail("the division from the other end is not best", format!("  {:?}", job));
    }
    for division in [s.best.clone(), s.quick.clone(), back, some_division(&mut c.rng, machines, tiles)] {
        of_division(c, &s, &division, rule_of(&s, &division));
    }
    let division = nudged(&mut c.rng, &s.job, &s.best);
    damaged(c, &s, &division);
}

pub fn run(c: &mut Check, times: usize) {
    worked(c);
    for (startup, hold) in [(None, 0), (Some(STARTUP), 0), (None, 22), (Some(1), 256)] {
        longest(c, startup, hold);
    }
    every(c);
    for _ in 0..1_200 * times {
        let (machines, tiles) = (1 + c.rng.below(4), c.rng.below(9));
        random(c, machines, tiles);
    }
    for _ in 0..20 * times {
        let (machines, tiles) = (1 + c.rng.below(MACHINES), c.rng.below(TILES + 1));
        random(c, machines, tiles);
    }
    together(c, 16 * times);
    together_in_c(c, 2 * times);
    program(c, times);
}
