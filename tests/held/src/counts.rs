//! How many machines and tiles a job may have, asked of every call that takes a job, by lists and by file: the most pass, one more and
//! many more are refused, after a bad speed or weight and before a list that is too short. And which rows can be halved.

use crate::answers::{bytes_of, Solved};
use crate::check::Check;
use crate::job::{self, Job};
use crate::limits::{job_bytes, plan_bytes, work_numbers, BOUND_LOAD, LISTING, LONGEST_HALVED};
use crate::limits::{MACHINES, SPEED, STARTUP, TILES, TOO_MANY, WEIGHT};
use crate::planner::Call;
use crate::{every, listing, small};

/// Lists of so many machines and tiles, with good speeds and weights, of either edition, with holds or without.
fn sized(c: &mut Check, machines: usize, tiles: usize) -> Job {
    let speeds = small::speeds(&mut c.rng, machines);
    let weights: Vec<u32> = (0..tiles).map(|_| c.rng.range(0, 9)).collect();
    match machines {
        0 => Job::of(small::startup(&mut c.rng, &weights), &speeds, &weights),
        _ => small::job_of(&mut c.rng, speeds, weights),
    }
}

/// All tiles on the last machine: a division but for rows without a machine.
fn division(job: &Job) -> Vec<usize> {
    let mut list = vec![0; job.speeds.len() + 1];
    list[job.speeds.len()] = job.weights.len();
    list
}

/// Every call on lists: with lent lists that are long enough for so many, then with none, and with another fault that comes later.
fn by_lists(c: &mut Check, job: &Job, number: u32) {
    let (machines, tiles) = (job.speeds.len(), job.weights.len());
    let (e, w) = (bytes_of(&job.speeds), bytes_of(&job.weights));
    let separators: Vec<u32> = division(job).iter().map(|&s| s as u32).collect();
    let separators = bytes_of(&separators);
    let plan = job::encode(&job::plan_of(job, &division(job)));
    let answer = c.rng.pattern(8 * 5);
    for enough in [true, false] {
        let n = c.edition(job);
        let len = |needed: usize| if enough { needed } else { 0 };
        let h = c.holds_of(job, len(machines));
        c.refuse(Call::Test(n), &[&e, &h, &w], number);
        let s = &separators[..len(separators.len())];
        let (file, room) = (c.rng.pattern(len(job_bytes(n.second, machines, tiles))), c.rng.pattern(len(plan_bytes(machines))));
        let work = c.rng.pattern(len(4 * work_numbers(tiles)));
        let (load, speed) = if enough { (BOUND_LOAD, 1) } else { (0, 0) };
        c.refuse(Call::Write(n), &[&e, &h, &w, &file, &answer], number);
        c.refuse(Call::Measure(n), &[&e, &h, &w, s, &answer], number);
        c.refuse(Call::Trial(n, load, speed), &[&e, &h, &w, s, &answer], number);
        c.refuse(Call::Quick(n), &[&e, &h, &w, s, &answer], number);
        c.refuse(Call::Halving(n), &[&e, &h, &w, s, &answer], number);
        for method in 1..=4 {
            c.refuse(Call::Plan(n, method), &[&e, &h, &w, s, &work, &answer], number);
        }
        c.refuse(Call::Plan(n, 5), &[&e, &h, &w, s, &work, &answer], 1);
        c.refuse(Call::PlanFile(n), &[&e, &h, &w, s, &room, &answer], number);
        c.refuse(Call::Grade(n), &[&e, &h, &w, &plan[..len(plan.len())], &answer], number);
    }
}

/// Every call on files, likewise. The call that lists a file tests its buffer first, and sees of a longer file what the program takes in.
fn by_file(c: &mut Check, job: &Job, number: u32) {
    let (machines, tiles) = (job.speeds.len(), job.weights.len());
    let file = job.file();
    let plan = job::encode(&job::plan_of(job, &division(job)));
    for len in [plan_bytes(machines), plan_bytes(machines.saturating_sub(1)), 0] {
        let room = c.rng.pattern(len);
        for method in 1..=4 {
            c.refuse(Call::Host { method }, &[&file, &room], number);
        }
        c.refuse(Call::Host { method: 0 }, &[&file, &room], 1);
    }
    let (speeds, weights, answer) = (c.rng.pattern(4 * machines), c.rng.pattern(4 * tiles), c.rng.pattern(8 * 4));
    let holds = c.rng.pattern(2 * machines);
    c.refuse(Call::Read, &[&file, &speeds, &holds, &weights, &answer], number);
    c.refuse(Call::Read, &[&file, &[], &[], &[], &[]], number);
    let grade = c.rng.pattern(1);
    c.refuse(Call::HostGrade, &[&file, &plan, &grade], number);
    c.refuse(Call::HostGrade, &[&file, &[], &[]], number);
    listing::called_with_rooms(c, &file);
    let text = c.rng.pattern(LISTING - 1);
    c.refuse(Call::List, &[&file, &text, &answer], 9);
}

fn refused(c: &mut Check, job: &Job, number: u32) {
    c.jobs_seen += 1;
    by_lists(c, job, number);
    by_file(c, job, number);
}

/// The counts alone; then a bad speed, a bad weight, and both, at the first place, at the last, and at the first past the limit; and
/// start-up work that is too much, which stands before them all.
fn too_much(c: &mut Check, machines: usize, tiles: usize, number: u32) {
    let job = sized(c, machines, tiles);
    refused(c, &job, number);
    let speeds: Vec<usize> = [0, MACHINES, machines.saturating_sub(1)].into_iter().filter(|&p| p < machines).collect();
    let weights: Vec<usize> = [0, TILES, tiles.saturating_sub(1)].into_iter().filter(|&i| i < tiles).collect();
    for &p in &speeds {
        let mut bad = job.clone();
        bad.speeds[p] = c.rng.pick(&[0, SPEED + 1]);
        refused(c, &bad, 5);
        if let Some(&i) = weights.last() {
            bad.weights[i] = WEIGHT + 1;
            refused(c, &bad, 5);
        }
    }
    for &i in &weights {
        let mut bad = job.clone();
        bad.weights[i] = WEIGHT + 1;
        refused(c, &bad, 6);
    }
    let mut bad = Job { startup: Some(c.rng.pick(&[STARTUP + 1, u32::MAX])), ..job };
    refused(c, &bad, 16);
    if let (Some(&p), Some(&i)) = (speeds.first(), weights.first()) {
        (bad.speeds[p], bad.weights[i]) = (0, WEIGHT + 1);
        refused(c, &bad, 16);
    }
}

/// The call that halves a row, with so many entries for separators.
fn halve(c: &mut Check, job: &Job, room: usize, number: u32) {
    let (e, h, w) = (bytes_of(&job.speeds), c.holds(job), bytes_of(&job.weights));
    let (separators, answer, n) = (c.rng.pattern(4 * room), c.rng.pattern(8 * 3), c.edition(job));
    c.refuse(Call::Halving(n), &[&e, &h, &w, &separators, &answer], number);
}

/// Rows of one speed, of every length: those of 1, 2, 4 and so on machines up to the limit are halved, all others up to it give 14, with
/// no room for separators too; past it they give 7, also where they are a power of two. With too many tiles it is 8 before 14, and with holds
/// 18 at last.
fn lengths_to_halve(c: &mut Check) {
    let doubled: Vec<usize> = (0..8).map(|k| 1 << k).filter(|&p| p <= MACHINES).collect();
    assert_eq!(doubled.last(), Some(&LONGEST_HALVED));
    for machines in (0..=2 * MACHINES + 70).chain([511, 512, 1 << 16]) {
        c.jobs_seen += 1;
        let speed = c.rng.pick(&[1, 2, 3, SPEED]);
        for tiles in [0, 1, 5, TILES + 1] {
            let weights: Vec<u32> = (0..tiles).map(|_| c.rng.range(0, 9)).collect();
            let startup = small::startup(&mut c.rng, &weights);
            let mut job = Job::of(startup, &vec![speed; machines], &weights);
            if machines > 0 && c.rng.once_in(3) {
                job = small::held(&mut c.rng, &job);
            }
            for room in [0, machines / 2, machines, machines + 1, machines + 4] {
                let number = match machines {
                    _ if machines == 0 || machines > MACHINES => 7,
                    _ if tiles > TILES => 8,
                    _ if !doubled.contains(&machines) => 14,
                    _ if room <= machines => 9,
                    _ if job.has_holds() => 18,
                    _ => 0,
                };
                halve(c, &job, room, number);
            }
        }
    }
}

/// A row of one speed is halved, and the same row is not with another speed at any one place, or at several.
fn speeds_to_halve(c: &mut Check) {
    let mut machines = 2;
    while machines <= LONGEST_HALVED {
        let mut unequal: Vec<Vec<u32>> = Vec::new();
        for (p, off) in (0..machines).flat_map(|p| [1, 256, 4_096, -1].map(|off| (p, off))) {
            let mut speeds = vec![c.rng.range(2, 5_000); machines];
            speeds[p] = (speeds[p] as i32 + off) as u32;
            unequal.push(speeds);
        }
        // Each half or every second machine of another speed, pairs, the two ends; and speeds with the sum that equal ones have.
        let (a, b) = (c.rng.range(2, 4_000), c.rng.range(4_001, SPEED));
        let shaped = |f: &dyn Fn(usize) -> bool| (0..machines).map(|p| if f(p) { a } else { b }).collect::<Vec<u32>>();
        unequal.extend([shaped(&|p| p < machines / 2), shaped(&|p| p % 2 == 0)]);
        unequal.extend([shaped(&|p| p / 2 % 2 == 0), shaped(&|p| p == 0 || p == machines - 1)]);
        for (p, q) in [(0, 1), (0, machines - 1), (machines - 1, machines / 2 - 1)] {
            let mut speeds = vec![a; machines];
            speeds[p] += 1;
            speeds[q] -= 1;
            unequal.push(speeds);
        }
        for speeds in unequal.into_iter().filter(|s| s.iter().any(|e| *e != s[0])) {
            let tiles = c.rng.pick(&[0, 1, 3, 40]);
            let weights = (0..tiles).map(|_| c.rng.range(0, 9)).collect();
            let job = small::job_of(&mut c.rng, speeds, weights);
            c.jobs_seen += 1;
            for room in [0, machines, machines + 1] {
                halve(c, &job, room, 14);
            }
            let number = if job.has_holds() { 18 } else { 0 };
            halve(c, &Job { speeds: vec![job.speeds[0]; machines], ..job }, machines + 1, number);
        }
        machines *= 2;
    }
}

pub fn run(c: &mut Check) {
    lengths_to_halve(c);
    speeds_to_halve(c);
    let most = [(1, 0), (1, TILES), (MACHINES - 1, 1), (MACHINES, 0), (MACHINES, 1), (MACHINES, TILES - 1), (MACHINES, TILES)];
    for (machines, tiles) in most {
        for _ in 0..4 {
            let job = sized(c, machines, tiles);
            every::job(c, &Solved::of(&job), false);
            listing::called_with_rooms(c, &job.file());
        }
    }
    for tiles in [0, 3, TILES, TILES + 1] {
        for machines in TOO_MANY {
            too_much(c, machines, tiles, 7);
        }
        too_much(c, 0, tiles, 7);
    }
    for machines in [1, 2, MACHINES - 1, MACHINES] {
        too_much(c, machines, TILES + 1, 8);
        too_much(c, machines, TILES + 2, 8);
    }
}
