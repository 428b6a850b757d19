//! Small jobs against the slow solver.

use crate::check::Check;
use crate::job::Job;
use crate::limits::{SPEED, STARTUP, WEIGHT};
use crate::rng::Rng;
use crate::slow::{self, Bound};
use crate::{every, fast, methods};

/// Every call on the job; now and then with lists of all lengths together.
fn both(c: &mut Check, job: &Job) {
    let thorough = c.rng.once_in(60);
    every::both(c, job, thorough);
}

pub fn speeds(r: &mut Rng, machines: usize) -> Vec<u32> {
    let style = r.below(8);
    let same = r.range(1, SPEED);
    let near = r.range(SPEED - 1_000, SPEED - 10);
    (0..machines)
        .map(|_| match style {
            0..=2 => r.range(1, 4),
            3 => r.pick(&[1, SPEED]),
            4 => r.range(1, SPEED),
            5 => near + r.range(0, 10),
            6 => same,
            _ => r.range(1, 2),
        })
        .collect()
}

pub fn weights(r: &mut Rng, tiles: usize, speeds: &[u32]) -> Vec<u32> {
    let style = r.below(12);
    let same = r.range(0, WEIGHT);
    let rare = 1 + r.below(tiles + 1);
    let near = r.range(1, 99);
    (0..tiles)
        .map(|_| match style {
            0 => r.range(0, 1),
            1 => r.range(0, 3),
            2 => r.range(0, 9),
            3 => r.pick(&[0, 0, 0, 1, 2]),
            4 => r.pick(&[0, 1, 2, 4, 8, 16]),
            5 => r.range(0, WEIGHT),
            6 => r.range(WEIGHT - 10, WEIGHT),
            7 => same,
            8 => r.pick(&[0, 1, WEIGHT]),
            9 => 0,
            // Loads that are nearly, or exactly, the same number of turns of some machine.
            10 => r.pick(speeds) * near + r.range(0, 2) - 1,
            _ => {
                if r.once_in(rare) {
                    r.range(1, WEIGHT)
                } else {
                    0
                }
            }
        })
        .collect()
}

/// The start-up work of a job with these weights, none in the first edition: none at all, little, about a weight or as much as all weights,
/// the most, or any.
pub fn startup(r: &mut Rng, weights: &[u32]) -> Option<u32> {
    let c = match r.below(20) {
        0..=8 => return None,
        9 | 10 => 0,
        11..=13 => r.range(1, 4),
        14 | 15 if !weights.is_empty() => (r.pick(weights) + r.range(0, 2)).saturating_sub(1),
        16 => weights.iter().map(|&w| w as u64).sum::<u64>().min(STARTUP as u64) as u32,
        17 => STARTUP,
        _ => r.range(0, STARTUP),
    };
    Some(c.min(STARTUP))
}

/// So many numbers, none of them 0, with this sum.
fn places(r: &mut Rng, machines: usize, sum: usize) -> Vec<u16> {
    let mut cuts: Vec<usize> = (1..machines).map(|_| r.below(sum - machines + 1)).collect();
    cuts.extend([0, sum - machines]);
    cuts.sort();
    cuts.windows(2).map(|two| (1 + two[1] - two[0]) as u16).collect()
}

/// Holds of machines for so many tiles, at least one of them set, that leave room for all tiles: just as many places as tiles or a few more,
/// about as many to each machine, all machines but one limited, one alone, the last one, the first ones, each as small as can be, about N,
/// or the greatest, or any.
fn holds(r: &mut Rng, machines: usize, tiles: usize) -> Vec<u16> {
    let n = tiles as u16;
    let (style, one) = (r.below(10), r.below(machines));
    let each = tiles.div_ceil(machines) as u32;
    let mut list: Vec<u16> = match style {
        0 | 1 if machines <= tiles => {
            let more = if style == 0 { 0 } else { 1 + r.below(3) };
            places(r, machines, tiles + more)
        }
        2 => (0..machines).map(|_| r.range(1, 2 * each + 1) as u16).collect(),
        3 => (0..machines).map(|p| if p == one { 0 } else { r.range(1, each.max(2)) as u16 }).collect(),
        4 => (0..machines).map(|p| if p == one { r.range(1, n.max(1) as u32) as u16 } else { 0 }).collect(),
        5 => (0..machines).map(|p| if p + 1 == machines { r.range(1, each + 1) as u16 } else { 0 }).collect(),
        6 => (0..machines).map(|p| if p <= one { r.range(1, 2) as u16 } else { 0 }).collect(),
        7 => (0..machines).map(|_| r.pick(&[0, 1, n.saturating_sub(1), n, n + 1, u16::MAX])).collect(),
        8 => (0..machines).map(|_| if r.once_in(2) { 0 } else { r.next() as u16 }).collect(),
        _ => (0..machines).map(|_| r.range(0, each + 1) as u16).collect(),
    };
    if list.iter().all(|&h| h == 0) {
        list[one] = r.pick(&[1, n.max(1), u16::MAX]);
    }
    let places: usize = list.iter().map(|&h| h as usize).sum();
    if places < tiles && !list.contains(&0) {
        list[one] += (tiles - places) as u16 + r.pick(&[0, 0, 1, 2]);
    }
    list
}

/// The same job with holds that leave room for all tiles.
pub fn held(r: &mut Rng, job: &Job) -> Job {
    job.holding(holds(r, job.speeds.len(), job.weights.len()))
}

/// The same job with holds that leave no room for all tiles, often for all but one; none where there are no more tiles than machines.
pub fn short(r: &mut Rng, job: &Job) -> Option<Job> {
    let (machines, tiles) = (job.speeds.len(), job.weights.len());
    if machines >= tiles {
        return None;
    }
    let sum = if r.once_in(2) { tiles - 1 } else { machines + r.below(tiles - machines) };
    Some(job.holding(places(r, machines, sum)))
}

/// A job of these lists, of either edition, and about one in three with holds, which leave room for all tiles.
pub fn job_of(r: &mut Rng, speeds: Vec<u32>, weights: Vec<u32>) -> Job {
    let job = Job::of(startup(r, &weights), &speeds, &weights);
    if r.once_in(3) {
        held(r, &job)
    } else {
        job
    }
}

/// A job of this size, of either edition, with holds or without.
pub fn sized(r: &mut Rng, machines: usize, tiles: usize) -> Job {
    let speeds = speeds(r, machines);
    let weights = weights(r, tiles, &speeds);
    job_of(r, speeds, weights)
}

/// The same; now and then the holds leave no room for all tiles.
pub fn any_sized(r: &mut Rng, machines: usize, tiles: usize) -> Job {
    let job = sized(r, machines, tiles);
    if !r.once_in(20) {
        return job;
    }
    short(r, &job).unwrap_or(job)
}

/// Every job with up to 5 tiles and up to 3 machines of small numbers.
pub fn every_job(visit: &mut dyn FnMut(&Job)) {
    for (tiles, machines, heaviest, fastest) in
        [(0, 3, 0, 3), (1, 3, 5, 4), (2, 3, 5, 3), (3, 3, 4, 3), (4, 3, 2, 3), (5, 2, 3, 2), (5, 3, 2, 2), (6, 2, 2, 2), (3, 4, 2, 2)]
    {
        for m in 1..=machines {
            every_list(m, 1, fastest, &mut |s| {
                every_list(tiles, 0, heaviest, &mut |w| visit(&Job::new(s, w)));
            });
        }
    }
}

/// The same job in the second edition, with little start-up work.
pub fn in_second(r: &mut Rng, job: &Job) -> Job {
    Job { startup: Some(r.pick(&[0, 1, 1, 2, 3, 5])), ..job.clone() }
}

/// Every list of up to 9 small weights on 1, 2, 4 and 8 machines of one speed, to be halved.
fn every_row(c: &mut Check) {
    for machines in [1, 2, 4, 8] {
        for (tiles, heaviest) in [(0, 0), (1, 9), (2, 9), (3, 7), (4, 5), (5, 3), (6, 2), (7, 2), (8, 1), (9, 1)] {
            every_list(tiles, 0, heaviest, &mut |w| {
                let speed = c.rng.pick(&[1, 2, 3, SPEED]);
                let startup = c.rng.pick(&[None, None, Some(0), Some(1), Some(2)]);
                row(c, &Job::of(startup, &vec![speed; machines], w));
            });
        }
    }
}

/// A row of one speed to be halved, as many machines as can be; now and then with lists of all lengths together.
pub fn row(c: &mut Check, job: &Job) {
    c.jobs_seen += 1;
    let thorough = c.rng.once_in(60);
    every::halve(c, job, &methods::quick(job), least(job), thorough);
}

/// The best bottleneck: by every division where these are few, else by the fast reference.
fn least(job: &Job) -> Bound {
    let (machines, tiles) = (job.speeds.len(), job.weights.len());
    if !(machines <= 4 && tiles <= 9 || machines <= 8 && tiles <= 5) {
        return fast::solve(job).1;
    }
    let mut least: Option<Bound> = None;
    slow::every_division(job, &mut |separators| {
        let b = slow::bottleneck(job, separators);
        if least.map_or(true, |l| slow::less(b, l)) {
            least = Some(b);
        }
    });
    least.unwrap()
}

/// A job of these lists for a row that is to be halved: few with holds, since these are refused.
pub fn row_of(r: &mut Rng, speeds: Vec<u32>, weights: Vec<u32>) -> Job {
    let job = job_of(r, speeds, weights);
    if r.once_in(6) {
        job
    } else {
        job.unlimited()
    }
}

/// Any small row of 1, 2, 4 or 8 machines of one speed.
pub fn random_row(c: &mut Check) {
    let (machines, tiles) = (1 << c.rng.below(4), c.rng.below(9));
    let speeds = vec![c.rng.range(1, SPEED); machines];
    let weights = weights(&mut c.rng, tiles, &speeds);
    let job = row_of(&mut c.rng, speeds, weights);
    row(c, &job);
}

/// Every list of so many numbers, each from the least to the greatest.
pub fn every_list(len: usize, least: u32, greatest: u32, visit: &mut dyn FnMut(&[u32])) {
    let mut list = vec![least; len];
    loop {
        visit(&list);
        let mut k = 0;
        while k < len && list[k] == greatest {
            list[k] = least;
            k += 1;
        }
        if k == len {
            return;
        }
        list[k] += 1;
    }
}

/// A job whose two best cuts give bounds L1/e1 and L2/e2 that are equal or as near as two can be, with start-up work or without.
/// With `tiles` tiles on each side of the tile between the cuts.
pub fn neighbours(r: &mut Rng, tiles: usize) -> Job {
    loop {
        let (e1, e2) = (r.range(1, SPEED) as i64, r.range(1, SPEED) as i64);
        let apart = r.range(0, 2) as i64 - 1;
        let Some(start) = (0..e1).find(|w| (w * e2 - apart).rem_euclid(e1) == 0) else { continue };
        let most = tiles as i64 * WEIGHT as i64;
        let w1 = start + e1 * r.below((most / e1) as usize + 1) as i64;
        let w2 = (w1 * e2 - apart) / e1;
        if w1 < 1 || w2 < 1 || w1 > most || w2 > most {
            continue;
        }
        let startup = if r.once_in(2) { None } else { Some(r.range(0, (w1.min(w2) - 1).min(STARTUP as i64) as u32)) };
        // Without start-up work W1 is the left side with the middle tile, W2 the middle tile with the right side.
        let (w1, w2) = (w1 - startup.unwrap_or(0) as i64, w2 - startup.unwrap_or(0) as i64);
        let middle = r.range(1, w1.min(w2).min(WEIGHT as i64) as u32);
        let mut weights = pieces(r, (w1 - middle as i64) as u32, tiles);
        weights.push(middle);
        weights.extend(pieces(r, (w2 - middle as i64) as u32, tiles));
        return Job::of(startup, &[e1 as u32, e2 as u32], &weights);
    }
}

/// So many weights with a given sum.
pub fn pieces(r: &mut Rng, sum: u32, tiles: usize) -> Vec<u32> {
    let mut left = sum;
    let mut list = Vec::new();
    for k in (0..tiles as u32).rev() {
        let least = left.saturating_sub(k * WEIGHT);
        let w = if k == 0 { left } else { r.range(least, left.min(WEIGHT).min(2 * (left / (k + 1)) + 1).max(least)) };
        list.push(w);
        left -= w;
    }
    list
}

/// Bounds as near as they can be, perhaps with a third machine before or after that has a tile of its own.
pub fn near_job(r: &mut Rng) -> Job {
    let sides = 1 + r.below(3);
    let mut job = neighbours(r, sides);
    if r.once_in(2) {
        let (e, w) = (r.range(1, SPEED), r.range(0, WEIGHT));
        let (p, i) = r.pick(&[(0, 0), (2, job.weights.len())]);
        job.speeds.insert(p, e);
        job.holds.insert(p, 0);
        job.weights.insert(i, w);
    }
    if r.once_in(4) {
        job = held(r, &job);
    }
    job
}

pub fn near(c: &mut Check) {
    let job = near_job(&mut c.rng);
    both(c, &job);
}

/// Any small job whose holds leave room for all tiles.
pub fn random_job(r: &mut Rng) -> Job {
    let (machines, tiles) = (1 + r.below(4), r.below(9));
    sized(r, machines, tiles)
}

/// Any small job.
pub fn random(c: &mut Check) {
    let (machines, tiles) = (1 + c.rng.below(4), c.rng.below(9));
    let job = any_sized(&mut c.rng, machines, tiles);
    any(c, &job);
}

/// Every call on a job whose holds may leave no room for all tiles.
fn any(c: &mut Check, job: &Job) {
    if job.has_room() {
        both(c, job);
    } else {
        every::short(c, job);
    }
}

/// Jobs of small numbers, up to 4 tiles and 3 machines, with every list of holds from none to more than there are tiles; so many of them, by
/// chance.
fn every_hold(c: &mut Check, one_in: usize) {
    for (tiles, machines, heaviest, fastest) in [(0, 3, 0, 2), (1, 3, 2, 2), (2, 3, 2, 2), (3, 3, 2, 2), (4, 2, 2, 3), (4, 3, 1, 2), (5, 2, 1, 2)] {
        for m in 1..=machines {
            every_list(m, 0, tiles as u32 + 1, &mut |holds| {
                every_list(m, 1, fastest, &mut |s| {
                    every_list(tiles, 0, heaviest, &mut |w| {
                        if c.rng.once_in(one_in) {
                            let startup = c.rng.pick(&[None, None, Some(0), Some(1), Some(2)]);
                            let holds: Vec<u16> = holds.iter().map(|&h| h as u16).collect();
                            any(c, &Job::held(startup, s, &holds, w));
                        }
                    });
                });
            });
        }
    }
}

pub fn run(c: &mut Check, times: usize) {
    every_job(&mut |job| both(c, job));
    every_job(&mut |job| {
        if c.rng.once_in(2) {
            let job = in_second(&mut c.rng, job);
            both(c, &job);
        }
    });
    every_hold(c, 6);
    every_row(c);
    for _ in 0..10_000 * times {
        random_row(c);
    }
    for _ in 0..4_000 * times {
        near(c);
    }
    for _ in 0..92_000 * times {
        random(c);
    }
}
