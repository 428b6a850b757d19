//! The fast reference, for jobs up to the limits.
//!
//! Two unequal bounds lie at least 1 over the square of the greatest speed apart. On a grid of steps of half of that, the least
//! step t at which a walk fits has exactly one share's bound between t − 1 (excluded) and t, and it is the least bottleneck. So
//! the search is a halving of whole numbers t. The result is then checked exactly: no division keeps every share strictly below
//! the bottleneck found, and the walk at the bottleneck itself gives the furthest division. Every walk keeps the holds.

use crate::job::Job;
use crate::limits::SPEED;

const STEPS: i128 = 2 * SPEED as i128 * SPEED as i128;

/// Gives each machine but the last as many tiles as `within(load, speed)` and its hold allow; None if the last one's rest is too much.
fn walk(job: &Job, within: impl Fn(i128, i128) -> bool) -> Option<Vec<usize>> {
    let tiles = job.weights.len();
    let mut separators = vec![0];
    let mut at = 0;
    let (last, others) = job.speeds.split_last().unwrap();
    for (&speed, &hold) in others.iter().zip(&job.holds) {
        let mut load = job.c() as i128;
        let end = last_place(tiles, at, hold);
        while at < end && within(load + job.weights[at] as i128, speed as i128) {
            load += job.weights[at] as i128;
            at += 1;
        }
        separators.push(at);
    }
    let rest = load_of(job, &job.weights[at..]);
    let holds_rest = last_place(tiles, at, job.holds[others.len()]) == tiles;
    separators.push(tiles);
    (holds_rest && within(rest, *last as i128)).then_some(separators)
}

/// How far a machine with this hold can get from an index on.
fn last_place(tiles: usize, from: usize, hold: u16) -> usize {
    match hold {
        0 => tiles,
        _ => tiles.min(from + hold as usize),
    }
}

/// Whether the first machines, so many of them, can take all tiles in order within a bound: from the last tile back each takes all that it
/// can hold and can carry beside the start-up work.
pub fn take_all(job: &Job, machines: usize, (load, speed): (u128, u128)) -> bool {
    let mut left = &job.weights[..];
    for (&e, &hold) in job.speeds[..machines].iter().zip(&job.holds).rev() {
        let Some(mut carries) = (load as u64 * e as u64 / speed as u64).checked_sub(job.c() as u64) else { continue };
        let mut places = if hold == 0 { usize::MAX } else { hold as usize };
        while let Some((&last, others)) = left.split_last().filter(|(&last, _)| last as u64 <= carries && places > 0) {
            carries -= last as u64;
            places -= 1;
            left = others;
        }
    }
    left.is_empty()
}

/// The load of these tiles on one machine.
fn load_of(job: &Job, tiles: &[u32]) -> i128 {
    let weight: i128 = tiles.iter().map(|&w| w as i128).sum();
    weight + if tiles.is_empty() { 0 } else { job.c() as i128 }
}

/// The furthest best division and its bottleneck. The holds leave room for all tiles.
pub fn solve(job: &Job) -> (Vec<usize>, (u128, u128)) {
    let total = load_of(job, &job.weights);
    let fits = |t: i128| walk(job, |load, speed| load * STEPS <= t * speed);
    // At `high` every division fits.
    let (mut low, mut high) = (-1i128, total * STEPS);
    while high - low > 1 {
        let middle = low + (high - low) / 2;
        if fits(middle).is_some() {
            high = middle;
        } else {
            low = middle;
        }
    }
    let found = fits(high).expect("the high end fits");
    let (load, speed) = bottleneck(job, &found);
    if load > 0 {
        let better = walk(job, |l, e| l * speed < load * e);
        assert!(better.is_none(), "the reference is not the best for {:?}", job);
    }
    let separators = walk(job, |l, e| l * speed <= load * e).expect("the bottleneck fits");
    let (load, speed) = bottleneck(job, &separators);
    (separators, (load as u128, speed as u128))
}

fn bottleneck(job: &Job, separators: &[usize]) -> (i128, i128) {
    let mut found = (-1i128, 1i128);
    for (p, &speed) in job.speeds.iter().enumerate() {
        let load = load_of(job, &job.weights[separators[p]..separators[p + 1]]);
        if load * found.1 > found.0 * speed as i128 {
            found = (load, speed as i128);
        }
    }
    found
}
