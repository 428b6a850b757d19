//! The slow solver: tries every division of a small job that keeps its holds.

use crate::job::Job;

/// A bound: load over speed.
pub type Bound = (u128, u128);

/// a/b < c/d.
pub fn less(x: Bound, y: Bound) -> bool {
    x.0 * y.1 < y.0 * x.1
}

/// The greatest share's bound; of equal ones that of the lowest machine.
pub fn bottleneck(job: &Job, separators: &[usize]) -> Bound {
    let mut greatest = (job.load(0, separators[1]), job.speeds[0] as u128);
    for p in 1..job.speeds.len() {
        let share = (job.load(separators[p], separators[p + 1]), job.speeds[p] as u128);
        if less(greatest, share) {
            greatest = share;
        }
    }
    greatest
}

/// Visits every division of the job: each list of separators whose shares keep the holds.
pub fn every_division(job: &Job, visit: &mut dyn FnMut(&[usize])) {
    every_list(&mut vec![0], job.speeds.len(), job.weights.len(), &mut |separators| {
        if (0..job.speeds.len()).all(|p| job.keeps(p, separators[p], separators[p + 1])) {
            visit(separators);
        }
    });
}

/// Visits every rising list of separators up to the last tile that begins with these.
fn every_list(separators: &mut Vec<usize>, machines: usize, tiles: usize, visit: &mut dyn FnMut(&[usize])) {
    if separators.len() == machines {
        separators.push(tiles);
        visit(separators);
        separators.pop();
        return;
    }
    for next in separators[separators.len() - 1]..=tiles {
        separators.push(next);
        every_list(separators, machines, tiles, visit);
        separators.pop();
    }
}

/// How far the first machines get within a bound and their holds, for none of them, for one, and so on, however tiles are given from the first on and in
/// order: each machine is tried with every share, from wherever those before it can stop.
pub fn furthest(job: &Job, bound: Bound) -> Vec<usize> {
    let tiles = job.weights.len();
    // Of each index whether the machines so far can stop there.
    let mut stops: Vec<bool> = (0..=tiles).map(|i| i == 0).collect();
    let mut list = vec![0];
    for (p, &e) in job.speeds.iter().enumerate() {
        let within = |j: usize, i: usize| job.keeps(p, j, i) && !less(bound, (job.load(j, i), e as u128));
        stops = (0..=tiles).map(|i| (0..=i).any(|j| stops[j] && within(j, i))).collect();
        list.push(stops.iter().rposition(|&is| is).unwrap());
    }
    list
}

/// The best division whose every separator is furthest, and its bottleneck. The holds leave room for all tiles.
pub fn solve(job: &Job) -> (Vec<usize>, Bound) {
    let mut best: Vec<Vec<usize>> = Vec::new();
    let mut least: Option<Bound> = None;
    every_division(job, &mut |separators| {
        let b = bottleneck(job, separators);
        match least {
            Some(l) if less(l, b) => {}
            Some(l) if !less(b, l) => best.push(separators.to_vec()),
            _ => {
                least = Some(b);
                best = vec![separators.to_vec()];
            }
        }
    });
    let furthest: Vec<&Vec<usize>> =
        best.iter().filter(|d| best.iter().all(|other| other.iter().zip(d.iter()).all(|(o, s)| o <= s))).collect();
    assert_eq!(furthest.len(), 1, "no single furthest division of {:?}", job);
    let division = furthest[0].clone();
    let b = bottleneck(job, &division);
    (division, b)
}
