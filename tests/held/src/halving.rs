//! Halving the row, section 16 of the scope, in two forms: every index of each part tried in turn, and by sums.

use crate::job::Job;

/// Whether a row can be halved: all speeds are equal, and the machines are 1, or twice a number that can.
pub fn can_halve(speeds: &[u32]) -> bool {
    let mut machines = 1;
    while machines < speeds.len() {
        machines *= 2;
    }
    machines == speeds.len() && speeds.windows(2).all(|e| e[0] == e[1])
}

/// What halving comes to: the separators, and of how many splits more than one index was nearest.
#[derive(Clone, Debug, PartialEq)]
pub struct Halved {
    pub separators: Vec<usize>,
    /// Splits with two nearest weights on the left, one below half of the part's and one above.
    pub ties: u64,
    /// Splits of a part that weighs something, with tiles of weight 0 behind the separator.
    pub noughts: u64,
}

/// Every index of each part is tried, its weight on the left added up tile by tile; then the same is done to each side.
pub fn in_turn(job: &Job) -> Halved {
    let machines = job.speeds.len();
    let mut found = Halved { separators: vec![0; machines + 1], ties: 0, noughts: 0 };
    split(job, (0, machines), (0, job.weights.len()), &mut found);
    found
}

/// The machines `first` + 1 to `last` take the tiles a + 1 to b.
fn split(job: &Job, (first, last): (usize, usize), (a, b): (usize, usize), found: &mut Halved) {
    found.separators[first] = a;
    found.separators[last] = b;
    if last - first == 1 {
        return;
    }
    let part = job.weight(a, b) as i128;
    let mut left = 0;
    // Of each index by how much its weight on the left is off the half, doubled: below 0 where it is less.
    let mut off = vec![-part];
    for i in a + 1..=b {
        left += job.weights[i - 1] as i128;
        off.push(2 * left - part);
    }
    let least = off.iter().map(|d| d.abs()).min().unwrap();
    let k = off.iter().position(|d| d.abs() == least).unwrap();
    found.ties += (least > 0 && off.contains(&least) && off.contains(&-least)) as u64;
    found.noughts += (part > 0 && off.get(k + 1) == Some(&off[k])) as u64;
    let between = (first + last) / 2;
    split(job, (first, between), (a, a + k), found);
    split(job, (between, last), (a + k, b), found);
}

/// The same separators with no index tried in turn: all parts of one length, then all of half that length. In each the first index whose
/// sum reaches the half is looked up, and the first with the greatest sum below it.
pub fn by_sums(job: &Job) -> Vec<usize> {
    let mut sums = vec![0u64];
    for &w in &job.weights {
        sums.push(sums[sums.len() - 1] + w as u64);
    }
    let mut list = vec![0, job.weights.len()];
    while list.len() <= job.speeds.len() {
        let mut finer = vec![0];
        for part in list.windows(2) {
            let (a, b) = (part[0], part[1]);
            let ends = sums[a] + sums[b];
            let first = |enough: &dyn Fn(u64) -> bool| a + sums[a..=b].partition_point(|&sum| !enough(sum));
            let reaches = first(&|sum| 2 * sum >= ends);
            let mut at = reaches;
            if reaches > a {
                let below = first(&|sum| sum >= sums[reaches - 1]);
                if ends - 2 * sums[below] <= 2 * sums[reaches] - ends {
                    at = below;
                }
            }
            finer.extend([at, b]);
        }
        list = finer;
    }
    list
}

/// What P times the greatest load may be at most, 16.7: Wtot and P − 1 times the heaviest weight, and P times the start-up work.
pub fn most(job: &Job) -> u128 {
    let heaviest = job.weights.iter().copied().max().unwrap_or(0) as u128;
    let machines = job.speeds.len() as u128;
    job.weight(0, job.weights.len()) + heaviest * (machines - 1) + job.c() * machines
}
