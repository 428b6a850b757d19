//! Trial, quick plan, the counts of the four methods and what else a plan carries, each as the scope says it.

use crate::job::Job;
use crate::slow::{self, less, Bound};

/// What a trial comes to: the P + 1 separators that it writes; where it fails the least next bid, and where it fits the number of machines
/// that its walk came to. Where the holds leave no room for all tiles there can be neither.
#[derive(Clone, Debug, PartialEq)]
pub struct Trial {
    pub separators: Vec<usize>,
    pub next: Option<Bound>,
    pub machines: Option<usize>,
}

impl Trial {
    pub fn fits(&self) -> bool {
        self.machines.is_some()
    }

    /// Where the last share begins, and how far the last machine reaches.
    pub fn last(&self) -> (usize, usize) {
        let machines = self.separators.len() - 1;
        (self.separators[machines - 1], self.separators[machines])
    }
}

/// A trial: each machine takes tiles up to the greatest index whose share is within the bound and keeps its hold; with its first tile it has
/// the start-up work. Each before the last bids its share with the next tile added, but not at its hold; the last bids all that is left, if
/// it holds that, and where that is within the bound too the trial fits. Then the machines that it came to are the smallest p whose separator
/// is N; s0 is, where there are no tiles.
pub fn trial(job: &Job, bound: Bound) -> Trial {
    let tiles = job.weights.len();
    let mut separators = vec![0];
    let mut least: Option<Bound> = None;
    let mut at = 0;
    for (p, &speed) in job.speeds.iter().enumerate() {
        // The share with the tiles so far, as it counts where there is one.
        let (start, mut share) = (at, (job.c(), speed as u128));
        // A share only grows, so the first index that is too much ends the search.
        while at < tiles && job.keeps(p, start, at + 1) {
            let longer = (share.0 + job.weights[at] as u128, share.1);
            if less(bound, longer) {
                break;
            }
            share = longer;
            at += 1;
        }
        separators.push(at);
        let bid = if p + 1 == job.speeds.len() {
            if !job.keeps(p, start, tiles) {
                continue;
            }
            let left = (job.load(start, tiles), share.1);
            if !less(bound, left) {
                let machines = (0..separators.len()).find(|&p| separators[p] == tiles);
                return Trial { separators, next: None, machines };
            }
            left
        } else if at < tiles && job.keeps(p, start, at + 1) {
            (share.0 + job.weights[at] as u128, share.1)
        } else {
            continue;
        };
        if least.map_or(true, |l| less(bid, l)) {
            least = Some(bid);
        }
    }
    Trial { separators, next: least, machines: None }
}

/// The quick plan, which is for jobs without holds: the smallest index whose W(1,s) is nearest to the machine's target, among all indices.
pub fn quick(job: &Job) -> Vec<usize> {
    let tiles = job.weights.len();
    let whole: i128 = job.weight(0, tiles) as i128;
    let all_speed: i128 = job.speeds.iter().map(|&e| e as i128).sum();
    let mut separators = vec![0];
    let mut speed_so_far = 0;
    for &e in &job.speeds[..job.speeds.len() - 1] {
        speed_so_far += e as i128;
        let (mut best, mut distance, mut sum) = (0, whole * speed_so_far, 0i128);
        for i in 1..=tiles {
            sum += job.weights[i - 1] as i128;
            let d = (sum * all_speed - whole * speed_so_far).abs();
            if d < distance {
                (best, distance) = (i, d);
            }
        }
        separators.push(best);
    }
    separators.push(tiles);
    separators
}

pub fn ideal(job: &Job) -> Bound {
    (job.weight(0, job.weights.len()), job.speeds.iter().map(|&e| e as u128).sum())
}

/// Whether the quick plan's bottleneck is above the ideal by at most heaviest / slowest, in the second edition (heaviest + c) / slowest.
pub fn is_close(job: &Job, bottleneck: Bound) -> bool {
    let (whole, all_speed) = ideal(job);
    let heaviest = job.weights.iter().copied().max().unwrap_or(0) as u128;
    let slowest = *job.speeds.iter().min().unwrap() as u128;
    // Both bounds over both speeds.
    !less((whole * slowest + (heaviest + job.c()) * all_speed, all_speed * slowest), bottleneck)
}

/// Bidding's trials.
pub fn bids(job: &Job) -> u64 {
    let mut bound = ideal(job);
    let mut trials = 1;
    while let Some(next) = trial(job, bound).next {
        trials += 1;
        bound = next;
    }
    trials
}

/// Where bisection's high end starts. Request M-108: with any hold at all weight and c over the slowest speed.
pub fn high_end(job: &Job) -> Bound {
    if !job.has_holds() {
        return slow::bottleneck(job, &quick(job));
    }
    (job.weight(0, job.weights.len()) + job.c(), *job.speeds.iter().min().unwrap() as u128)
}

/// Bisection's trials.
pub fn halvings(job: &Job) -> u64 {
    let Some(mut low) = trial(job, ideal(job)).next else { return 1 };
    let mut high = high_end(job);
    let mut trials = 1;
    while less(low, high) || less(high, low) {
        trials += 1;
        let half = (low.0 * high.1 + high.0 * low.1, 2 * low.1 * high.1);
        let tried = trial(job, half);
        match tried.next {
            None => high = slow::bottleneck(job, &tried.separators),
            Some(next) => low = next,
        }
    }
    trials
}

/// Above every other bound: what the table has where the first machines have no division of the first tiles.
const ABOVE: Bound = (1, 0);

/// Where j starts for a machine and i tiles: at i less its hold; at 0 if that is less, or there is no limit.
pub fn start(job: &Job, p: usize, i: usize) -> usize {
    match job.holds[p] as usize {
        0 => 0,
        hold if i < hold => 0,
        hold => i - hold,
    }
}

/// The table: of each machine its row of bounds, and of each but the first the crossings.
pub struct Table {
    pub rows: Vec<Vec<Bound>>,
    pub crossings: Vec<Vec<usize>>,
}

/// Every value from every j, every crossing by trying each j from the start on. The value at the crossing, or at the index before where the
/// crossing is above the start, must be as small.
pub fn table(job: &Job) -> Table {
    let tiles = job.weights.len();
    let first = |i: usize| if job.keeps(0, 0, i) { (job.load(0, i), job.speeds[0] as u128) } else { ABOVE };
    let mut table = Table { rows: vec![(0..=tiles).map(first).collect()], crossings: Vec::new() };
    for (p, &e) in job.speeds.iter().enumerate().skip(1) {
        let before = &table.rows[p - 1];
        let share = |j: usize, i: usize| (job.load(j, i), e as u128);
        let greater = |j: usize, i: usize| if less(before[j], share(j, i)) { share(j, i) } else { before[j] };
        let lesser = |a: Bound, b: Bound| if less(b, a) { b } else { a };
        let (mut row, mut crossings) = (Vec::new(), Vec::new());
        for i in 0..=tiles {
            let from = start(job, p, i);
            let crossing = (from..=i).find(|&j| !less(before[j], share(j, i))).unwrap();
            let least = (from..=i).map(|j| greater(j, i)).reduce(lesser).unwrap();
            let mut found = greater(crossing, i);
            if crossing > from {
                found = lesser(found, greater(crossing - 1, i));
            }
            assert!(!less(least, found), "the crossing misses the least for {:?}", job);
            row.push(least);
            crossings.push(crossing);
        }
        table.rows.push(row);
        table.crossings.push(crossings);
    }
    table
}

/// The table's moves: of each machine but the first a pointer goes from crossing to crossing, and never back.
pub fn moves_by_table(job: &Job) -> u64 {
    let mut moves = 0;
    for crossings in table(job).crossings {
        let mut pointer = 0;
        for goal in crossings {
            assert!(goal >= pointer, "the pointer would have to go back for {:?}", job);
            moves += (goal - pointer) as u64;
            pointer = goal;
        }
    }
    moves
}

/// The same number with no table: the crossing of (p, N) is the first j from the start on at which no division of the first j tiles among
/// the machines before p stays strictly below the load of tiles j + 1 to N over ep, and whether it does is asked of one walk.
pub fn moves_by_walks(job: &Job) -> u64 {
    let tiles = job.weights.len();
    let c = job.c() as i128;
    let mut rest = vec![0i128; tiles + 1];
    for i in (0..tiles).rev() {
        rest[i] = rest[i + 1] + job.weights[i] as i128;
    }
    rest[..tiles].iter_mut().for_each(|load| *load += c);
    let mut moves = 0;
    for p in 1..job.speeds.len() {
        let e = job.speeds[p] as i128;
        let (mut low, mut high) = (start(job, p, tiles), tiles);
        while low < high {
            let j = (low + high) / 2;
            if stays_below(job, p, j, rest[j], e) {
                low = j + 1;
            } else {
                high = j;
            }
        }
        moves += low as u64;
    }
    moves
}

/// Whether a division of the first tiles among the first machines, so many of each, keeps every share strictly below load/speed.
fn stays_below(job: &Job, machines: usize, tiles: usize, load: i128, speed: i128) -> bool {
    if load == 0 {
        return false;
    }
    let mut left = job.weights[..tiles].iter().peekable();
    for (&e, &hold) in job.speeds[..machines].iter().zip(&job.holds) {
        let (mut sum, mut places) = (job.c() as i128, hold as i32);
        while let Some(&&w) = left.peek() {
            if (sum + w as i128) * speed >= load * e as i128 {
                break;
            }
            sum += w as i128;
            left.next();
            places -= 1;
            // Never where there is no limit.
            if places == 0 {
                break;
            }
        }
    }
    left.peek().is_none()
}

/// What the search machine by machine comes to: its candidates in the order of the machines, and its trials.
#[derive(Clone, Debug, PartialEq)]
pub struct Search {
    pub candidates: Vec<Bound>,
    pub trials: u64,
    /// It ended at an empty share that fits.
    pub early: bool,
}

/// The halving: low at the share's start, high at N, known to fit, until they meet. Where they do, and the trials made.
fn halve(mut low: usize, mut high: usize, fits: impl Fn(usize) -> bool) -> (usize, u64) {
    let mut trials = 0;
    while low != high {
        trials += 1;
        let middle = (low + high) / 2;
        if fits(middle) {
            high = middle;
        } else {
            low = middle + 1;
        }
    }
    (low, trials)
}

/// The search, for jobs without holds, each j by trying every one in turn, with whole trials. The halving gives the trials, and must find the same j.
pub fn search_in_turn(job: &Job) -> Search {
    let tiles = job.weights.len();
    let (last, others) = job.speeds.split_last().unwrap();
    let mut found = Search { candidates: Vec::new(), trials: 0, early: false };
    let mut start = 0;
    for &e in others {
        let share = |j: usize| (job.load(start, j), e as u128);
        let fits = |j: usize| trial(job, share(j)).fits();
        let Some(j) = (start..=tiles).find(|&j| fits(j)) else { panic!("all that remains does not fit for {:?}", job) };
        let (met, trials) = halve(start, tiles, fits);
        assert_eq!(met, j, "the halving finds another j for {:?}", job);
        found.trials += trials;
        found.candidates.push(share(j));
        if j == start {
            found.early = true;
            return found;
        }
        start = j - 1;
    }
    found.candidates.push((job.load(start, tiles), *last as u128));
    found
}

/// The same for jobs up to the limits: each j by the halving alone, and a walk over sums that says only whether it fits.
pub fn search_by_sums(job: &Job) -> Search {
    let (tiles, c) = (job.weights.len(), job.c() as u64);
    let mut sums = vec![0u64];
    for &w in &job.weights {
        sums.push(sums[sums.len() - 1] + w as u64);
    }
    let share = |a: usize, b: usize| if a == b { 0 } else { c + sums[b] - sums[a] };
    let (last, others) = job.speeds.split_last().unwrap();
    let fits = |load: u64, speed: u64| {
        let mut at = 0;
        for &e in others {
            // What the machine carries beside the start-up work; where it cannot carry that, it takes no tile.
            let Some(carries) = (load * e as u64 / speed).checked_sub(c) else { continue };
            let most = sums[at] + carries;
            // Most trials are far above the best and end here.
            if sums[tiles] <= most {
                return true;
            }
            while sums[at + 1] <= most {
                at += 1;
            }
        }
        share(at, tiles) * speed <= load * *last as u64
    };
    let mut found = Search { candidates: Vec::new(), trials: 0, early: false };
    let mut start = 0;
    for &e in others {
        let load = |j: usize| share(start, j);
        let (j, trials) = halve(start, tiles, |j| fits(load(j), e as u64));
        found.trials += trials;
        found.candidates.push((load(j) as u128, e as u128));
        if j == start {
            found.early = true;
            return found;
        }
        start = j - 1;
    }
    found.candidates.push((share(start, tiles) as u128, *last as u128));
    found
}

/// The binary digits of a number; 0 has none.
pub fn digits(mut number: u128) -> u64 {
    let mut digits = 0;
    while number > 0 {
        number /= 2;
        digits += 1;
    }
    digits
}

/// The most that a method may count. Request M-106: in the second edition heaviest + c takes the place of heaviest, and bidding has 2 on a
/// single machine. Request M-108: with any hold all weight takes the place of the heaviest.
pub fn allowance(job: &Job, method: u32) -> u64 {
    let (others, tiles) = (job.speeds.len() - 1, job.weights.len());
    let steps = (others * tiles) as u64;
    let heaviest = match job.has_holds() {
        true => job.weight(0, tiles),
        false => job.weights.iter().copied().max().unwrap_or(0) as u128,
    };
    let fastest = *job.speeds.iter().max().unwrap() as u128;
    let slowest = *job.speeds.iter().min().unwrap() as u128;
    let d = (heaviest + job.c()) * fastest * fastest / slowest;
    let bids = if job.is_second() && others == 0 { 2 } else { steps + 1 };
    [steps, bids, digits(d) + 1, others as u64 * digits(tiles as u128)][method as usize - 1]
}

/// 1000 × (bottleneck − ideal) / ideal, rounded up, and 0 if Wtot is 0.
pub fn imbalance(job: &Job, bottleneck: Bound) -> u64 {
    let (whole, all_speed) = ideal(job);
    if whole == 0 {
        return 0;
    }
    // Both times both speeds.
    let (bottleneck, ideal) = (bottleneck.0 * all_speed, whole * bottleneck.1);
    let above = 1000 * (bottleneck - ideal);
    let (quotient, rest) = (above / ideal, above % ideal);
    (if rest == 0 { quotient } else { quotient + 1 }) as u64
}

/// The same number with no division: whether the bottleneck is at most the ideal and n thousandths of it, and not with one fewer.
/// Where Wtot is 0 only 0 is, also where start-up work makes a bottleneck.
pub fn is_imbalance(job: &Job, bottleneck: Bound, n: u64) -> bool {
    let (whole, all_speed) = ideal(job);
    if whole == 0 {
        return n == 0;
    }
    let enough = |n: u64| !less(((1000 + n as u128) * whole, all_speed), (1000 * bottleneck.0, bottleneck.1));
    enough(n) && (n == 0 || !enough(n - 1))
}
