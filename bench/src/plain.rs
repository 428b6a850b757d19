//! The planner's algorithms in plain Rust: the same tests, the same arithmetic, the same steps.
#![forbid(unsafe_code)]

pub const MAX_TASKS: usize = 2048;
pub const MAX_WEIGHT: u32 = 1_000_000;
pub const MAX_STARTUP: u32 = 1_000_000;
pub const MAX_PROCESSORS: usize = 96;
pub const MAX_SPEED: u32 = 10_000;
pub const MAX_BOUND_LOAD: u64 = 100_000_000_000_000;
pub const MAX_BOUND_SPEED: u64 = 1_000_000_000;
pub const RECORD: usize = 8;
pub const PLAN_RECORD: usize = 16;
/// The kinds of a job file's records.
pub const MACHINE: u8 = 1;
pub const TILE: u8 = 2;
pub const STARTUP: u8 = 3;

/// Load over speed, compared by cross products.
#[derive(Clone, Copy, Debug, PartialEq)]
pub struct Bound {
    pub load: u64,
    pub speed: u64,
}

impl Bound {
    /// Greater than every bound that occurs.
    const ENDLESS: Bound = Bound { load: 1, speed: 0 };

    #[inline]
    fn at_most(self, other: Bound) -> bool {
        self.load * other.speed <= other.load * self.speed
    }

    #[inline]
    fn lesser(self, other: Bound) -> Bound {
        if self.at_most(other) { self } else { other }
    }

    #[inline]
    fn midpoint(self, other: Bound) -> Bound {
        Bound {
            load: self.load * other.speed + other.load * self.speed,
            speed: 2 * (self.speed * other.speed),
        }
    }
}

/// The answer of a trial: it fits, with the number of machines that its walk came to, or it fails with the least next bid.
#[derive(Clone, Copy, Debug, PartialEq)]
pub enum Outcome {
    Fits(usize),
    Fails(Bound),
}

/// What a method ends with; `measured` where the separators are the plan's by then, and this is their bottleneck.
struct Found {
    bound: Bound,
    count: u32,
    measured: Option<Bound>,
}

impl Found {
    fn open(bound: Bound, count: u32) -> Found {
        Found { bound, count, measured: None }
    }
}

/// What a plan carries beside its separators.
pub struct Figures {
    pub count: u32,
    pub allowance: u32,
    pub bottleneck: Bound,
    pub imbalance: u64,
}

#[derive(Clone, Copy, Debug, PartialEq)]
pub enum Method {
    Table,
    Bidding,
    Bisection,
    Nicol,
}

/// A job by lists, as a call is lent it.
#[derive(Clone, Copy)]
pub struct Lists<'a> {
    pub second: bool,
    pub startup: u32,
    pub speeds: &'a [u32],
    pub holds: &'a [u16],
    pub weights: &'a [u32],
}

/// What a plan file is beside its job.
#[derive(Clone, Copy, Debug, PartialEq)]
pub enum Grade {
    Best,
    Valid,
}

/// No early end, so that several are tested at once.
fn each_between(lo: u32, hi: u32, values: &[u32]) -> bool {
    values.iter().fold(true, |all, v| all & (lo..=hi).contains(v))
}

impl Lists<'_> {
    /// The start-up work that counts.
    fn effective(self) -> u32 {
        if self.second { self.startup } else { 0 }
    }

    /// The tests of the start-up work and the two lists, in the scope's order.
    fn test(self) -> Result<(), u32> {
        self.test_by(|weights| each_between(0, MAX_WEIGHT, weights))
    }

    /// The same; the test of the weights finds the heaviest one.
    fn test_heaviest(self) -> Result<u32, u32> {
        let mut heaviest = 0;
        self.test_by(|weights| {
            heaviest = weights.iter().fold(0, |most, &weight| most.max(weight));
            heaviest <= MAX_WEIGHT
        })?;
        Ok(heaviest)
    }

    #[inline(always)]
    fn test_by(self, weights_pass: impl FnOnce(&[u32]) -> bool) -> Result<(), u32> {
        if self.effective() > MAX_STARTUP {
            return Err(16);
        }
        if !each_between(1, MAX_SPEED, self.speeds) {
            return Err(5);
        }
        if !weights_pass(self.weights) {
            return Err(6);
        }
        if self.speeds.is_empty() || self.speeds.len() > MAX_PROCESSORS {
            return Err(7);
        }
        if self.weights.len() > MAX_TASKS {
            return Err(8);
        }
        Ok(())
    }

    /// The tests of a quick plan behind them: the lengths of the lists, then the holds.
    fn test_quick(self, separators: &[u32]) -> Result<(), u32> {
        if self.holds.len() < self.speeds.len() || separators.len() <= self.speeds.len() {
            return Err(9);
        }
        if is_held(&self.holds[..self.speeds.len()]) {
            return Err(18);
        }
        Ok(())
    }
}

/// Whether any hold is set. No early end, as above.
fn is_held(holds: &[u16]) -> bool {
    holds.iter().fold(0, |all, &hold| all | hold) != 0
}

/// Whether a division can keep the holds: some machine has none, or they add up to at least N.
fn enough(holds: &[u16], tasks: usize) -> bool {
    let limited = holds.iter().fold(true, |all, &hold| all & (hold != 0));
    !limited || holds.iter().map(|&hold| hold as usize).sum::<usize>() >= tasks
}

/// The holds of the machines, or none at all: each loop is compiled for both, so that a job without holds does not pay for them.
trait Holds: Copy {
    /// Whether any is set.
    const SET: bool;
    type Hold: Hold;

    fn of(self, p: usize) -> Self::Hold;

    /// Each item with the hold of its machine; the first one is of machine `first`.
    fn beside<I: Iterator>(self, first: usize, items: I) -> impl Iterator<Item = (I::Item, Self::Hold)>;
}

trait Hold: Copy {
    /// The tiles up to the last that a share which begins at a can hold.
    fn reach(self, tiles: Tiles, a: usize) -> Tiles;

    /// Whether the machine holds the share from a to b.
    fn keeps(self, a: usize, b: usize) -> bool;

    /// Where a share that ends at i may begin.
    fn start(self, i: usize) -> usize;
}

/// No hold.
#[derive(Clone, Copy)]
struct Free;

impl Holds for Free {
    const SET: bool = false;
    type Hold = Free;

    #[inline]
    fn of(self, _: usize) -> Free {
        Free
    }

    #[inline]
    fn beside<I: Iterator>(self, _: usize, items: I) -> impl Iterator<Item = (I::Item, Free)> {
        items.map(|item| (item, Free))
    }
}

impl Hold for Free {
    #[inline]
    fn reach(self, tiles: Tiles, _: usize) -> Tiles {
        tiles
    }

    #[inline]
    fn keeps(self, _: usize, _: usize) -> bool {
        true
    }

    #[inline]
    fn start(self, _: usize) -> usize {
        0
    }
}

impl Holds for &[u16] {
    const SET: bool = true;
    type Hold = u16;

    #[inline]
    fn of(self, p: usize) -> u16 {
        self[p]
    }

    #[inline]
    fn beside<I: Iterator>(self, first: usize, items: I) -> impl Iterator<Item = (I::Item, u16)> {
        items.zip(self[first..].iter().copied())
    }
}

impl Hold for u16 {
    #[inline]
    fn reach(self, tiles: Tiles, a: usize) -> Tiles {
        let end = tiles.sums.len().min(a + most(self) + 1);
        Tiles { sums: &tiles.sums[..end], ..tiles }
    }

    #[inline]
    fn keeps(self, a: usize, b: usize) -> bool {
        b - a <= most(self)
    }

    #[inline]
    fn start(self, i: usize) -> usize {
        i.saturating_sub(most(self))
    }
}

/// The most tiles that a machine takes; without a hold more than a job has.
#[inline]
fn most(hold: u16) -> usize {
    hold.wrapping_sub(1) as usize + 1
}

/// Writes W(1,0) to W(1,N) to the front of the list and hands that front back. Four at a time it is no quicker: the compiler makes one chain of
/// additions of that again.
fn prefix_sums<'a>(weights: &[u32], list: &'a mut [u32]) -> &'a [u32] {
    let sums = &mut list[..=weights.len()];
    let mut sum = 0;
    sums[0] = 0;
    for (slot, weight) in sums[1..].iter_mut().zip(weights) {
        sum += weight;
        *slot = sum;
    }
    sums
}

fn total_speed(speeds: &[u32]) -> u64 {
    speeds.iter().map(|&e| e as u64).sum()
}

fn ideal(speeds: &[u32], sums: &[u32]) -> Bound {
    Bound {
        load: sums[sums.len() - 1] as u64,
        speed: total_speed(speeds),
    }
}

/// The last index from a to n whose sum is at most the cap, as that at a is: galloping by 8, 16, .., halving the step, then
/// counting among seven sums without a branch. Kept out of line: in line it made the walk slower.
#[inline(never)]
fn last_far(sums: &[u32], a: usize, n: usize, cap: u32) -> usize {
    let mut low = a;
    let mut step = 8;
    while step <= n - low && sums[low + step] <= cap {
        low += step;
        step += step;
    }
    while step > 8 {
        step -= step / 2;
        if step <= n - low && sums[low + step] <= cap {
            low += step;
        }
    }
    let near = &sums[low + 1..=n];
    let near = near.first_chunk::<7>().map_or(near, |seven| seven);
    low + near.iter().map(|&sum| (sum <= cap) as usize).sum::<usize>()
}

/// The same; often it is a itself, and one look tells.
#[inline]
fn last_at_most(sums: &[u32], a: usize, n: usize, cap: u32) -> usize {
    if a < n && sums[a + 1] <= cap { last_far(sums, a + 1, n, cap) } else { a }
}

/// The same for all sums; the search begins at the hint if that is no further.
#[inline]
fn last_from(sums: &[u32], a: usize, cap: u32, hint: usize) -> usize {
    let n = sums.len() - 1;
    if a <= hint && hint < n && sums[hint] <= cap {
        return last_at_most(sums, hint, n, cap);
    }
    last_at_most(sums, a, n, cap)
}

/// The prefix sums of a job and the start-up work of each part that has tiles.
#[derive(Clone, Copy)]
struct Tiles<'a> {
    startup: u32,
    sums: &'a [u32],
}

impl<'a> Tiles<'a> {
    /// Writes the sums to the front of the list.
    fn new(startup: u32, weights: &[u32], list: &'a mut [u32]) -> Tiles<'a> {
        Tiles { startup, sums: prefix_sums(weights, list) }
    }
}

/// The greatest end of a part from a on that is within the bound on a machine of this speed, None where that is N. A tile is left; a
/// machine that cannot carry the start-up work takes none.
#[inline]
fn part_end(tiles: Tiles, a: usize, speed: u32, bound: Bound, hint: usize) -> Option<usize> {
    let sums = tiles.sums;
    let n = sums.len() - 1;
    let limit = bound.load * speed as u64 / bound.speed;
    let Some(weight) = limit.checked_sub(tiles.startup as u64) else {
        return Some(a);
    };
    if (sums[n] - sums[a]) as u64 <= weight {
        return None;
    }
    Some(last_from(sums, a, sums[a] + weight as u32, hint))
}

/// The load of the part from a to b: 0 where it has no tile.
#[inline]
fn part_load(tiles: Tiles, a: usize, b: usize) -> u32 {
    if a == b { 0 } else { tiles.startup + (tiles.sums[b] - tiles.sums[a]) }
}

/// The bound of the part from a to b.
#[inline]
fn part_bound(tiles: Tiles, a: usize, b: usize, speed: u32) -> Bound {
    Bound {
        load: part_load(tiles, a, b) as u64,
        speed: speed as u64,
    }
}

/// The same where the part has a tile.
#[inline]
fn started_bound(tiles: Tiles, a: usize, b: usize, speed: u32) -> Bound {
    Bound {
        load: (tiles.startup + (tiles.sums[b] - tiles.sums[a])) as u64,
        speed: speed as u64,
    }
}

/// The machines from `first` on at the bound, the first one's part beginning at a, where a tile is left. `ends` has, for each, a hint and the
/// place of the separator behind it. Gives where the last one's part ends and the least bid, or, once every tile is placed, how many machines
/// the walk came to; that end is not written. So a machine that bids has a tile more to bid for. A machine at its hold does not bid.
#[inline(always)]
fn walk_on<'a, H: Holds>(
    speeds: &[u32],
    holds: H,
    tiles: Tiles,
    bound: Bound,
    first: usize,
    mut a: usize,
    ends: impl Iterator<Item = (usize, &'a mut u32)>,
) -> Result<(usize, Bound), usize> {
    let n = tiles.sums.len() - 1;
    let mut best = Bound::ENDLESS;
    for (p, ((&speed, (hint, end)), hold)) in (first + 1..).zip(holds.beside(first, speeds.iter().zip(ends))) {
        let near = hold.reach(tiles, a);
        let b = match part_end(near, a, speed, bound, hint) {
            Some(b) => {
                best = best.lesser(started_bound(tiles, a, b + 1, speed));
                b
            }
            None if near.sums.len() > n => return Err(p),
            None => near.sums.len() - 1,
        };
        *end = b as u32;
        a = b;
    }
    Ok((a, best))
}

/// The last machine, whose part begins at a; `best` is the least bid before it. It bids all that is left, where it holds that.
#[inline]
fn walk_last<H: Holds>(speeds: &[u32], holds: H, tiles: Tiles, bound: Bound, a: usize, best: Bound) -> Outcome {
    let n = tiles.sums.len() - 1;
    let last = speeds.len() - 1;
    if !holds.of(last).keeps(a, n) {
        return Outcome::Fails(best);
    }
    let rest = started_bound(tiles, a, n, speeds[last]);
    if rest.at_most(bound) { Outcome::Fits(last + 1) } else { Outcome::Fails(best.lesser(rest)) }
}

/// The walk of all machines over these ends. It ends once every tile is placed and leaves the separators from there on. Filling is apart: here
/// it made the walk slower.
#[inline(always)]
fn walk<'a, H: Holds>(
    speeds: &[u32],
    holds: H,
    tiles: Tiles,
    bound: Bound,
    ends: impl Iterator<Item = (usize, &'a mut u32)>,
) -> Outcome {
    if tiles.sums.len() == 1 {
        return Outcome::Fits(0);
    }
    match walk_on(&speeds[..speeds.len() - 1], holds, tiles, bound, 0, 0, ends) {
        Ok((a, best)) => walk_last(speeds, holds, tiles, bound, a, best),
        Err(machines) => Outcome::Fits(machines),
    }
}

/// Where a walk fitted that came to so many machines, the separators that it left become N.
#[inline]
fn fill(machines: usize, tiles: Tiles, separators: &mut [u32]) {
    separators[machines..].fill(tiles.sums.len() as u32 - 1);
}

/// The trial at the bound. What the list holds before is its hint; it writes all separators.
fn trial<H: Holds>(speeds: &[u32], holds: H, tiles: Tiles, bound: Bound, separators: &mut [u32]) -> Outcome {
    let separators = &mut separators[..=speeds.len()];
    separators[0] = 0;
    let outcome = walk(speeds, holds, tiles, bound, separators[1..].iter_mut().map(|end| (*end as usize, end)));
    fill(if let Outcome::Fits(machines) = outcome { machines } else { speeds.len() }, tiles, separators);
    outcome
}

/// The trial at the bound with its hints from one list, which stays, and its separators in another: all of them where it fits, those of a failed
/// walk but for the last one where it does not.
fn trial_beside<H: Holds>(
    speeds: &[u32],
    holds: H,
    tiles: Tiles,
    bound: Bound,
    hints: &[u32],
    separators: &mut [u32],
) -> Outcome {
    let hints = &hints[..=speeds.len()];
    let separators = &mut separators[..=speeds.len()];
    separators[0] = 0;
    let ends = hints[1..].iter().zip(&mut separators[1..]).map(|(&hint, end)| (hint as usize, end));
    let outcome = walk(speeds, holds, tiles, bound, ends);
    if let Outcome::Fits(machines) = outcome {
        fill(machines, tiles, separators);
    }
    outcome
}

/// So many machines are a block of bidding's walks.
const BLOCK: usize = 16;

/// A block in the walk before: where the part of its first machine begins, and the least bid of its machines.
#[derive(Clone, Copy)]
struct Block {
    start: usize,
    least: Bound,
}

impl Block {
    /// Of no walk yet.
    const NEW: Block = Block { start: usize::MAX, least: Bound::ENDLESS };
}

/// The walk at a bound above that of the failed walk in the list. A block that begins where it did and has no bid within the bound stays as it
/// is; the others are walked. The last machine is in no block.
fn walk_blocks<H: Holds>(
    speeds: &[u32],
    holds: H,
    tiles: Tiles,
    bound: Bound,
    blocks: &mut [Block],
    separators: &mut [u32],
) -> Outcome {
    let mut a = 0;
    let mut best = Bound::ENDLESS;
    let machines = speeds[..speeds.len() - 1].chunks(BLOCK).zip(separators[1..].chunks_mut(BLOCK));
    for ((k, block), (speeds, ends)) in blocks.iter_mut().enumerate().zip(machines) {
        if block.start == a && !block.least.at_most(bound) {
            a = ends[speeds.len() - 1] as usize;
        } else {
            let slots = ends.iter_mut().map(|end| (*end as usize, end));
            let (end, least) = match walk_on(speeds, holds, tiles, bound, BLOCK * k, a, slots) {
                Ok(walked) => walked,
                Err(machines) => return Outcome::Fits(machines),
            };
            *block = Block { start: a, least };
            a = end;
        }
        best = best.lesser(block.least);
    }
    walk_last(speeds, holds, tiles, bound, a, best)
}

fn bidding<H: Holds>(speeds: &[u32], holds: H, tiles: Tiles, separators: &mut [u32]) -> Found {
    let mut bound = ideal(speeds, tiles.sums);
    let mut count = 1;
    if tiles.sums.len() == 1 {
        return Found::open(bound, count);
    }
    let mut blocks = [Block::NEW; MAX_PROCESSORS.div_ceil(BLOCK)];
    let separators = &mut separators[..=speeds.len()];
    while let Outcome::Fails(next) = walk_blocks(speeds, holds, tiles, bound, &mut blocks, separators) {
        bound = next;
        count += 1;
    }
    Found::open(bound, count)
}

/// The bottleneck of the division in front of the list.
fn bottleneck(speeds: &[u32], tiles: Tiles, separators: &[u32]) -> Bound {
    let mut parts = separators.windows(2).zip(speeds).map(|(pair, &speed)| {
        part_bound(tiles, pair[0] as usize, pair[1] as usize, speed)
    });
    let first = parts.next().expect("a machine");
    parts.fold(first, |most, part| if part.at_most(most) { most } else { part })
}

/// The smallest index from s on with the same sum as `last`; mostly that is `last` itself, and one look at the sum before tells.
#[inline]
fn first_equal(sums: &[u32], s: usize, last: usize) -> usize {
    let sum = sums[last];
    if s == last || sums[last - 1] < sum {
        return last;
    }
    if sums[s] == sum { s } else { last_far(sums, s, last - 1, sum - 1) + 1 }
}

/// The quick plan's separators, which do not depend on the start-up work.
fn quick(speeds: &[u32], sums: &[u32], separators: &mut [u32]) {
    let n = sums.len() - 1;
    let last = speeds.len() - 1;
    let total = total_speed(speeds);
    let weight = sums[n] as u64;
    let separators = &mut separators[..=speeds.len()];
    let mut speed = 0;
    let mut past = 1;
    let mut s = 0;
    separators[0] = 0;
    for (&e, slot) in speeds[..last].iter().zip(&mut separators[1..]) {
        speed += e as u64;
        let target = weight * speed;
        past = last_at_most(sums, past - 1, n, (target / total) as u32) + 1;
        let low = sums[past - 1] as u64;
        let nearer = past <= n && sums[past] as u64 * total - target < target - low * total;
        s = if nearer { past } else { first_equal(sums, s, past - 1) };
        *slot = s as u32;
    }
    separators[last + 1] = n as u32;
}

/// Where bisection's high end starts: at the quick plan's bottleneck; with holds at that of all tiles on the slowest machine.
fn high_end<H: Holds>(speeds: &[u32], tiles: Tiles, room: &mut [u32]) -> Bound {
    if H::SET {
        return Bound {
            load: tiles.startup as u64 + tiles.sums[tiles.sums.len() - 1] as u64,
            speed: speeds.iter().copied().min().unwrap_or(1) as u64,
        };
    }
    quick(speeds, tiles.sums, room);
    bottleneck(speeds, tiles, room)
}

/// Bisection. The hint of a round is the last failed walk, of the trial at the ideal what the list holds. The last fit is kept in the list: where the
/// ends have met it is the plan, measured by then. Where no round fitted the list is not the plan's.
fn bisection<H: Holds>(speeds: &[u32], holds: H, tiles: Tiles, separators: &mut [u32]) -> Found {
    let separators = &mut separators[..=speeds.len()];
    let mut lists = [[0; MAX_PROCESSORS + 1]; 2];
    let [failed, next] = &mut lists;
    let (mut failed, mut next) = (&mut failed[..=speeds.len()], &mut next[..=speeds.len()]);
    let bound = ideal(speeds, tiles.sums);
    let mut count = 1;
    let Outcome::Fails(mut low) = trial_beside(speeds, holds, tiles, bound, separators, failed) else {
        separators.copy_from_slice(failed);
        return Found { bound, count, measured: Some(bottleneck(speeds, tiles, separators)) };
    };
    let mut high = high_end::<H>(speeds, tiles, next);
    let mut measured = None;
    while !high.at_most(low) {
        match trial_beside(speeds, holds, tiles, low.midpoint(high), failed, next) {
            Outcome::Fits(_) => {
                separators.copy_from_slice(next);
                high = bottleneck(speeds, tiles, separators);
                measured = Some(high);
            }
            Outcome::Fails(bid) => {
                low = bid;
                std::mem::swap(&mut failed, &mut next);
            }
        }
        count += 1;
    }
    Found { bound: low, count, measured }
}

/// Whether the walk of all machines fits: a walk without bids, which Nicol's search does not ask for. There is a tile.
fn fits(speeds: &[u32], tiles: Tiles, bound: Bound, separators: &mut [u32]) -> bool {
    let n = tiles.sums.len() - 1;
    let last = speeds.len() - 1;
    let separators = &mut separators[..=speeds.len()];
    let mut a = 0;
    separators[0] = 0;
    for (&speed, end) in speeds[..last].iter().zip(&mut separators[1..]) {
        let Some(b) = part_end(tiles, a, speed, bound, *end as usize) else {
            return true;
        };
        *end = b as u32;
        a = b;
    }
    started_bound(tiles, a, n, speeds[last]).at_most(bound)
}

/// Nicol's search: for each machine but the last the smallest end of its part at whose bound the whole job fits, by halving.
/// That bound is a candidate, and so is what is left for the last machine; the machine keeps its part without the last tile.
fn nicol(speeds: &[u32], tiles: Tiles, separators: &mut [u32]) -> Found {
    let n = tiles.sums.len() - 1;
    let last = speeds.len() - 1;
    let mut best = Bound::ENDLESS;
    let mut count = 0;
    let mut start = 0;
    for &speed in &speeds[..last] {
        let mut low = start;
        let mut high = n;
        while low < high {
            let middle = (low + high) / 2;
            if fits(speeds, tiles, part_bound(tiles, start, middle, speed), separators) {
                high = middle;
            } else {
                low = middle + 1;
            }
            count += 1;
        }
        best = best.lesser(part_bound(tiles, start, low, speed));
        if low == start {
            return Found::open(best, count);
        }
        start = low - 1;
    }
    best = best.lesser(part_bound(tiles, start, n, speeds[last]));
    Found::open(best, count)
}

/// A row's entry as a bound.
#[inline]
fn entry(pair: [u32; 2]) -> Bound {
    Bound {
        load: pair[0] as u64,
        speed: pair[1] as u64,
    }
}

/// Fills the row of a machine of this speed and hold from the row before it, and gives the moves of its pointer. At i itself the part has
/// no tile, so the pointer stops there at the latest. By index, not by iterators: so there are fewer bounds checks.
fn fill_row(tiles: Tiles, speed: u32, hold: impl Hold, before: &[[u32; 2]], row: &mut [[u32; 2]]) -> u32 {
    let sums = tiles.sums;
    let before = &before[..sums.len()];
    let row = &mut row[..sums.len()];
    let mut at = 0;
    for i in 0..sums.len() {
        let started = tiles.startup + sums[i];
        let part = |a: usize| Bound { load: (started - sums[a]) as u64, speed: speed as u64 };
        let start = hold.start(i);
        at = at.max(start);
        while at < i && !part(at).at_most(entry(before[at])) {
            at += 1;
        }
        row[i] = before[at];
        if at > start && !entry(before[at]).at_most(part(at - 1)) {
            row[i] = [started - sums[at - 1], speed];
        }
    }
    at as u32
}

/// The table; `rows` is room for two rows of N + 1 pairs. An entry without a division is 1/0.
fn table<H: Holds>(speeds: &[u32], holds: H, tiles: Tiles, rows: &mut [u32]) -> Found {
    let sums = tiles.sums;
    let (first, second) = rows.split_at_mut(2 * sums.len());
    let mut row = first.as_chunks_mut::<2>().0;
    let mut other = second.as_chunks_mut::<2>().0;
    for (slot, &sum) in row.iter_mut().zip(sums) {
        *slot = [tiles.startup + sum, speeds[0]];
    }
    row[0][0] = 0;
    row[holds.of(0).reach(tiles, 0).sums.len()..sums.len()].fill([1, 0]);
    let mut count = 0;
    for (&speed, hold) in holds.beside(1, speeds[1..].iter()) {
        count += fill_row(tiles, speed, hold, row, other);
        std::mem::swap(&mut row, &mut other);
    }
    Found::open(entry(row[sums.len() - 1]), count)
}

/// For bisection the heaviest weight counts, with holds all weight.
fn allowance<H: Holds>(method: Method, second: bool, tiles: Tiles, speeds: &[u32], heaviest: u32) -> u32 {
    let tasks = tiles.sums.len() - 1;
    let moves = ((speeds.len() - 1) * tasks) as u32;
    match method {
        Method::Table => moves,
        Method::Bidding if second && speeds.len() == 1 => 2,
        Method::Bidding => moves + 1,
        Method::Bisection => {
            let breadth = (if H::SET { tiles.sums[tasks] } else { heaviest } + tiles.startup) as u64;
            let fastest = speeds.iter().copied().max().unwrap_or(0) as u64;
            let slowest = speeds.iter().copied().min().unwrap_or(1) as u64;
            1 + (64 - (breadth * (fastest * fastest) / slowest).leading_zeros())
        }
        Method::Nicol => (speeds.len() - 1) as u32 * (usize::BITS - tasks.leading_zeros()),
    }
}

/// In thousandths of the ideal, rounded up.
pub fn imbalance(speeds: &[u32], total: u64, bottleneck: Bound) -> u64 {
    if total == 0 {
        return 0;
    }
    let ideal = total * bottleneck.speed;
    (1000 * (bottleneck.load * total_speed(speeds) - ideal)).div_ceil(ideal)
}

/// Runs the method and makes the closing walk where one is left to make. Gives the count and the bottleneck. Nicol's search is for jobs without
/// holds.
#[inline(always)]
fn divide<H: Holds>(method: Method, speeds: &[u32], holds: H, tiles: Tiles, separators: &mut [u32], rows: &mut [u32]) -> (u32, Bound) {
    let found = match method {
        Method::Table => table(speeds, holds, tiles, rows),
        Method::Bidding => bidding(speeds, holds, tiles, separators),
        Method::Bisection => bisection(speeds, holds, tiles, separators),
        Method::Nicol if H::SET => unreachable!("refused with holds"),
        Method::Nicol => nicol(speeds, tiles, separators),
    };
    let measured = found.measured.unwrap_or_else(|| {
        trial(speeds, holds, tiles, found.bound, separators);
        bottleneck(speeds, tiles, separators)
    });
    (found.count, measured)
}

/// A plan by a method, where the job and the lists are as they must be; the heaviest weight is for bisection.
fn plan_in<H: Holds>(
    method: Method,
    second: bool,
    startup: u32,
    speeds: &[u32],
    holds: H,
    weights: &[u32],
    heaviest: u32,
    separators: &mut [u32],
    scratch: &mut [u32],
) -> Figures {
    let (front, rows) = scratch.split_at_mut(weights.len() + 1);
    let tiles = Tiles::new(if second { startup } else { 0 }, weights, front);
    let (count, bottleneck) = divide(method, speeds, holds, tiles, separators, rows);
    Figures {
        count,
        allowance: allowance::<H>(method, second, tiles, speeds, heaviest),
        bottleneck,
        imbalance: imbalance(speeds, tiles.sums[weights.len()] as u64, bottleneck),
    }
}

/// A plan by a method. Its arguments come one by one: with a job in their place Nicol's search takes more instructions.
pub fn plan(
    method: Method,
    second: bool,
    startup: u32,
    speeds: &[u32],
    holds: &[u16],
    weights: &[u32],
    separators: &mut [u32],
    scratch: &mut [u32],
) -> Result<Figures, u32> {
    let job = Lists { second, startup, speeds, holds, weights };
    let heaviest = match method {
        Method::Bisection => job.test_heaviest()?,
        _ => job.test().map(|()| 0)?,
    };
    if holds.len() < speeds.len() || separators.len() <= speeds.len() || scratch.len() < 5 * (weights.len() + 1) {
        return Err(9);
    }
    let holds = &holds[..speeds.len()];
    if !is_held(holds) {
        return Ok(plan_in(method, second, startup, speeds, Free, weights, heaviest, separators, scratch));
    }
    if !enough(holds, weights.len()) {
        return Err(17);
    }
    if method == Method::Nicol {
        return Err(18);
    }
    Ok(plan_in(method, second, startup, speeds, holds, weights, heaviest, separators, scratch))
}

/// The quick plan and its bottleneck.
pub fn heuristic(job: Lists, separators: &mut [u32]) -> Result<Bound, u32> {
    job.test()?;
    job.test_quick(separators)?;
    let mut room = [0; MAX_TASKS + 1];
    let tiles = Tiles::new(job.effective(), job.weights, &mut room);
    quick(job.speeds, tiles.sums, separators);
    Ok(bottleneck(job.speeds, tiles, separators))
}

/// The smallest index from a to b whose sum is nearest to half of the sums at a and b together. Doubled sums fit 32 bits. Between a
/// and b the search of the standard library finds the first sum that is no less; of it and the one before the nearer is taken without
/// a branch, which could not be foreseen.
#[inline]
fn half_index(sums: &[u32], a: usize, b: usize) -> usize {
    if a == b {
        return a;
    }
    let doubled = sums[a] + sums[b];
    let half = doubled.div_ceil(2);
    let past = a + 1 + sums[a + 1..b].partition_point(|&sum| sum < half);
    let nearer = 2 * sums[past] - doubled < doubled - 2 * sums[past - 1];
    let i = past - !nearer as usize;
    if i == a || sums[i - 1] < sums[i] { i } else { first_equal(sums, a, i) }
}

/// The separators of a halved row level by level: the searches of a level do not wait for one another.
fn halve_levels(sums: &[u32], separators: &mut [u32]) {
    let processors = separators.len() - 1;
    separators[0] = 0;
    separators[processors] = sums.len() as u32 - 1;
    let mut reach = processors / 2;
    while reach > 0 {
        for middle in (reach..processors).step_by(2 * reach) {
            let a = separators[middle - reach] as usize;
            let b = separators[middle + reach] as usize;
            separators[middle] = half_index(sums, a, b) as u32;
        }
        reach /= 2;
    }
}

/// The same index, the nearer of two taken by a branch.
#[inline]
fn half_by_branch(sums: &[u32], a: usize, b: usize) -> usize {
    let doubled = sums[a] + sums[b];
    let past = a + sums[a..=b].partition_point(|&sum| 2 * sum < doubled);
    if past > a && doubled - 2 * sums[past - 1] <= 2 * sums[past] - doubled {
        first_equal(sums, a, past - 1)
    } else {
        past
    }
}

/// Halves one side after the other; the row has the tiles a + 1 to b, and `ends` is for the separators behind its machines.
fn halve_sides(sums: &[u32], a: usize, b: usize, ends: &mut [u32]) {
    if let [end] = ends {
        *end = b as u32;
        return;
    }
    let i = half_by_branch(sums, a, b);
    let (first, second) = ends.split_at_mut(ends.len() / 2);
    halve_sides(sums, a, i, first);
    halve_sides(sums, i, b, second);
}

/// Halving by either form, and the bottleneck: the speeds are equal, so the greatest load has it. Where there is a tile that is the
/// greatest weight and the start-up work.
#[inline(always)]
fn halved(job: Lists, separators: &mut [u32], halve: impl Fn(&[u32], &mut [u32])) -> Result<Bound, u32> {
    let Lists { speeds, weights, .. } = job;
    job.test()?;
    if !speeds.len().is_power_of_two() || !each_between(speeds[0], speeds[0], speeds) {
        return Err(14);
    }
    job.test_quick(separators)?;
    let mut room = [0; MAX_TASKS + 1];
    let sums = prefix_sums(weights, &mut room);
    let separators = &mut separators[..=speeds.len()];
    halve(sums, separators);
    let parts = separators.windows(2).map(|pair| sums[pair[1] as usize] - sums[pair[0] as usize]);
    let greatest = parts.max().unwrap_or(0);
    let load = if weights.is_empty() { 0 } else { job.effective() + greatest };
    Ok(Bound {
        load: load as u64,
        speed: speeds[0] as u64,
    })
}

/// Halving the row, level by level.
pub fn halving(job: Lists, separators: &mut [u32]) -> Result<Bound, u32> {
    halved(job, separators, halve_levels)
}

/// Halving the row, one side after the other.
pub fn halving_by_sides(job: Lists, separators: &mut [u32]) -> Result<Bound, u32> {
    halved(job, separators, |sums, separators| {
        separators[0] = 0;
        halve_sides(sums, 0, sums.len() - 1, &mut separators[1..]);
    })
}

/// The trial at a bound; as the last separator it writes how far the last machine reaches.
fn probe_in<H: Holds>(speeds: &[u32], holds: H, tiles: Tiles, bound: Bound, separators: &mut [u32]) -> Outcome {
    let outcome = trial(speeds, holds, tiles, bound, separators);
    if let Outcome::Fails(_) = outcome {
        let last = speeds.len() - 1;
        let a = separators[last] as usize;
        let near = holds.of(last).reach(tiles, a);
        separators[last + 1] = part_end(near, a, speeds[last], bound, a).unwrap_or(near.sums.len() - 1) as u32;
    }
    outcome
}

/// The trial at a lent bound. It writes the separators whether it fits or fails.
pub fn probe(job: Lists, bound: Bound, separators: &mut [u32]) -> Result<Outcome, u32> {
    job.test()?;
    let Lists { speeds, holds, weights, .. } = job;
    if holds.len() < speeds.len() || separators.len() <= speeds.len() {
        return Err(9);
    }
    let holds = &holds[..speeds.len()];
    let held = is_held(holds);
    if held && !enough(holds, weights.len()) {
        return Err(17);
    }
    if bound.load > MAX_BOUND_LOAD || bound.speed == 0 || bound.speed > MAX_BOUND_SPEED {
        return Err(10);
    }
    let mut room = [0; MAX_TASKS + 1];
    let tiles = Tiles::new(job.effective(), weights, &mut room);
    Ok(if held {
        probe_in(speeds, holds, tiles, bound, separators)
    } else {
        probe_in(speeds, Free, tiles, bound, separators)
    })
}

/// The four fields of a record of a plan file: the separators before and behind its part, the part's load, the machine's speed.
#[inline]
fn fields(record: &[u8; PLAN_RECORD]) -> [u32; 4] {
    let words = record.as_chunks::<4>().0;
    [words[0], words[1], words[2], words[3]].map(u32::from_le_bytes)
}

/// Writes the separators that the records have; whether each record begins where the one before ends, the first one at 0.
fn read_separators(records: &[[u8; PLAN_RECORD]], separators: &mut [u32]) -> bool {
    let mut chained = true;
    let mut before = 0;
    separators[0] = 0;
    for (record, slot) in records.iter().zip(&mut separators[1..]) {
        let [start, end, _, _] = fields(record);
        chained &= start == before;
        before = end;
        *slot = end;
    }
    chained
}

/// Whether separators that begin with 0 never fall and end with N.
fn divides(separators: &[u32], tasks: usize) -> bool {
    let rising = separators.windows(2).fold(true, |all, pair| all & (pair[0] <= pair[1]));
    rising && separators[separators.len() - 1] as usize == tasks
}

/// Whether each part of a division keeps the hold of its machine.
fn keeps(holds: &[u16], separators: &[u32]) -> bool {
    let parts = separators.windows(2).zip(holds);
    parts.fold(true, |all, (pair, &hold)| all & ((pair[1] - pair[0]) as usize <= most(hold)))
}

/// Whether each record has the load of its part and the speed of its machine.
fn records_true(speeds: &[u32], tiles: Tiles, separators: &[u32], records: &[[u8; PLAN_RECORD]]) -> bool {
    let parts = separators.windows(2).zip(speeds);
    records.iter().zip(parts).fold(true, |all, (record, (pair, &machine))| {
        let [_, _, load, speed] = fields(record);
        all & (load == part_load(tiles, pair[0] as usize, pair[1] as usize)) & (speed == machine)
    })
}

/// The grade of a plan file: best where no division has a smaller bottleneck. The bisection writes over the plan's separators,
/// which are its first hint.
pub fn grade(job: Lists, plan: &[u8]) -> Result<Grade, u32> {
    job.test()?;
    let Lists { speeds, holds, weights, .. } = job;
    if holds.len() < speeds.len() {
        return Err(9);
    }
    let holds = &holds[..speeds.len()];
    let held = is_held(holds);
    if plan.len() != PLAN_RECORD * speeds.len() {
        return Err(12);
    }
    let records = plan.as_chunks::<PLAN_RECORD>().0;
    let mut list = [0; MAX_PROCESSORS + 1];
    let separators = &mut list[..=speeds.len()];
    if !read_separators(records, separators) || !divides(separators, weights.len()) || (held && !keeps(holds, separators)) {
        return Err(11);
    }
    let mut room = [0; MAX_TASKS + 1];
    let tiles = Tiles::new(job.effective(), weights, &mut room);
    if !records_true(speeds, tiles, separators, records) {
        return Err(13);
    }
    let measured = bottleneck(speeds, tiles, separators);
    let least = if held {
        bisection(speeds, holds, tiles, separators).bound
    } else {
        bisection(speeds, Free, tiles, separators).bound
    };
    Ok(if measured.at_most(least) { Grade::Best } else { Grade::Valid })
}

/// Writes the plan file of a division to the front of the buffer.
fn put_plan(speeds: &[u32], tiles: Tiles, separators: &[u32], plan: &mut [u8]) {
    let records = plan.as_chunks_mut::<PLAN_RECORD>().0;
    for (record, (pair, &speed)) in records.iter_mut().zip(separators.windows(2).zip(speeds)) {
        let load = part_load(tiles, pair[0] as usize, pair[1] as usize);
        let words = record.as_chunks_mut::<4>().0;
        for (word, field) in words.iter_mut().zip([pair[0], pair[1], load, speed]) {
            *word = field.to_le_bytes();
        }
    }
}

/// The plan file of a division of a job with this start-up work.
pub fn plan_file(startup: u32, speeds: &[u32], weights: &[u32], separators: &[u32]) -> Vec<u8> {
    let mut room = vec![0; weights.len() + 1];
    let mut plan = vec![0; PLAN_RECORD * speeds.len()];
    put_plan(speeds, Tiles::new(startup, weights, &mut room), separators, &mut plan);
    plan
}

/// What a job file's record has in front of its value, kind and hold, and the value.
#[inline]
fn halves(record: &[u8; RECORD]) -> [u32; 2] {
    let words = record.as_chunks::<4>().0;
    [words[0], words[1]].map(u32::from_le_bytes)
}

/// The refusal of a file of whole records that has a fault: the first one, record by record; then the counts.
#[cold]
fn first_fault(records: &[[u8; RECORD]]) -> u32 {
    let (mut machines, mut tiles) = (0, 0);
    for (i, record) in records.iter().enumerate() {
        let [_, value] = halves(record);
        let kind = record[0];
        if record[1] != 0 || (kind != MACHINE && record[2..4] != [0, 0]) {
            return 3;
        }
        match kind {
            MACHINE if tiles > 0 => return 4,
            MACHINE if !(1..=MAX_SPEED).contains(&value) => return 5,
            MACHINE => machines += 1,
            TILE if value > MAX_WEIGHT => return 6,
            TILE => tiles += 1,
            STARTUP if i > 0 => return 15,
            STARTUP if value > MAX_STARTUP => return 16,
            STARTUP => {}
            _ => return 3,
        }
    }
    if machines == 0 || machines > MAX_PROCESSORS { 7 } else { 8 }
}

/// The lists that a job file is read to, and how much of them it has.
struct Read {
    startup: u32,
    processors: usize,
    tasks: usize,
    speeds: [u32; MAX_PROCESSORS],
    holds: [u16; MAX_PROCESSORS],
    weights: [u32; MAX_TASKS],
}

impl Read {
    const EMPTY: Read =
        Read { startup: 0, processors: 0, tasks: 0, speeds: [0; MAX_PROCESSORS], holds: [0; MAX_PROCESSORS], weights: [0; MAX_TASKS] };

    /// Reads a job file. The tests of all records make one word, without a branch; the first fault is looked for only where there is one.
    fn read(&mut self, file: &[u8]) -> Result<(), u32> {
        let (records, rest) = file.as_chunks::<RECORD>();
        if !rest.is_empty() {
            return Err(2);
        }
        let mut fault = 0;
        let head = records.first().is_some_and(|first| first[0] == STARTUP) as usize;
        let (head, behind) = records.split_at(head);
        for record in head {
            let [front, value] = halves(record);
            fault |= front ^ STARTUP as u32 | (value > MAX_STARTUP) as u32;
            self.startup = value;
        }
        self.processors = behind.iter().take_while(|record| record[0] == MACHINE).count();
        let (machines, tiles) = behind.split_at(self.processors);
        self.tasks = tiles.len();
        if machines.is_empty() || machines.len() > MAX_PROCESSORS || tiles.len() > MAX_TASKS {
            return Err(first_fault(records));
        }
        for ((record, speed), hold) in machines.iter().zip(&mut self.speeds).zip(&mut self.holds) {
            let [front, value] = halves(record);
            fault |= front & 0xff00 | !(1..=MAX_SPEED).contains(&value) as u32;
            *speed = value;
            *hold = (front >> 16) as u16;
        }
        for (record, weight) in tiles.iter().zip(&mut self.weights) {
            let [front, value] = halves(record);
            fault |= front ^ TILE as u32 | (value > MAX_WEIGHT) as u32;
            *weight = value;
        }
        if fault == 0 { Ok(()) } else { Err(first_fault(records)) }
    }
}

/// Plans a job file by bisection and writes its plan file.
pub fn plan_job(file: &[u8], plan: &mut [u8]) -> Result<(), u32> {
    let mut read = Read::EMPTY;
    read.read(file)?;
    let (speeds, holds, weights) = (&read.speeds[..read.processors], &read.holds[..read.processors], &read.weights[..read.tasks]);
    if plan.len() < PLAN_RECORD * speeds.len() {
        return Err(9);
    }
    let held = is_held(holds);
    if held && !enough(holds, weights.len()) {
        return Err(17);
    }
    let mut separators = [0; MAX_PROCESSORS + 1];
    let mut room = [0; MAX_TASKS + 1];
    let tiles = Tiles::new(read.startup, weights, &mut room);
    if held {
        divide(Method::Bisection, speeds, holds, tiles, &mut separators, &mut []);
    } else {
        divide(Method::Bisection, speeds, Free, tiles, &mut separators, &mut []);
    }
    put_plan(speeds, tiles, &separators, plan);
    Ok(())
}
