//! Trials, section 3 of the scope: at any bound, next to every bid, in turn from bid to bid, with a last machine that reaches none, some or
//! all of what is left, of short strips on long rows, and in lists that held anything before.

use crate::answers::{self, bytes_of, Solved};
use crate::check::Check;
use crate::damage::is_tiny;
use crate::job::Job;
use crate::limits::{BOUND_LOAD, BOUND_SPEED, MACHINES, SPEED, STARTUP, TILES, WEIGHT};
use crate::methods::{self, Trial};
use crate::planner::Call;
use crate::rng::Rng;
use crate::slow::{self, less, Bound};
use crate::{every, fast, large, small};

/// A job to be tried, its lists as a call takes them, its best division and the bottleneck of that.
pub struct Case {
    job: Job,
    speeds: Vec<u8>,
    weights: Vec<u8>,
    best: Vec<usize>,
    bottleneck: Bound,
}

impl Case {
    pub fn of(job: &Job) -> Case {
        Case::with(job, answers::best(job))
    }

    pub fn with(job: &Job, (best, bottleneck): (Vec<usize>, Bound)) -> Case {
        Case { job: job.clone(), speeds: bytes_of(&job.speeds), weights: bytes_of(&job.weights), best, bottleneck }
    }

    /// The separators that are needed.
    fn entries(&self) -> usize {
        self.job.speeds.len() + 1
    }
}

fn can_lend((load, speed): Bound) -> bool {
    load <= BOUND_LOAD as u128 && (1..=BOUND_SPEED as u128).contains(&speed)
}

/// As little below a bound as a lent one can be, and as little above it. There is none below nought.
fn below(bound: Bound) -> Option<Bound> {
    let (load, speed) = in_great_numbers(bound);
    (load > 0).then(|| (load - 1, speed))
}

fn above(bound: Bound) -> Bound {
    let (load, speed) = in_great_numbers(bound);
    (load + 1, speed)
}

/// The same bound in numbers as great as can be lent, and a load one greater too.
fn in_great_numbers((load, speed): Bound) -> Bound {
    let times = ((BOUND_LOAD as u128 - 1) / load.max(1)).min(BOUND_SPEED as u128 / speed);
    assert!(times > 0);
    (load * times, speed * times)
}

/// A trial in a list that holds this, with so many entries for its answer; and what the solver's own comes to, where it is accepted.
pub fn one(c: &mut Check, t: &Case, bound: Bound, lent: &[u8], entries: usize) -> Option<Trial> {
    let accepted = can_lend(bound) && lent.len() >= 4 * t.entries();
    let found = accepted.then(|| methods::trial(&t.job, bound));
    if let Some(found) = &found {
        sound(c, t, bound, found);
        count(c, &t.job, bound, found, entries);
        count_held(c, &t.job, bound, found);
    }
    let (answer, edition, h) = (c.rng.pattern(8 * entries), c.edition(&t.job), c.holds(&t.job));
    let call = Call::Trial(edition, bound.0 as u64, bound.1 as u64);
    c.judge(call, &[&t.speeds, &h, &t.weights, lent, &answer], None);
    found
}

/// The trial that the test expects must itself be as it has to. It fits exactly where the best division stays within the bound, and
/// where it writes N last; its next bid lies above the bound and not above the best. Of a tiny job and of up to three tiles its separators
/// are as far as the first machines get, however tiles are given to them, and it comes to as many machines as are needed so (scope 3.14);
/// of any other each separator is the greatest index whose share is within the bound and keeps the hold.
fn sound(c: &mut Check, t: &Case, bound: Bound, found: &Trial) {
    let (job, best, tiles) = (&t.job, t.bottleneck, t.job.weights.len());
    let mut good = match found.next {
        None => found.fits() && !less(bound, best),
        Some(next) => less(bound, best) && less(bound, next) && !less(best, next),
    };
    good &= found.fits() == (found.last().1 == tiles) && found.fits() == found.machines.is_some();
    if is_tiny(job) || tiles <= 3 {
        let furthest = slow::furthest(job, bound);
        good &= found.separators == furthest && found.machines == furthest.iter().position(|&s| s == tiles);
    } else {
        good &= is_greatest(job, bound, &found.separators);
    }
    good &= found.machines.map_or(true, |many| is_fewest(job, bound, &found.separators, many));
    if !good {
        c.fail(&format!("the solver's own trial at {:?} is wrong: {:?}", bound, found), format!("  {:?}", job));
    }
}

/// Whether so many machines are those that a fit comes to: so many separators are below N and each behind them is N (scope 3.12); filled from
/// the last tile back so many machines take all tiles, and one fewer does not (3.14).
fn is_fewest(job: &Job, bound: Bound, separators: &[usize], many: usize) -> bool {
    let tiles = job.weights.len();
    let mut good = separators.iter().filter(|&&s| s < tiles).count() == many;
    good &= separators[many..].iter().all(|&s| s == tiles);
    good && fast::take_all(job, many, bound) && (many == 0 || !fast::take_all(job, many - 1, bound))
}

/// Of two of the solver's own trials the one at a bound at least as great has no smaller separator (scope 3.11), and where the other fits it
/// fits too and comes to no more machines (3.15).
fn in_order(c: &mut Check, t: &Case, one: &(Bound, Trial), other: &(Bound, Trial)) {
    let (low, high) = if less(other.0, one.0) { (other, one) } else { (one, other) };
    let mut good = low.1.separators.iter().zip(&high.1.separators).all(|(a, b)| a <= b);
    good &= low.1.machines.map_or(true, |many| high.1.machines.is_some_and(|other| other <= many));
    if !good {
        c.fail(&format!("the solver's own trials are out of order: {:?}, {:?}", low, high), format!("  {:?}", t.job));
    }
}

/// Whether each share is within the bound and the hold, and is not with a tile more.
fn is_greatest(job: &Job, bound: Bound, separators: &[usize]) -> bool {
    let tiles = job.weights.len();
    let each = |p: usize| {
        let (a, b) = (separators[p], separators[p + 1]);
        let within = |to: usize| job.keeps(p, a, to) && !less(bound, (job.load(a, to), job.speeds[p] as u128));
        a <= b && b <= tiles && within(b) && (b == tiles || !within(b + 1))
    };
    separators.len() == job.speeds.len() + 1 && separators[0] == 0 && (0..job.speeds.len()).all(each)
}

/// How a trial ended, for what must have come up at the end of the run: of fits those whose answer has room for the number of machines.
fn count(c: &mut Check, job: &Job, bound: Bound, found: &Trial, entries: usize) {
    let (tiles, machines, (start, end)) = (job.weights.len(), job.speeds.len(), found.last());
    if let Some(many) = found.machines {
        let ends = [
            many == 0,
            machines == 1 && many == 1,
            machines > 1 && many == 1,
            many > 1 && many < machines,
            machines > 1 && many == machines,
            found.separators[..=many].windows(2).any(|s| s[0] == s[1]),
            job.weights.last() == Some(&0),
            many > 0 && many + 1 < machines,
            many > 0 && tiles < machines && machines == MACHINES,
        ];
        for (count, is) in c.fits.iter_mut().zip(ends) {
            *count += (is && entries > 1) as u64;
        }
        return;
    }
    let share = (job.load(start, end), job.speeds[machines - 1] as u128);
    let ends = [
        machines > 1 && end == start,
        machines > 1 && end > start,
        machines == 1 && end > start,
        end > start && job.weights[end - 1] == 0,
        share.0 > 0 && !less(share, bound),
        end + 1 == tiles,
    ];
    for (count, is) in c.failed.iter_mut().zip(ends) {
        *count += is as u64;
    }
}

/// What the holds did to a trial.
fn count_held(c: &mut Check, job: &Job, bound: Bound, found: &Trial) {
    if !job.has_holds() {
        return;
    }
    let (tiles, last, s) = (job.weights.len(), job.speeds.len() - 1, &found.separators);
    let full = |p: usize| s[p + 1] < tiles && !job.keeps(p, s[p], s[p + 1] + 1);
    // The bid of a machine at its hold, if it made one.
    let bid = |p: usize| (job.load(s[p], s[p + 1] + 1), job.speeds[p] as u128);
    let at_hold: Vec<usize> = (0..last).filter(|&p| full(p)).collect();
    let too_heavy = |p: usize| s[p + 1] < tiles && less(bound, bid(p));
    let fails = [
        !at_hold.is_empty(),
        at_hold.iter().any(|&p| found.next.is_some_and(|next| less(bid(p), next))),
        !job.keeps(last, s[last], tiles),
        full(last) && !too_heavy(last),
        job.holds[last] > 0 && !full(last),
    ];
    let fits = [!at_hold.is_empty(), job.holds[last] > 0 && tiles - s[last] == job.holds[last] as usize];
    let (from, ends) = if found.fits() { (5, &fits[..]) } else { (0, &fails[..]) };
    for (count, &is) in c.held_trials[from..].iter_mut().zip(ends) {
        *count += is as u64;
    }
}

/// The next bid of the trial at the ideal, which is bidding's second bound, or the ideal where it fits.
fn second_bound(job: &Job) -> Bound {
    let ideal = methods::ideal(job);
    methods::trial(job, ideal).next.unwrap_or(ideal)
}

/// The bound of any share on any machine.
fn some_share(r: &mut Rng, job: &Job) -> Bound {
    let (a, b) = (r.below(job.weights.len() + 1), r.below(job.weights.len() + 1));
    (job.load(a.min(b), a.max(b)), job.speeds[r.below(job.speeds.len())] as u128)
}

/// A bound to try: nought, the ideal, its next bid, the quick plan's, the best, part of it, of a share, next to one of them, or
/// anything, now and then out of range.
pub fn bound(r: &mut Rng, s: &Solved) -> Bound {
    let share = some_share(r, &s.job);
    let near = match r.below(10) {
        0 => (0, 1),
        1 => methods::ideal(&s.job),
        2 => second_bound(&s.job),
        3 => slow::bottleneck(&s.job, &s.quick),
        4 | 5 => s.bottleneck,
        6 => (s.bottleneck.0 * r.range(1, 63) as u128, s.bottleneck.1 * 64),
        _ => share,
    };
    // The same bound in other numbers, or as little off as they allow.
    let times = 1 + r.below(100_000) as u128;
    let off = r.range(0, 2) as u128;
    let near = match r.below(3) {
        0 => near,
        1 => (near.0 * times, near.1 * times),
        _ => ((near.0 * times + off).saturating_sub(1), near.1 * times),
    };
    let (load, speed) = (BOUND_LOAD as u128, BOUND_SPEED as u128);
    let near = (near.0.min(load), near.1.min(speed));
    match r.below(24) {
        0 => (r.pick(&[0, 1, load]), r.pick(&[1, speed])),
        1 => (r.pick(&[load + 1, u64::MAX as u128, 1 << 63]), near.1),
        2 => (near.0, r.pick(&[0, speed + 1, 1 << 32, u64::MAX as u128])),
        3 => (r.next() as u128 % (load + 1), 1 + r.next() as u128 % speed),
        _ => near,
    }
}

/// How many things a list can have held before it is lent.
const HELD: usize = 9;

/// One of them, for a trial at a bound: anything, any indices, one number throughout, what a trial at half the bound leaves, or at twice
/// the bound, or a plan.
fn held(r: &mut Rng, t: &Case, bound: Bound, which: usize) -> Vec<u32> {
    let tiles = t.job.weights.len() as u32;
    let words = |list: &[usize]| list.iter().map(|&s| s as u32).collect();
    match which {
        0 => (0..t.entries()).map(|_| r.next() as u32).collect(),
        1 => (0..t.entries()).map(|_| r.range(0, tiles)).collect(),
        2..=5 => vec![[0, tiles, tiles + 1, u32::MAX][which - 2]; t.entries()],
        6 => words(&methods::trial(&t.job, (bound.0, 2 * bound.1)).separators),
        7 => words(&methods::trial(&t.job, (2 * bound.0 + 1, bound.1)).separators),
        _ => words(&t.best),
    }
}

/// A list of so many entries that held one of these things; what stands behind them is anything.
pub fn some_list(r: &mut Rng, t: &Case, bound: Bound, len: usize) -> Vec<u8> {
    let which = r.below(HELD);
    let list = held(r, t, bound, which);
    every::with_length(r, &list, len)
}

/// The same for a plan, which has no bound.
pub fn list_for_plan(r: &mut Rng, t: &Case, len: usize) -> Vec<u8> {
    some_list(r, t, t.bottleneck, len)
}

/// A list that has room, often just enough.
fn list_with_room(r: &mut Rng, t: &Case, bound: Bound) -> Vec<u8> {
    let more = r.below(4).saturating_sub(1);
    some_list(r, t, bound, t.entries() + more)
}

/// The same trial whatever the list held, with just enough room and with more.
pub fn refilled(c: &mut Check, t: &Case, bound: Bound) {
    for which in 0..HELD {
        for more in [0, 1 + c.rng.below(4)] {
            let list = held(&mut c.rng, t, bound, which);
            let lent = every::with_length(&mut c.rng, &list, t.entries() + more);
            one(c, t, bound, &lent, 3);
        }
    }
}

/// Trials at the bound of every share on every machine, where each bid is among, and as little below and above it as can be. A list is
/// lent again as the trial before left it, at a lesser bound or a greater one.
fn at_every_bid(c: &mut Check, t: &Case) {
    let tiles = t.job.weights.len();
    let mut bounds: Vec<Bound> = Vec::new();
    for &e in &t.job.speeds {
        bounds.extend((0..=tiles).flat_map(|a| (a..=tiles).map(move |b| (a, b))).map(|(a, b)| (t.job.load(a, b), e as u128)));
    }
    bounds.sort_by(|x, y| (x.0 * y.1).cmp(&(y.0 * x.1)));
    bounds.dedup_by(|x, y| !less(*x, *y) && !less(*y, *x));
    if c.rng.once_in(2) {
        bounds.reverse();
    }
    let mut lent = list_with_room(&mut c.rng, t, t.bottleneck);
    let mut before: Option<(Bound, Trial)> = None;
    for bound in bounds {
        for near in [below(bound), Some(bound), Some(above(bound))].into_iter().flatten() {
            let found = one(c, t, near, &lent, 3).map(|found| (near, found));
            if let (Some(before), Some(found)) = (&before, &found) {
                in_order(c, t, before, found);
            }
            before = found;
            lent = c.after(3);
        }
    }
}

/// From a bound on each next bid in turn, as little below it and at it, until a trial fits or so many have failed, in one list. Short of the
/// next bid nothing changes but how far the last machine reaches. From the trial that fits it goes on.
fn in_turn(c: &mut Check, t: &Case, from: Bound, most: usize) {
    let mut lent = list_with_room(&mut c.rng, t, from);
    let mut bound = from;
    one(c, t, bound, &lent, 3);
    for _ in 0..most {
        let found = methods::trial(&t.job, bound);
        let Some(next) = found.next else { return to_fewer(c, t, (bound, found), most.min(MORE)) };
        let short = below(next).unwrap();
        if less(bound, short) {
            let other = methods::trial(&t.job, short);
            let (same, (_, end)) = (t.entries() - 1, found.last());
            if other.next != found.next || other.separators[..same] != found.separators[..same] || other.last().1 < end {
                let what = format!("the solver's own trials at {:?} and {:?} are wrong: {:?}, {:?}", bound, short, found, other);
                c.fail(&what, format!("  {:?}", t.job));
            }
        }
        for near in [short, next] {
            lent = c.after(3);
            one(c, t, near, &lent, 3);
        }
        bound = next;
    }
}

/// How many bounds are tried above the first that fits.
const MORE: usize = 4;

/// Of a trial that fits the least greater bound at which its walk is another: each machine that it came to, but the last of them, bids its
/// share with the next tile added if it can hold that. There is none where one machine has all tiles, or all but the last are at their holds.
fn next_walk(job: &Job, found: &Trial) -> Option<Bound> {
    let s = &found.separators;
    let share = |p: usize| (job.load(s[p], s[p + 1] + 1), job.speeds[p] as u128);
    let bids = (1..found.machines?).map(|p| p - 1).filter(|&p| job.keeps(p, s[p], s[p + 1] + 1));
    bids.map(share).reduce(|a, b| if less(b, a) { b } else { a })
}

/// From a bound that fits on to those at which the walk is another, as little below each and at it, until one machine has all tiles or so many
/// have been tried, in one list. Short of such a bound nothing changes; with each no more machines are come to.
fn to_fewer(c: &mut Check, t: &Case, from: (Bound, Trial), most: usize) {
    let mut at = from;
    for _ in 0..most {
        let Some(next) = next_walk(&t.job, &at.1) else { return };
        for near in [below(next).filter(|&short| less(at.0, short)), Some(next)].into_iter().flatten() {
            let lent = c.after(3);
            let Some(found) = one(c, t, near, &lent, 3) else { return };
            let found = (near, found);
            in_order(c, t, &at, &found);
            if (near == next) == (found.1 == at.1) {
                c.fail(&format!("the solver's own walks at {:?} and {:?} are wrong", at, found), format!("  {:?}", t.job));
            }
            at = found;
        }
    }
}

/// The same job with tiles of weight 0 put in, most of them where shares end: each machine takes along those behind its last tile, and
/// nothing else changes, but that without other tiles machine 1 is come to. Where there is start-up work and the first machine takes no
/// tile, none is put in front of all others, since that tile could be taken. With holds a tile more could be one too many.
fn padded(c: &mut Check, t: &Case, bound: Bound) {
    if t.job.has_holds() {
        return;
    }
    let found = methods::trial(&t.job, bound);
    let tiles = t.job.weights.len();
    let mut room = TILES - tiles;
    // How many are put in behind so many tiles.
    let mut more = vec![0; tiles + 1];
    let in_front = t.job.c() == 0 || found.separators[1] > 0;
    for &s in found.separators.iter().chain([&c.rng.below(tiles + 1), &tiles]).filter(|&&s| s > 0 || in_front) {
        let some = c.rng.below(4).min(room);
        more[s] += some;
        room -= some;
    }
    let mut weights = vec![0; more[0]];
    for (i, &w) in t.job.weights.iter().enumerate() {
        weights.push(w);
        weights.resize(weights.len() + more[i + 1], 0);
    }
    let other = Case::of(&Job { weights, ..t.job.clone() });
    let mut separators: Vec<usize> = found.separators.iter().map(|&s| s + more[..=s].iter().sum::<usize>()).collect();
    separators[0] = 0;
    let least = !other.job.weights.is_empty() as usize;
    let wanted = Trial { separators, next: found.next, machines: found.machines.map(|many| many.max(least)) };
    let got = methods::trial(&other.job, bound);
    if got != wanted {
        c.fail(&format!("the solver's own trial at {:?} is {:?}, not {:?}", bound, got, wanted), format!("  {:?}", other.job));
    }
    let lent = list_with_room(&mut c.rng, &other, bound);
    one(c, &other, bound, &lent, 3);
}

/// One machine, and two of which the first takes some tiles of weight 0: of the equal tiles that are left the last one reaches each of these
/// numbers in turn, and in the end all. Likewise with start-up work, which the first machine cannot carry.
fn every_reach(c: &mut Check, tiles: usize, reached: &[usize]) {
    for (machines, second) in [(1, false), (2, false), (1, true), (2, true)] {
        c.jobs_seen += 1;
        let taken = if machines == 1 || second { 0 } else { c.rng.below(tiles + 1) };
        let startup = second.then(|| c.rng.pick(&[1, 2, 7, 1_000, STARTUP]));
        let weight = c.rng.range(1, 9);
        let weights = [vec![0; taken], vec![weight; tiles - taken]].concat();
        let t = Case::of(&Job::of(startup, &[vec![1; machines - 1], vec![SPEED]].concat(), &weights));
        for &many in reached.iter().filter(|&&many| many <= tiles - taken) {
            let bound = (t.job.c() + many as u128 * weight as u128, SPEED as u128);
            let lent = list_with_room(&mut c.rng, &t, bound);
            one(c, &t, bound, &lent, 3);
            // A last machine that could carry all, and holds so many.
            if machines == 2 && many > 0 && c.rng.once_in(2) {
                let held = Case::of(&t.job.holding(vec![0, many as u16]));
                let all = (t.job.c() + (tiles - taken) as u128 * weight as u128, SPEED as u128);
                one(c, &held, all, &lent, 3);
            }
        }
    }
}

/// What is left for the last machine, made anew: the first of these tiles stays, or is heavier than it can carry; some others are just what
/// it can carry beside it; then there are tiles of weight 0, with one among them that weighs or without.
fn left_over(r: &mut Rng, job: &Job, bound: Bound) -> Job {
    let (start, _) = methods::trial(job, bound).last();
    let mut weights = job.weights[..start].to_vec();
    let Some(&first) = job.weights.get(start) else { return job.clone() };
    let most = bound.0 * job.speeds[job.speeds.len() - 1] as u128 / bound.1;
    let carries = most.saturating_sub(job.c()).min(u32::MAX as u128) as u32;
    let others = job.weights.len() - start - 1;
    let many = r.below(others + 1);
    weights.push(if r.once_in(3) { first.max(carries.saturating_add(1).min(WEIGHT)) } else { first });
    let carried = carries.saturating_sub(weights[start]).min((many as u64 * WEIGHT as u64).min(u32::MAX as u64) as u32);
    weights.extend(small::pieces(r, carried, many));
    let rest = weights.len();
    weights.resize(job.weights.len(), 0);
    if rest < weights.len() && r.once_in(2) {
        let at = rest + r.below(weights.len() - rest);
        weights[at] = r.pick(&[1, 2, WEIGHT]);
    }
    Job { weights, ..job.clone() }
}

/// A job of this size at bounds about its ideal: as it comes, and with what is left for the last machine made anew. The last machine is
/// often the slowest or the fastest that there can be.
fn sized(c: &mut Check, machines: usize, tiles: usize) {
    let mut speeds = small::speeds(&mut c.rng, machines);
    speeds[machines - 1] = c.rng.pick(&[1, SPEED, speeds[machines - 1]]);
    let weights = small::weights(&mut c.rng, tiles, &speeds);
    let job = small::job_of(&mut c.rng, speeds, weights);
    let (mut load, speed) = methods::ideal(&job);
    // About the ideal, or about that of all loads where each machine has a tile.
    if c.rng.once_in(2) {
        load += job.c() * machines.min(tiles) as u128;
    }
    let bound = match c.rng.below(3) {
        0 => (load, speed),
        1 => second_bound(&job),
        _ => (load * c.rng.range(500, 1_100) as u128, speed * 1_000),
    };
    let edge = (BOUND_LOAD as u128 - c.rng.below(2) as u128, c.rng.pick(&[1, BOUND_SPEED as u128]));
    for made in [job.clone(), left_over(&mut c.rng, &job, bound), left_over(&mut c.rng, &job, bound)] {
        c.jobs_seen += 1;
        let t = Case::of(&made);
        for near in [below(bound), Some(bound), Some(above(bound)), Some(edge)].into_iter().flatten() {
            let lent = list_with_room(&mut c.rng, &t, near);
            one(c, &t, near, &lent, 3);
        }
        padded(c, &t, bound);
        in_turn(c, &t, bound, 2);
        if c.rng.once_in(6) {
            refilled(c, &t, bound);
        }
    }
}

pub fn middle(c: &mut Check) {
    let (machines, tiles) = large::middle_size(&mut c.rng);
    sized(c, machines, tiles);
}

/// A strip of which so many tiles may weigh, of either edition: with any speeds, or with one machine that is faster than all others; with any
/// weights, or the greatest; and behind them tiles of weight 0, so that there are so many in all.
fn strip(r: &mut Rng, machines: usize, weighing: usize, tiles: usize) -> Job {
    let mut speeds = small::speeds(r, machines);
    if r.once_in(2) {
        let fastest = r.pick(&[2, 100, SPEED]);
        speeds.fill(r.range(1, fastest - 1));
        let k = r.pick(&[0, 1, machines / 2, machines.saturating_sub(2), machines - 1]);
        speeds[k.min(machines - 1)] = fastest;
    }
    let mut weights = if r.once_in(4) { vec![WEIGHT; weighing] } else { small::weights(r, weighing, &speeds) };
    weights.resize(tiles, 0);
    small::job_of(r, speeds, weights)
}

/// Bounds about which a strip is tried: nought, the best, and those of shares of the tiles that may weigh, on the first machine, on the last and
/// on any.
fn strip_bounds(r: &mut Rng, t: &Case, weighing: usize) -> Vec<Bound> {
    let mut shares: Vec<(usize, usize)> = (0..weighing).flat_map(|a| (a + 1..=weighing).map(move |b| (a, b))).collect();
    while shares.len() > 6 {
        shares.swap_remove(r.below(shares.len()));
    }
    let mut bounds = vec![(0, 1), t.bottleneck];
    for (a, b) in shares {
        let speeds = &t.job.speeds;
        for e in [speeds[0], speeds[speeds.len() - 1], r.pick(speeds)] {
            bounds.push((t.job.load(a, b), e as u128));
        }
    }
    bounds
}

/// Trials of a strip at these bounds, as little below and above them as can be, and at the greatest: in lists as the trial before left them, and in
/// others that held anything, with room for the whole answer or for less; then the same trial in lists of every kind.
fn strip_tried(c: &mut Check, t: &Case, bounds: &[Bound]) {
    let mut near: Vec<Bound> = bounds.iter().flat_map(|&b| [below(b), Some(b), Some(above(b))]).flatten().collect();
    near.extend([(BOUND_LOAD as u128, 1), (BOUND_LOAD as u128, BOUND_SPEED as u128)]);
    let (mut lent, mut before) = (Vec::new(), None);
    for bound in near {
        if lent.is_empty() || c.rng.once_in(2) {
            lent = list_with_room(&mut c.rng, t, bound);
        }
        let entries = c.rng.pick(&[0, 1, 2, 3, 3, 4]);
        let found = one(c, t, bound, &lent, entries).map(|found| (bound, found));
        if let (Some(before), Some(found)) = (&before, &found) {
            in_order(c, t, before, found);
        }
        (before, lent) = (found, c.after(3));
    }
    let bound = c.rng.pick(bounds);
    refilled(c, t, if less(bound, t.bottleneck) { t.bottleneck } else { bound });
}

/// A strip on a row of this length: trials, and now and then every call, the plans by all methods among them.
fn short(c: &mut Check, machines: usize, weighing: usize, tiles: usize, planned: bool) {
    let job = strip(&mut c.rng, machines, weighing, tiles);
    let t = if planned {
        let s = Solved::of(&job);
        every::job(c, &s, false);
        Case::with(&job, (s.best, s.bottleneck))
    } else {
        c.jobs_seen += 1;
        Case::of(&job)
    };
    let bounds = strip_bounds(&mut c.rng, &t, weighing);
    strip_tried(c, &t, &bounds);
}

/// A short strip on any row.
pub fn random_short(c: &mut Check) {
    let machines = if c.rng.once_in(3) { MACHINES } else { 1 + c.rng.below(MACHINES) };
    let weighing = c.rng.below(13);
    let more = c.rng.pick(&[0, 0, 1, 2, 9]);
    let planned = c.rng.once_in(4);
    short(c, machines, weighing, weighing + more, planned);
}

/// Short strips on long rows: of none to three tiles on each number of machines, once with tiles of weight 0 behind them; of some more tiles;
/// and a few that weigh in front of as many as there can be.
pub fn strips(c: &mut Check, times: usize) {
    for machines in 1..=MACHINES {
        for tiles in 0..=3 {
            short(c, machines, tiles, tiles, machines % 4 == tiles);
            let weighing = c.rng.below(tiles + 1);
            short(c, machines, weighing, tiles, machines % 4 == tiles);
        }
    }
    for tiles in 0..=3 {
        for _ in 0..25 * times {
            short(c, MACHINES, tiles, tiles, true);
        }
    }
    for _ in 0..400 * times {
        random_short(c);
    }
    for weighing in 0..=3 {
        for machines in [1, 2, 3, MACHINES / 2, MACHINES - 1, MACHINES] {
            let tiles = c.rng.pick(&[TILES, TILES, TILES - 1, 1_000, 64]);
            short(c, machines, weighing, tiles, machines == MACHINES);
        }
    }
}

/// A small job from bid to bid, from nought on, with tiles of weight 0, and in lists of every kind.
pub fn random(c: &mut Check) {
    c.jobs_seen += 1;
    let t = Case::of(&small::random_job(&mut c.rng));
    in_turn(c, &t, (0, 1), 1_000);
    let share = some_share(&mut c.rng, &t.job);
    padded(c, &t, share);
    refilled(c, &t, share);
}

pub fn run(c: &mut Check, times: usize) {
    small::every_job(&mut |job| {
        c.jobs_seen += 1;
        at_every_bid(c, &Case::of(job));
    });
    small::every_job(&mut |job| {
        if c.rng.once_in(4) {
            c.jobs_seen += 1;
            let t = Case::of(&small::in_second(&mut c.rng, job));
            at_every_bid(c, &t);
        }
        if c.rng.once_in(4) {
            c.jobs_seen += 1;
            let second = c.rng.once_in(3);
            let job = if second { small::in_second(&mut c.rng, job) } else { job.clone() };
            let t = Case::of(&small::held(&mut c.rng, &job));
            at_every_bid(c, &t);
        }
    });
    for _ in 0..2_000 * times {
        c.jobs_seen += 1;
        let t = Case::of(&small::near_job(&mut c.rng));
        at_every_bid(c, &t);
    }
    for _ in 0..13_000 * times {
        random(c);
    }
    for tiles in 0..=100 {
        every_reach(c, tiles, &(0..=tiles).collect::<Vec<_>>());
    }
    let about: Vec<usize> = (0..=TILES.ilog2()).flat_map(|k| [(1 << k) - 1, 1 << k, (1 << k) + 1]).collect();
    every_reach(c, TILES, &about);
    for _ in 0..1_500 * times {
        middle(c);
    }
    for _ in 0..250 * times {
        let (machines, tiles) = large::some_size(&mut c.rng);
        sized(c, machines, tiles);
    }
    for _ in 0..50 * times {
        sized(c, MACHINES, TILES);
    }
}
