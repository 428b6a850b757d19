//! Every call on one job, with lists of every length: none, one short, exact, longer.

use crate::answers::{bytes_of, Solved};
use crate::check::Check;
use crate::damage::is_tiny;
use crate::job::Job;
use crate::limits::{job_bytes, plan_bytes, work_numbers, BOUND_LOAD, LISTING, MACHINES, STARTUP, TILES};
use crate::planner::{Call, Edition};
use crate::rng::Rng;
use crate::slow::{self, less, Bound};
use crate::trials::{self, Case};
use crate::{grades, halving, methods};

fn around(r: &mut Rng, exact: usize) -> Vec<usize> {
    let mut list = vec![0, exact.saturating_sub(1), exact, exact + 1, exact + 2 + r.below(9)];
    list.dedup();
    list
}

/// Lengths of the lists of one call: all together if thorough, else the exact ones and a few.
fn lengths(r: &mut Rng, exact: &[usize], thorough: bool) -> Vec<Vec<usize>> {
    if !thorough {
        let some = |r: &mut Rng| exact.iter().map(|&n| pick(r, n)).collect();
        return vec![exact.to_vec(), some(r), some(r)];
    }
    let mut all: Vec<Vec<usize>> = vec![vec![]];
    for &n in exact {
        let steps = around(r, n);
        all = all.iter().flat_map(|l| steps.iter().map(move |&s| [&l[..], &[s]].concat())).collect();
    }
    all
}

/// Mostly long enough, so that the other lists come to be tested too.
fn pick(r: &mut Rng, exact: usize) -> usize {
    let list = around(r, exact);
    if r.once_in(3) {
        r.pick(&list)
    } else {
        exact + r.below(4)
    }
}

/// Reads a file into lists of these lengths.
pub fn read_into(c: &mut Check, file: &[u8], speeds: usize, holds: usize, weights: usize) {
    let (e, h, w) = (c.rng.pattern(4 * speeds), c.rng.pattern(2 * holds), c.rng.pattern(4 * weights));
    let entries = c.rng.below(6);
    let answer = c.rng.pattern(8 * entries);
    c.judge(Call::Read, &[file, &e, &h, &w, &answer], None);
}

/// Lists of holds of every length, each of them beside other lists that have just the room: fewer than machines are too few.
fn hold_lists(c: &mut Check, job: &Job) -> Vec<Vec<u8>> {
    let lengths = around(&mut c.rng, job.speeds.len());
    lengths.into_iter().map(|entries| c.holds_of(job, entries)).collect()
}

/// The list of holds for a call with lists of these lengths: mostly long enough.
fn some_holds(c: &mut Check, job: &Job) -> Vec<u8> {
    if c.rng.once_in(12) {
        let entries = pick(&mut c.rng, job.speeds.len());
        return c.holds_of(job, entries);
    }
    c.holds(job)
}

/// A list of separators: the first entries given, cut or followed by anything.
pub fn with_length(r: &mut Rng, list: &[u32], len: usize) -> Vec<u8> {
    let mut bytes = bytes_of(list);
    bytes.truncate(4 * len);
    let more = 4 * len - bytes.len();
    bytes.extend(r.pattern(more));
    bytes
}

fn files(c: &mut Check, s: &Solved, e: &[u8], w: &[u8], thorough: bool) {
    let (p, n) = (s.job.speeds.len(), s.job.weights.len());
    let (edition, h) = (c.edition(&s.job), some_holds(c, &s.job));
    c.judge(Call::Test(edition), &[e, &h, w], Some(s));
    let file = s.job.file();
    for l in lengths(&mut c.rng, &[p, n, 4], thorough) {
        let more = if c.rng.once_in(12) { pick(&mut c.rng, p) } else { p + c.rng.below(3) };
        let lent_h = c.rng.pattern(2 * more);
        let (lent_e, lent_w, answer) = (c.rng.pattern(4 * l[0]), c.rng.pattern(4 * l[1]), c.rng.pattern(8 * l[2]));
        c.judge(Call::Read, &[&file, &lent_e, &lent_h, &lent_w, &answer], Some(s));
    }
    for l in lengths(&mut c.rng, &[job_bytes(s.job.is_second(), p, n), 1], thorough) {
        let (lent, answer) = (c.rng.pattern(l[0]), c.rng.pattern(8 * l[1]));
        let (edition, h) = (c.edition(&s.job), some_holds(c, &s.job));
        c.judge(Call::Write(edition), &[e, &h, w, &lent, &answer], Some(s));
    }
}

/// Every call on lists, and reading, with a list of holds of every length.
fn with_hold_lists(c: &mut Check, s: &Solved, e: &[u8], w: &[u8]) {
    let (p, n) = (s.job.speeds.len(), s.job.weights.len());
    let best: Vec<u32> = s.best.iter().map(|&x| x as u32).collect();
    let (load, speed) = (s.bottleneck.0 as u64, s.bottleneck.1 as u64);
    for h in hold_lists(c, &s.job) {
        let edition = c.edition(&s.job);
        let (separators, answer) = (bytes_of(&best), c.rng.pattern(8 * 5));
        let (file, plan) = (c.rng.pattern(job_bytes(s.job.is_second(), p, n)), c.rng.pattern(plan_bytes(p)));
        let (work, graded) = (c.rng.pattern(4 * work_numbers(n)), crate::grading::file(&s.job, &s.best));
        c.judge(Call::Test(edition), &[e, &h, w], Some(s));
        c.judge(Call::Write(edition), &[e, &h, w, &file, &answer], Some(s));
        for call in [Call::Measure(edition), Call::Trial(edition, load, speed), Call::Quick(edition), Call::Halving(edition)] {
            c.judge(call, &[e, &h, w, &separators, &answer], Some(s));
        }
        for method in 1..=4 {
            c.judge(Call::Plan(edition, method), &[e, &h, w, &separators, &work, &answer], Some(s));
        }
        c.judge(Call::PlanFile(edition), &[e, &h, w, &separators, &plan, &answer], Some(s));
        c.judge(Call::Grade(edition), &[e, &h, w, &graded, &answer], Some(s));
        let (lent_e, lent_w) = (c.rng.pattern(4 * p), c.rng.pattern(4 * n));
        c.judge(Call::Read, &[&s.job.file(), &lent_e, &h, &lent_w, &answer], Some(s));
    }
}

/// The file read, and written from just what reading gave: edition, start-up work and lists, holds among them. The bytes must be those that were read.
fn there_and_back(c: &mut Check, s: &Solved) {
    let (file, failures) = (s.job.file(), c.failures);
    let (p, n) = (s.job.speeds.len(), s.job.weights.len());
    let (e, h, w, answer) = (c.rng.pattern(4 * p), c.rng.pattern(2 * p), c.rng.pattern(4 * n), c.rng.pattern(8 * 4));
    c.judge(Call::Read, &[&file, &e, &h, &w, &answer], Some(s));
    if c.failures > failures {
        return;
    }
    let (e, h, w, said) = (c.after(1), c.after(2), c.after(3), c.after(4));
    let number = |k: usize| u64::from_le_bytes(said[8 * k..8 * k + 8].try_into().unwrap());
    let edition = Edition { second: number(0) == 2, startup: number(1) as u32 };
    let room = c.rng.pattern(file.len());
    c.judge(Call::Write(edition), &[&e, &h, &w, &room, &[]], Some(s));
    if c.failures == failures && c.after(3) != file {
        c.fail("a file that is read and written again has other bytes", format!("  {:?}", s.job));
    }
}

/// A division of the job, now and then one that is none, also by its holds alone.
fn division(r: &mut Rng, s: &Solved) -> Vec<u32> {
    let (p, n) = (s.job.speeds.len(), s.job.weights.len() as u32);
    let mut list: Vec<u32> = match r.below(4) {
        0 => s.best.iter().map(|&x| x as u32).collect(),
        1 => s.quick.iter().map(|&x| x as u32).collect(),
        _ => {
            let mut inner: Vec<u32> = (1..p).map(|_| r.range(0, n)).collect();
            inner.sort();
            [&[0], &inner[..], &[n]].concat()
        }
    };
    if r.once_in(3) {
        let k = r.below(p + 1);
        list[k] = match r.below(5) {
            0 => list[k].wrapping_add(1),
            1 => list[k].wrapping_sub(1),
            2 => n + 1,
            3 => 0,
            _ => r.next() as u32,
        };
    }
    list
}

fn measures(c: &mut Check, s: &Solved, e: &[u8], w: &[u8], thorough: bool) {
    let p = s.job.speeds.len();
    for l in lengths(&mut c.rng, &[p + 1, 2], thorough) {
        let (list, edition, h) = (division(&mut c.rng, s), c.edition(&s.job), some_holds(c, &s.job));
        let (list, answer) = (with_length(&mut c.rng, &list, l[0]), c.rng.pattern(8 * l[1]));
        c.judge(Call::Measure(edition), &[e, &h, w, &list, &answer], Some(s));
    }
    for l in lengths(&mut c.rng, &[p + 1, plan_bytes(p), 1], thorough) {
        let (list, edition, h) = (division(&mut c.rng, s), c.edition(&s.job), some_holds(c, &s.job));
        let (list, plan, answer) = (with_length(&mut c.rng, &list, l[0]), c.rng.pattern(l[1]), c.rng.pattern(8 * l[2]));
        c.judge(Call::PlanFile(edition), &[e, &h, w, &list, &plan, &answer], Some(s));
    }
}

fn trials(c: &mut Check, s: &Solved, t: &Case, thorough: bool) {
    for l in lengths(&mut c.rng, &[s.job.speeds.len() + 1, 3], thorough) {
        for _ in 0..2 {
            let bound = trials::bound(&mut c.rng, s);
            let lent = trials::some_list(&mut c.rng, t, bound, l[0]);
            let entries = if c.rng.once_in(6) { c.rng.below(3) } else { l[1] };
            trials::one(c, t, bound, &lent, entries);
        }
    }
}

/// The quick plan, whose bottleneck must be as near to the ideal as is promised; with holds a refusal.
fn quick(c: &mut Check, s: &Solved, t: &Case, e: &[u8], w: &[u8], thorough: bool) {
    if !s.job.has_holds() && !methods::is_close(&s.job, slow::bottleneck(&s.job, &s.quick)) {
        c.fail("the solver's own quick plan is too far from the ideal", format!("  {:?}", s));
    }
    for l in lengths(&mut c.rng, &[s.job.speeds.len() + 1, 2], thorough) {
        let (lent, answer) = (trials::list_for_plan(&mut c.rng, t, l[0]), c.rng.pattern(8 * l[1]));
        let (edition, h) = (c.edition(&s.job), some_holds(c, &s.job));
        c.judge(Call::Quick(edition), &[e, &h, w, &lent, &answer], Some(s));
    }
}

/// What the test expects of halving must itself be as it has to: its two forms agree, no load is above what 16.7 allows, and the
/// bottleneck is no smaller than the best.
fn halves(c: &mut Check, job: &Job, quick: &[usize], best: Bound) {
    let found = halving::in_turn(job);
    let (machines, most) = (job.speeds.len() as u128, halving::most(job));
    let bottleneck = slow::bottleneck(job, &found.separators);
    let mut good = halving::by_sums(job) == found.separators && found.separators.len() == job.speeds.len() + 1;
    good &= machines * bottleneck.0 <= most && !less(bottleneck, best);
    if !good {
        c.fail(&format!("the solver's own halving is wrong: {:?}, {:?}", found, bottleneck), format!("  {:?}", job));
    }
    if machines == 1 {
        return;
    }
    let weighing = job.weights.iter().filter(|&&w| w > 0).count();
    let other = slow::bottleneck(job, quick);
    for (count, is) in c.splits.iter_mut().zip([found.ties, found.noughts]) {
        *count += is;
    }
    let meets = machines * bottleneck.0 == most && weighing > 1;
    let differs = [found.separators != quick, less(bottleneck, other), less(other, bottleneck), less(best, bottleneck)];
    for (count, is) in c.halved.iter_mut().zip([meets].into_iter().chain(differs)) {
        *count += is as u64;
    }
}

/// Halving a row, where it can be and there are no holds, beside its quick plan and the best bottleneck; else a refusal, with room and with
/// any list.
pub fn halve(c: &mut Check, job: &Job, quick: &[usize], best: Bound, thorough: bool) {
    let (e, w) = (bytes_of(&job.speeds), bytes_of(&job.weights));
    let can = halving::can_halve(&job.speeds);
    if can && !job.has_holds() {
        halves(c, job, quick, best);
    }
    let mut list = lengths(&mut c.rng, &[job.speeds.len() + 1, 2], thorough && can);
    list.truncate(if can { list.len() } else { 2 });
    for l in list {
        let (lent, answer) = (c.rng.pattern(4 * l[0]), c.rng.pattern(8 * l[1]));
        let (edition, h) = (c.edition(job), some_holds(c, job));
        c.judge(Call::Halving(edition), &[&e, &h, &w, &lent, &answer], None);
    }
}

/// The search of method 4 that the test expects, of a job without holds, must itself end as it has to: no candidate is below the best, one is equal to it,
/// and an empty share fits exactly where no share has a load. Up to 200 tiles its other form must agree.
fn searched(c: &mut Check, s: &Solved) {
    let Some(search) = &s.search else { return };
    if s.job.weights.len() <= 200 {
        let other = if is_tiny(&s.job) { methods::search_by_sums(&s.job) } else { methods::search_in_turn(&s.job) };
        if other != *search {
            c.fail(&format!("the solvers differ: {:?} and {:?}", search, other), format!("  {:?}", s.job));
        }
    }
    let (machines, list) = (s.job.speeds.len(), &search.candidates);
    let nothing = s.job.load(0, s.job.weights.len()) == 0;
    let least = list.iter().position(|&b| !less(s.bottleneck, b));
    let mut good = least.is_some() && !list.iter().any(|&b| less(b, s.bottleneck));
    good &= search.early == (nothing && machines > 1);
    good &= list.len() == if search.early { 1 } else { machines };
    if !good {
        c.fail("the solver's own search is wrong", format!("  {:?}", s));
        return;
    }
    let which = match least {
        _ if search.early => 0,
        Some(p) if p + 1 == machines => 3,
        Some(0) => 1,
        _ => 2,
    };
    c.searches[which] += 1;
}

fn plans(c: &mut Check, s: &Solved, t: &Case, e: &[u8], w: &[u8], thorough: bool) {
    let (p, n) = (s.job.speeds.len(), s.job.weights.len());
    for method in 1..=4 {
        if s.counts[method as usize - 1] > methods::allowance(&s.job, method) {
            c.fail("the solver's own count is above the allowance", format!("  {:?}", s));
        }
        for l in lengths(&mut c.rng, &[p + 1, work_numbers(n), 5], thorough) {
            let (lent, edition, h) = (trials::list_for_plan(&mut c.rng, t, l[0]), c.edition(&s.job), some_holds(c, &s.job));
            let (work, answer) = (c.rng.pattern(4 * l[1]), c.rng.pattern(8 * l[2]));
            c.judge(Call::Plan(edition, method), &[e, &h, w, &lent, &work, &answer], Some(s));
        }
    }
}

/// Grading of a true plan or of one that is a little off.
fn grading(c: &mut Check, s: &Solved, e: &[u8], w: &[u8]) {
    let plan = grades::some_plan(&mut c.rng, s);
    let (entries, room) = (c.rng.below(3), c.rng.pick(&[0, 1, 1, 1, 2, 9]));
    let (answer, grade, edition) = (c.rng.pattern(8 * entries), c.rng.pattern(room), c.edition(&s.job));
    let h = some_holds(c, &s.job);
    c.judge(Call::Grade(edition), &[e, &h, w, &plan, &answer], Some(s));
    c.judge(Call::HostGrade, &[&s.job.file(), &plan, &grade], Some(s));
}

/// Of which edition a job is, and what its start-up work changes; the plan without it is asked of tiny jobs alone, now and then.
fn count_edition(c: &mut Check, s: &Solved) {
    let Some(startup) = s.job.startup else {
        c.editions[0] += 1;
        return;
    };
    c.editions[1] += (startup == 0) as u64;
    c.editions[2] += (startup > 0) as u64;
    c.editions[3] += (startup == STARTUP) as u64;
    c.editions[6] += (s.job.speeds.len() == 1 && s.counts[1] == 2) as u64;
    if !is_tiny(&s.job) || !c.rng.once_in(8) {
        return;
    }
    let first = Job { startup: None, ..s.job.clone() };
    if startup == 0 {
        let f = Solved::of(&first);
        let same = (&f.best, f.bottleneck, f.counts, f.imbalance, &f.quick) == (&s.best, s.bottleneck, s.counts, s.imbalance, &s.quick);
        let one = |method: u32| method == 2 && s.job.speeds.len() == 1;
        let allowed = (1..=4).all(|m| one(m) || methods::allowance(&first, m) == methods::allowance(&s.job, m));
        if !same || !allowed {
            c.fail("the solver's own second edition without start-up work is not as the first", format!("  {:?}", s));
        }
        return;
    }
    let (without, _) = crate::fast::solve(&first);
    let busy = |list: &[usize]| list.windows(2).filter(|two| two[0] < two[1]).count();
    c.editions[4] += (without != s.best) as u64;
    c.editions[5] += (busy(&s.best) < busy(&without)) as u64;
}

/// What the holds of a job are, and what they change; the plan without them is asked of tiny jobs alone, now and then. Holds of N and more
/// change nothing but where bisection begins and what it is allowed.
fn count_holds(c: &mut Check, s: &Solved) {
    if !s.job.has_holds() {
        return;
    }
    let (holds, tiles) = (&s.job.holds, s.job.weights.len());
    let (limited, sum) = (holds.iter().filter(|&&h| h > 0).count(), holds.iter().map(|&h| h as usize).sum::<usize>());
    let all = limited == holds.len();
    let kinds = [
        s.job.c() > 0,
        tiles == 0,
        all && sum == tiles && holds.len() > 1,
        all && sum == tiles + 1,
        limited + 1 == holds.len(),
        holds.len() > 1 && limited == 1 && holds[holds.len() - 1] > 0,
        holds.contains(&1),
        holds.contains(&u16::MAX),
        holds.iter().any(|&h| h as usize == tiles),
        tiles == TILES && holds.len() == MACHINES,
    ];
    for (count, is) in c.kinds_of_holds.iter_mut().zip(kinds) {
        *count += is as u64;
    }
    if !is_tiny(&s.job) || !c.rng.once_in(4) {
        return;
    }
    let without = Solved::of(&s.job.unlimited());
    if holds.iter().all(|&h| h == 0 || h as usize >= tiles) {
        let same = (&without.best, without.bottleneck, without.imbalance) == (&s.best, s.bottleneck, s.imbalance);
        if !same || without.counts[..2] != s.counts[..2] {
            c.fail("the solver's own plan with holds that limit nothing is another than without", format!("  {:?}", s));
        }
    }
    if less(s.bottleneck, without.bottleneck) {
        c.fail("the solver's own plan with holds is better than without", format!("  {:?}", s));
    }
    let t = methods::table(&s.job);
    let inner = |p: usize| t.crossings[p - 1].iter().enumerate().map(move |(i, &j)| (p, i, j));
    let all: Vec<(usize, usize, usize)> = (1..holds.len()).flat_map(inner).collect();
    let share = |p: usize, j: usize, i: usize| (s.job.load(j, i), s.job.speeds[p] as u128);
    // Whether the crossing would be another one from 0 on, and whether the index before the start would be a better one.
    let earlier = |&(p, i, j): &(usize, usize, usize)| (0..j.min(methods::start(&s.job, p, i))).any(|k| !less(t.rows[p - 1][k], share(p, k, i)));
    let better = |&(p, i, j): &(usize, usize, usize)| {
        let from = methods::start(&s.job, p, i);
        j == from && from > 0 && less(share(p, from - 1, i), t.rows[p][i]) && less(t.rows[p - 1][from - 1], t.rows[p][i])
    };
    let changes = [
        less(without.bottleneck, s.bottleneck),
        without.best != s.best && !less(without.bottleneck, s.bottleneck),
        without.counts[0] != s.counts[0],
        without.counts[1] != s.counts[1],
        without.counts[2] != s.counts[2],
        all.iter().any(|&(p, i, _)| methods::start(&s.job, p, i) > 0),
        all.iter().any(earlier),
        all.iter().any(better),
        t.rows[1..].iter().any(|row| row.iter().any(|b| b.1 == 0)),
        t.rows[0].iter().any(|b| b.1 == 0),
    ];
    for (count, is) in c.changed_by_holds.iter_mut().zip(changes) {
        *count += is as u64;
    }
}

/// Every call on a job whose holds leave no room for all tiles: what makes no plan goes on, a division is none, a trial and a plan give 17,
/// the quick plans 18; 9 comes before them, 10 after.
pub fn short(c: &mut Check, job: &Job) {
    c.jobs_seen += 1;
    let (p, n) = (job.speeds.len(), job.weights.len());
    let (e, w, file) = (bytes_of(&job.speeds), bytes_of(&job.weights), job.file());
    c.short_holds[0] += 1;
    c.short_holds[1] += (job.holds.iter().map(|&h| h as usize).sum::<usize>() + 1 == n) as u64;
    let (edition, h, answer) = (c.edition(job), c.holds(job), c.rng.pattern(8 * 5));
    c.refuse(Call::Test(edition), &[&e, &h, &w], 0);
    let room = c.rng.pattern(file.len());
    c.refuse(Call::Write(edition), &[&e, &h, &w, &room, &answer], 0);
    read_into(c, &file, p, p, n);
    let mut division: Vec<u32> = (1..p).map(|_| c.rng.range(0, n as u32)).collect();
    division.sort();
    let division = [&[0], &division[..], &[n as u32]].concat();
    let (lent, plan_room) = (bytes_of(&division), c.rng.pattern(plan_bytes(p)));
    c.refuse(Call::Measure(edition), &[&e, &h, &w, &lent, &answer], 11);
    c.refuse(Call::PlanFile(edition), &[&e, &h, &w, &lent, &plan_room, &answer], 11);
    let plan = crate::grading::file(job, &division.iter().map(|&s| s as usize).collect::<Vec<_>>());
    c.refuse(Call::Grade(edition), &[&e, &h, &w, &plan, &answer], 11);
    c.refuse(Call::Grade(edition), &[&e, &h, &w, &plan[1..], &answer], 12);
    c.refuse(Call::HostGrade, &[&file, &plan, &plan_room[..1]], 11);
    let row = if halving::can_halve(&job.speeds) { 18 } else { 14 };
    for (entries, number) in [(p, 9), (p + 1, 17)] {
        let lent = c.rng.pattern(4 * entries);
        let quick = if number == 9 { 9 } else { 18 };
        let (load, speed) = c.rng.pick(&[(0, 1), (BOUND_LOAD, 1), (BOUND_LOAD + 1, 1), (0, 0)]);
        c.refuse(Call::Trial(edition, load, speed), &[&e, &h, &w, &lent, &answer], number);
        c.refuse(Call::Quick(edition), &[&e, &h, &w, &lent, &answer], quick);
        c.refuse(Call::Halving(edition), &[&e, &h, &w, &lent, &answer], if row == 14 { 14 } else { quick });
        for method in 1..=4 {
            let work = c.rng.pattern(4 * work_numbers(n));
            c.refuse(Call::Plan(edition, method), &[&e, &h, &w, &lent, &work, &answer], number);
            c.refuse(Call::Plan(edition, method), &[&e, &h, &w, &lent, &work[4..], &answer], 9);
            let room = if number == 9 { plan_bytes(p) - 1 } else { plan_bytes(p) };
            c.refuse(Call::Host { method }, &[&file, &plan_room[..room]], number);
        }
        let work = c.rng.pattern(4 * work_numbers(n));
        c.refuse(Call::Plan(edition, 5), &[&e, &h, &w, &lent, &work, &answer], 1);
    }
    crate::listing::called_with(c, &file, LISTING);
}

/// Every call on an accepted job.
pub fn job(c: &mut Check, s: &Solved, thorough: bool) {
    let (e, w) = (bytes_of(&s.job.speeds), bytes_of(&s.job.weights));
    searched(c, s);
    count_edition(c, s);
    count_holds(c, s);
    c.accepted(&s.job, &s.best);
    files(c, s, &e, &w, thorough);
    if thorough {
        with_hold_lists(c, s, &e, &w);
    }
    if thorough || c.rng.once_in(4) {
        there_and_back(c, s);
    }
    measures(c, s, &e, &w, thorough);
    let t = Case::with(&s.job, (s.best.clone(), s.bottleneck));
    trials(c, s, &t, thorough);
    quick(c, s, &t, &e, &w, thorough);
    halve(c, &s.job, &s.quick, s.bottleneck, thorough);
    plans(c, s, &t, &e, &w, thorough);
    grading(c, s, &e, &w);
}

/// A job that both solvers must agree on before the planner is asked.
pub fn both(c: &mut Check, job_: &Job, thorough: bool) {
    let s = Solved::of(job_);
    let other = crate::fast::solve(job_);
    if (&s.best, &s.bottleneck) != (&other.0, &other.1) {
        c.fail(&format!("the solvers differ: {:?} and {:?}", s, other), format!("  {:?}", job_));
    }
    let moves = methods::moves_by_walks(job_);
    if moves != s.counts[0] {
        c.fail(&format!("the solvers differ: {} and {} moves", s.counts[0], moves), format!("  {:?}", job_));
    }
    job(c, &s, thorough);
}
