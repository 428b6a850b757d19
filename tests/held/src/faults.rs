//! A planner with one fault made on purpose, between the test and the archives. HELD_FAULT names the fault; `list` prints all.

use std::sync::atomic::{AtomicU64, Ordering::Relaxed};
use std::sync::OnceLock;

use crate::answers;
use crate::grading;
use crate::halving;
use crate::job::{self, Job};
use crate::limits::{job_bytes, plan_bytes, work_numbers, BOUND_LOAD, BOUND_SPEED, JOB_INTAKE, LISTING, LONGEST_JOB};
use crate::limits::{LONGEST_HALVED, MACHINES, SPEED, STARTUP, TILES, WEIGHT};
use crate::listing;
use crate::methods::{self, Trial};
use crate::planner::{self, At, Call, Edition, Slot};
use crate::slow::{self, less, Bound};

/// The lists of a call, to be read and spoilt.
#[derive(Clone, Copy)]
struct Lists<'a> {
    call: Call,
    at: &'a [At],
}

type Run = fn(Lists) -> u32;

/// # Safety
/// Each list is good for its length, or null with length 0.
pub unsafe fn call(call: Call, at: &[At]) -> u32 {
    static CHOSEN: OnceLock<Run> = OnceLock::new();
    CHOSEN.get_or_init(chosen)(Lists { call, at })
}

fn chosen() -> Run {
    let name = std::env::var("HELD_FAULT").unwrap_or_default();
    match all().find(|f| f.0 == name) {
        Some(f) => f.2,
        None => panic!("no fault named '{}'", name),
    }
}

fn all() -> impl Iterator<Item = &'static (&'static str, &'static str, Run)> {
    FAULTS.iter().chain(ROWS).chain(STARTUPS).chain(TESTS).chain(HOLDS).chain(HELD).chain(HELD_BEHIND).chain(HELD_LISTS)
}

/// Prints the name of every fault, and what it is.
pub fn list() {
    for (name, what, _) in all() {
        println!("{}\t{}", name, what);
    }
}

/// Whether it is the call, for each name.
macro_rules! is_call {
    ($($name:ident: $call:pat,)*) => {
        $(fn $name(&self) -> bool {
            matches!(self.call, $call)
        })*
    };
}

impl Lists<'_> {
    fn place(&self, slot: Slot) -> Option<At> {
        let k = self.call.slots().iter().position(|&s| s == slot)?;
        (!self.at[k].0.is_null()).then_some(self.at[k])
    }

    /// How many entries a list has; 0 where the call has no such list.
    fn many(&self, slot: Slot) -> usize {
        self.call.slots().iter().position(|&s| s == slot).map_or(0, |k| self.at[k].1)
    }

    /// Of a call on lists.
    fn machines(&self) -> usize {
        self.many(Slot::Speeds)
    }

    fn tiles(&self) -> usize {
        self.many(Slot::Weights)
    }

    /// A list by numbers of any width; empty where the call has no such list.
    fn list<T>(&self, slot: Slot) -> &'static mut [T] {
        match self.place(slot) {
            Some((at, n)) => unsafe { std::slice::from_raw_parts_mut(at as *mut T, n * slot.width() / size_of::<T>()) },
            None => &mut [],
        }
    }

    fn holds(&self) -> &'static mut [u16] {
        self.list(Slot::Holds)
    }

    fn words(&self, slot: Slot) -> &'static mut [u32] {
        self.list(slot)
    }

    fn bytes(&self, slot: Slot) -> &'static mut [u8] {
        self.list(slot)
    }

    fn answer(&self) -> &'static mut [u64] {
        self.list(Slot::Answer)
    }

    fn real(&self) -> u32 {
        unsafe { planner::real(self.call, self.at) }
    }

    /// The real call, then `spoil` if it is one of these and was accepted.
    fn then(&self, wanted: bool, spoil: impl FnOnce(&Job)) -> u32 {
        let code = self.real();
        if wanted && code == 0 {
            spoil(&self.job());
        }
        code
    }

    fn job(&self) -> Job {
        match self.call {
            Call::Read | Call::List | Call::Host { .. } | Call::HostGrade => job::read(self.bytes(Slot::File), 1, usize::MAX).unwrap(),
            _ => self.listed_job(),
        }
    }

    /// The job of a call on lists, whatever is wrong with it; holds that are not there are none.
    fn listed_job(&self) -> Job {
        let mut holds = self.holds().to_vec();
        holds.resize(self.machines(), 0);
        Job::held(self.edition().counts(), self.words(Slot::Speeds), &holds, self.words(Slot::Weights))
    }

    /// The edition that comes beside the lists of a call on lists.
    fn edition(&self) -> Edition {
        self.call.edition().unwrap_or(Edition::FIRST)
    }

    /// The same call with another edition or start-up work beside its lists.
    fn with_edition(&self, change: impl FnOnce(Edition) -> Edition) -> u32 {
        match self.call.edition() {
            Some(edition) => self.other(self.call.beside(change(edition))),
            None => self.real(),
        }
    }

    is_call! {
        is_test: Call::Test(_),
        is_write: Call::Write(_),
        is_measure: Call::Measure(_),
        is_trial: Call::Trial(..),
        is_quick: Call::Quick(_),
        is_halving: Call::Halving(_),
        is_plans: Call::Plan(..),
        is_plan_file: Call::PlanFile(_),
        is_host: Call::Host { .. },
        is_grade: Call::Grade(_),
        is_grading: Call::Grade(_) | Call::HostGrade,
    }

    /// A plan by this method.
    fn is_plan(&self, method: u32) -> bool {
        matches!(self.call, Call::Plan(_, its) if its == method)
    }

    /// The bound of a trial, brought into the range of a lent one.
    fn bound(&self) -> Option<Bound> {
        let Call::Trial(_, load, speed) = self.call else { return None };
        Some((load.min(BOUND_LOAD) as u128, speed.clamp(1, BOUND_SPEED) as u128))
    }

    /// Spoils what a trial that fits, or one that fails, wrote into its P + 1 entries, by what the list held before.
    fn tried(&self, fits: bool, spoil: impl FnOnce(&Job, Bound, &[u32], &mut [u32])) -> u32 {
        let Some(bound) = self.bound() else { return self.real() };
        let before = self.words(Slot::Separators).to_vec();
        self.then(true, |job| {
            if methods::trial(job, bound).fits() == fits {
                spoil(job, bound, &before, &mut self.words(Slot::Separators)[..job.speeds.len() + 1]);
            }
        })
    }

    fn failed(&self, spoil: impl FnOnce(&Job, Bound, &[u32], &mut [u32])) -> u32 {
        self.tried(false, spoil)
    }

    /// Another entry of the answer of a trial, by the job, the trial and the right entry.
    fn said(&self, entry: usize, other: impl FnOnce(&Job, &Trial, u64) -> u64) -> u32 {
        let Some(bound) = self.bound() else { return self.real() };
        self.figure(true, entry, |job, v| other(job, &methods::trial(job, bound), v))
    }

    /// Another number of machines that a trial which fits came to, by the job, the trial and the right number.
    fn came(&self, other: impl FnOnce(&Job, &Trial, u64) -> u64) -> u32 {
        self.said(1, |job, found, many| if found.fits() { other(job, found, many) } else { many })
    }

    /// Another next bid of a trial that fails, by the job, the bound and the right bid.
    fn rebid(&self, other: impl FnOnce(&Job, Bound, Bound) -> Bound) -> u32 {
        let Some(bound) = self.bound() else { return self.real() };
        self.pair(true, 1, |job, found| if methods::trial(job, bound).fits() { found } else { other(job, bound, found) })
    }

    /// Spoils the separators behind the first that is N of a trial that fits, by what the list held there.
    fn filled(&self, spoil: impl FnOnce(&Job, &[u32], &mut [u32])) -> u32 {
        self.tried(true, |job, _, before, s| refill(job, before, s, spoil))
    }

    /// A fit of another walk: its separators, and the machines that it comes to.
    fn stopped(&self, other: impl FnOnce(&Job, &Trial) -> Option<Vec<usize>>) -> u32 {
        self.tried(true, |job, bound, _, s| {
            let Some(walk) = other(job, &methods::trial(job, bound)) else { return };
            put(s, &walk);
            if let Some(many) = self.answer().get_mut(1) {
                *many = walk.iter().position(|&s| s == job.weights.len()).unwrap() as u64;
            }
        })
    }

    /// Of a trial that fails another end of the last share, by where that begins and ends.
    fn reach(&self, other: impl FnOnce(&Job, Bound, usize, usize) -> usize) -> u32 {
        self.failed(|job, bound, _, s| {
            let k = s.len() - 1;
            s[k] = other(job, bound, s[k - 1] as usize, s[k] as usize) as u32;
        })
    }

    /// Of a trial that fails the last share one tile shorter, of these jobs.
    fn reach_less(&self, like: impl FnOnce(&Job) -> bool) -> u32 {
        self.reach(|job, _, start, end| if like(job) && end > start { end - 1 } else { end })
    }

    /// A trial whose separators, whether it fits or fails, are made of its own and of what the list held, where that looks like a trial's.
    fn trusting(&self, made: fn(u32, u32) -> u32) -> u32 {
        let spoil = |job: &Job, _: Bound, before: &[u32], s: &mut [u32]| {
            let old = &before[..s.len()];
            if old[0] == 0 && old.windows(2).all(|v| v[0] <= v[1]) && (1..=job.weights.len() as u32).contains(&old[s.len() - 1]) {
                s.iter_mut().zip(old).for_each(|(s, &old)| *s = made(*s, old));
            }
        };
        match self.bound() {
            Some(bound) if self.numbers().is_empty() => self.tried(methods::trial(&self.job(), bound).fits(), spoil),
            _ => self.real(),
        }
    }

    /// A trial that is refused with this number and writes the walk all the same, as far as there is room.
    fn refused_walk(&self, number: u32) -> u32 {
        let code = self.real();
        if let Some(bound) = self.bound().filter(|_| code == number) {
            let job = self.listed_job();
            let walk = if job.speeds.is_empty() { vec![0] } else { methods::trial(&job, bound).separators };
            put(self.words(Slot::Separators), &walk);
        }
        code
    }

    /// Spoils a listing, which has so many bytes.
    fn listed(&self, spoil: impl FnOnce(&Self, usize)) -> u32 {
        let code = self.real();
        if self.call == Call::List && code == 0 {
            spoil(self, listing::wanted(self.bytes(Slot::File)).len());
        }
        code
    }

    /// Spoils an entry of the answer of an accepted call.
    fn figure(&self, wanted: bool, entry: usize, spoil: impl FnOnce(&Job, u64) -> u64) -> u32 {
        self.then(wanted, |job| {
            if let Some(v) = self.answer().get_mut(entry) {
                *v = spoil(job, *v);
            }
        })
    }

    /// Spoils the bottleneck of an accepted call, which stands at these entries.
    fn pair(&self, wanted: bool, entry: usize, spoil: impl FnOnce(&Job, Bound) -> Bound) -> u32 {
        self.then(wanted, |job| {
            if let Some([load, speed]) = self.answer().get_mut(entry..entry + 2) {
                let new = spoil(job, (*load as u128, *speed as u128));
                (*load, *speed) = (new.0 as u64, new.1 as u64);
            }
        })
    }

    /// Spoils the inner separators of an accepted plan, by lists or by the C call.
    fn inner(&self, wanted: bool, spoil: impl FnOnce(&Job, &mut [u32])) -> u32 {
        self.then(wanted, |job| {
            let machines = job.speeds.len();
            if !self.is_host() {
                return spoil(job, &mut self.words(Slot::Separators)[..machines + 1]);
            }
            let plan = self.bytes(Slot::Plan);
            let mut s: Vec<u32> = vec![0];
            s.extend(job::decode(&plan[..16 * machines]).iter().map(|r| r[1]));
            spoil(job, &mut s);
            let s: Vec<usize> = s.iter().map(|&x| x as usize).collect();
            plan[..16 * machines].copy_from_slice(&job::encode(&job::plan_of(job, &s)));
        })
    }

    /// The numbers of all tests that fail, of a call on lists.
    fn numbers(&self) -> Vec<u32> {
        let (e, w) = (self.words(Slot::Speeds), self.words(Slot::Weights));
        let s = self.words(Slot::Separators);
        let has = |slot| self.call.slots().contains(&slot);
        let lends = has(Slot::Separators);
        let (job, few_holds) = (self.listed_job(), has(Slot::Holds) && self.many(Slot::Holds) < e.len());
        let mut short = few_holds || lends && s.len() < e.len() + 1;
        short |= has(Slot::Work) && self.words(Slot::Work).len() < work_numbers(w.len());
        short |= has(Slot::Plan) && self.bytes(Slot::Plan).len() < plan_bytes(e.len());
        let Edition { second, startup } = self.edition();
        short |= self.is_write() && self.bytes(Slot::File).len() < job_bytes(second, e.len(), w.len());
        let divides = matches!(self.call, Call::Measure(_) | Call::PlanFile(_));
        let plans = matches!(self.call, Call::Trial(..) | Call::Plan(..));
        let unlimited_only = matches!(self.call, Call::Quick(_) | Call::Halving(_) | Call::Plan(_, 4));
        let out = |load, speed| load > BOUND_LOAD || !(1..=BOUND_SPEED).contains(&speed);
        let tests = [
            (matches!(self.call, Call::Plan(_, method) if !(1..=4).contains(&method)), 1),
            (second && startup > STARTUP, 16),
            (e.iter().any(|&e| e == 0 || e > SPEED), 5),
            (w.iter().any(|&w| w > WEIGHT), 6),
            (e.is_empty() || e.len() > MACHINES, 7),
            (w.len() > TILES, 8),
            (self.is_halving() && !halving::can_halve(e), 14),
            (short, 9),
            (plans && !few_holds && !e.is_empty() && !job.has_room(), 17),
            (unlimited_only && !few_holds && job.has_holds(), 18),
            (matches!(self.call, Call::Trial(_, load, speed) if out(load, speed)), 10),
            (divides && s.len() > e.len() && !answers::is_division(&job, &s[..e.len() + 1]), 11),
        ];
        tests.iter().filter(|t| t.0).map(|t| t.1).collect()
    }

    /// Calls on lists with their tests in another order.
    fn ordered(&self, order: &[u32]) -> u32 {
        if matches!(self.call, Call::Read | Call::Host { .. } | Call::List | Call::Grade(_) | Call::HostGrade) {
            return self.real();
        }
        let all = self.numbers();
        order.iter().copied().find(|n| all.contains(n)).unwrap_or_else(|| self.real())
    }

    /// Halving with its tests in another order.
    fn halving_ordered(&self, order: &[u32]) -> u32 {
        if self.is_halving() {
            self.ordered(order)
        } else {
            self.real()
        }
    }

    /// Halving that gives another number to rows which are like this, where no other test fails.
    fn halving_gives(&self, number: u32, instead: u32, like: fn(&[u32]) -> bool) -> u32 {
        let others = || self.numbers().into_iter().filter(|&n| n != instead).count();
        if self.is_halving() && self.real() == instead && others() == 0 && like(self.words(Slot::Speeds)) {
            return number;
        }
        self.real()
    }

    /// Files, by numbers that a rule makes of all records.
    fn by_records(&self, rule: fn(&[u8]) -> Option<u32>) -> u32 {
        match self.real() {
            code @ (3..=6 | 15 | 16) if self.call.edition().is_none() => rule(self.bytes(Slot::File)).unwrap_or(code),
            code => code,
        }
    }

    /// Calls on files that give another number, by the file and the number that is right.
    fn recode(&self, rule: fn(&[u8], u32) -> u32) -> u32 {
        let code = self.real();
        if self.call.edition().is_none() {
            rule(self.bytes(Slot::File), code)
        } else {
            code
        }
    }

    /// Calls on files that see another first record, where it is one of the second edition.
    fn seeing_head(&self, wanted: bool, change: fn(&mut [u8])) -> u32 {
        if !wanted || self.call.edition().is_some() || self.bytes(Slot::File).len() < 8 || self.bytes(Slot::File)[0] != 3 {
            return self.real();
        }
        let mut file = self.bytes(Slot::File).to_vec();
        change(&mut file[..8]);
        self.with(Slot::File, &mut file)
    }

    /// A call on lists that counts other start-up work in the second edition, where that is in its range.
    fn counting(&self, wanted: bool, other: fn(u32) -> u32) -> u32 {
        match self.edition() {
            Edition { second: true, startup } if wanted && startup <= STARTUP => self.with_edition(|e| Edition { startup: other(startup), ..e }),
            _ => self.real(),
        }
    }

    /// 16 after 5: the start-up work is tested where no speed is out of range.
    fn late_startup(&self, wanted: bool) -> u32 {
        let code = self.real();
        if wanted && code == 16 && self.words(Slot::Speeds).iter().any(|&e| e == 0 || e > SPEED) {
            return 5;
        }
        code
    }

    /// Start-up work of the first edition tested.
    fn first_tested(&self, wanted: bool) -> u32 {
        let code = self.real();
        let Edition { second, startup } = self.edition();
        if wanted && !second && startup > STARTUP && code != 1 {
            return 16;
        }
        code
    }

    /// Start-up work of the first edition counted, where it is in its range.
    fn first_counted(&self, wanted: bool) -> u32 {
        let Edition { second, startup } = self.edition();
        if wanted && !second && startup <= STARTUP {
            return self.with_edition(|e| Edition { second: true, ..e });
        }
        self.real()
    }

    /// A call on lists that counts the start-up work for each tile.
    fn counting_each(&self, wanted: bool) -> u32 {
        let (Edition { second, startup }, weights) = (self.edition(), self.words(Slot::Weights));
        if !wanted || !second || weights.iter().any(|&w| w as u64 + startup as u64 > WEIGHT as u64) {
            return self.real();
        }
        let mut more: Vec<u32> = weights.iter().map(|&w| w + startup).collect();
        Lists { call: self.call.beside(Edition { second, startup: 0 }), ..*self }.with(Slot::Weights, &mut more)
    }

    /// Another load of each share of a division that is measured, by the job, its tiles and its number.
    fn measuring(&self, load: impl Fn(&Job, usize, usize, usize) -> u128) -> u32 {
        let s = self.words(Slot::Separators).to_vec();
        self.pair(self.is_measure(), 0, |job, _| {
            let share = |p: usize| (load(job, s[p] as usize, s[p + 1] as usize, p), job.speeds[p] as u128);
            (0..job.speeds.len()).map(share).reduce(|a, b| if less(a, b) { b } else { a }).unwrap()
        })
    }

    /// Another load of each record of an accepted plan file, by the job, the record and its number.
    fn reload(&self, wanted: bool, load: impl Fn(&Job, &[u32; 4], usize) -> u128) -> u32 {
        self.then(wanted, |job| {
            let plan = self.bytes(Slot::Plan);
            let mut records = job::decode(&plan[..16 * job.speeds.len()]);
            for (p, r) in records.iter_mut().enumerate() {
                r[2] = load(job, r, p) as u32;
            }
            plan[..16 * job.speeds.len()].copy_from_slice(&job::encode(&records));
        })
    }

    /// On refusal changes the first byte of a lent list.
    fn mark(&self, wanted: bool, slot: Slot) -> u32 {
        let code = self.real();
        if wanted && code != 0 {
            if let Some(b) = self.bytes(slot).first_mut() {
                *b ^= 1;
            }
        }
        code
    }

    /// A byte behind the end of a list, or before its start, where the call is accepted.
    fn stray(&self, wanted: bool, slot: Slot, behind: bool) -> u32 {
        self.then(wanted, |_| {
            if let Some((at, n)) = self.place(slot) {
                let place = if behind { at.wrapping_add(n * slot.width()) } else { at.wrapping_sub(1) };
                unsafe { *place ^= 1 };
            }
        })
    }

    /// The call on another list in one place.
    fn with<T>(&self, slot: Slot, list: &mut [T]) -> u32 {
        assert_eq!(size_of::<T>(), slot.width());
        let k = self.call.slots().iter().position(|&s| s == slot).unwrap();
        let mut at = self.at.to_vec();
        at[k] = (list.as_mut_ptr() as *mut u8, list.len());
        unsafe { planner::real(self.call, &at) }
    }

    /// The same call with other numbers.
    fn other(&self, call: Call) -> u32 {
        unsafe { planner::real(call, self.at) }
    }

    /// A call on files that sees another file.
    fn seeing(&self, wanted: bool, change: fn(&mut [u8])) -> u32 {
        if !wanted {
            return self.real();
        }
        let mut file = self.bytes(Slot::File).to_vec();
        change(&mut file);
        self.with(Slot::File, &mut file)
    }

    /// The call with other holds, by those of its machines: in its list, or in the records of its file where that is one of a job. Where the
    /// list is too short it stays.
    fn with_holds(&self, wanted: bool, change: impl Fn(&mut [u16], usize)) -> u32 {
        if !wanted {
            return self.real();
        }
        if self.call.edition().is_some() {
            let mut list = self.holds().to_vec();
            if list.len() >= self.machines() {
                change(&mut list[..self.machines()], self.tiles());
            }
            return self.with(Slot::Holds, &mut list);
        }
        let Ok(job) = job::parse(self.bytes(Slot::File)) else { return self.real() };
        let mut holds = job.holds.clone();
        change(&mut holds, job.weights.len());
        self.with(Slot::File, &mut job.holding(holds).file())
    }

    /// A call on lists with another list of holds, by how many machines there are.
    fn listing_holds(&self, wanted: bool, change: impl Fn(&mut Vec<u16>, usize)) -> u32 {
        if !wanted {
            return self.real();
        }
        let mut list = self.holds().to_vec();
        change(&mut list, self.machines());
        self.with(Slot::Holds, &mut list)
    }

    /// Another number, by the job and the number that is right, where that is the one of a job with any hold past all tests of its lists or its
    /// file.
    fn hold_number(&self, wanted: bool, rule: impl Fn(&Job, u32) -> u32) -> u32 {
        let code = self.real();
        if !wanted || matches!(code, 1..=8 | 14..=16) {
            return code;
        }
        let job = match self.call.edition() {
            None => job::read(self.bytes(Slot::File), 1, usize::MAX).ok(),
            Some(_) => Some(self.listed_job()).filter(|_| self.many(Slot::Holds) >= self.machines()),
        };
        job.filter(Job::has_holds).map_or(code, |job| rule(&job, code))
    }

    /// A listing of a job with holds in another text.
    fn relist(&self, change: impl Fn(&Job, String) -> String) -> u32 {
        self.listed(|l, n| {
            let Some(job) = job::read(l.bytes(Slot::File), 1, usize::MAX).ok().filter(Job::has_holds) else { return };
            let text = change(&job, String::from_utf8(l.bytes(Slot::Text)[..n].to_vec()).unwrap());
            l.bytes(Slot::Text)[..text.len()].copy_from_slice(text.as_bytes());
            if let Some(v) = l.answer().first_mut() {
                *v = text.len() as u64;
            }
        })
    }

    /// The lists of the job of a call, where no test before 7 fails.
    fn counted(&self) -> Option<Job> {
        match self.call {
            Call::Plan(_, method) | Call::Host { method } if !(1..=4).contains(&method) => return None,
            Call::Read | Call::List | Call::Host { .. } | Call::HostGrade => return job::parse(self.bytes(Slot::File)).ok(),
            _ => {}
        }
        let job = self.listed_job();
        (![16, 5, 6].contains(&answers::refuse_lists(self.edition(), &job.speeds, &job.weights))).then_some(job)
    }

    /// Whether no test after 7 fails.
    fn but_for_its_row(&self, job: &Job) -> bool {
        let (machines, tiles) = (job.speeds.len(), job.weights.len());
        let is_true = || grading::read(job, self.bytes(Slot::Plan)).is_ok();
        tiles <= TILES
            && match self.call {
                Call::Read => self.many(Slot::Speeds) >= machines && self.many(Slot::Holds) >= machines && self.many(Slot::Weights) >= tiles,
                Call::Host { method } => self.many(Slot::Plan) >= plan_bytes(machines) && answers::refuse_holds(job, method == 4).is_ok(),
                Call::Grade(_) => self.many(Slot::Holds) >= machines && is_true(),
                Call::HostGrade => self.many(Slot::Grade) > 0 && is_true(),
                Call::List => self.many(Slot::Text) >= LISTING && job.has_room(),
                _ => self.numbers().iter().all(|&n| n == 7),
            }
    }

    /// Rows of just so many machines taken, or refused, where nothing else is wrong. A row that is taken gets no plan, but in a listing
    /// its first line.
    fn row(&self, wanted: bool, machines: usize, taken: bool) -> u32 {
        let job = if wanted { self.counted() } else { None };
        let Some(job) = job.filter(|job| job.speeds.len() == machines && self.but_for_its_row(job)) else { return self.real() };
        let line = match taken {
            true => format!("tiles {} machines {} total {}\n", job.weights.len(), machines, job.weight(0, job.weights.len())),
            false => "refused 7\n".to_string(),
        };
        if self.call == Call::List {
            self.bytes(Slot::Text)[..line.len()].copy_from_slice(line.as_bytes());
            if let Some(v) = self.answer().first_mut() {
                *v = line.len() as u64;
            }
        }
        if taken || self.call == Call::List {
            0
        } else {
            7
        }
    }

    /// The listing of a file that is longer than what is taken in, judged by so many bytes. It is refused by any number of them.
    fn judged_by(&self, bytes: usize) -> u32 {
        self.listed(|l, n| {
            let file = l.bytes(Slot::File);
            // A number of one digit in place of another.
            let number = job::read(&file[..file.len().min(bytes)], 1, usize::MAX).err().filter(|&number| number < 10);
            if let Some(number) = number.filter(|_| file.len() > JOB_INTAKE && l.bytes(Slot::Text)[n - 3] == b' ') {
                l.bytes(Slot::Text)[n - 2] = b'0' + number as u8;
            }
        })
    }

    /// The job of a grading, where it is one.
    fn graded_job(&self) -> Option<Job> {
        match self.call {
            Call::HostGrade => job::read(self.bytes(Slot::File), 1, usize::MAX).ok(),
            _ => {
                let job = self.listed_job();
                (answers::refuse_lists(self.edition(), &job.speeds, &job.weights) == 0).then_some(job)
            }
        }
    }

    /// Spoils the grade of an accepted plan, by its division.
    fn regrade(&self, spoil: impl FnOnce(&Job, &[usize], u8) -> u8) -> u32 {
        self.then(self.is_grading(), |job| {
            let division = grading::read(job, self.bytes(Slot::Plan)).unwrap();
            if let Some(v) = self.answer().first_mut() {
                *v = spoil(job, &division, *v as u8) as u64;
            } else if let Some(v) = self.bytes(Slot::Grade).first_mut() {
                *v = spoil(job, &division, *v);
            }
        })
    }

    /// Best where the division's bottleneck is good enough.
    fn best_if(&self, enough: fn(&Job, Bound) -> bool) -> u32 {
        self.regrade(|job, division, _| if enough(job, slow::bottleneck(job, division)) { 1 } else { 2 })
    }

    /// A grading that sees another plan file, where the job itself is accepted.
    fn seeing_plan(&self, change: fn(&Job, &mut Vec<u8>)) -> u32 {
        let job = if self.is_grading() { self.graded_job() } else { None };
        let Some(job) = job else { return self.real() };
        let mut plan = self.bytes(Slot::Plan).to_vec();
        change(&job, &mut plan);
        self.with(Slot::Plan, &mut plan)
    }

    /// A grading that sees other records, where the length is right.
    fn seeing_records(&self, change: fn(&Job, &mut Vec<[u32; 4]>)) -> u32 {
        let job = if self.is_grading() { self.graded_job() } else { None };
        match job {
            Some(job) if self.bytes(Slot::Plan).len() == 16 * job.speeds.len() => {
                let mut records = job::decode(self.bytes(Slot::Plan));
                change(&job, &mut records);
                self.with(Slot::Plan, &mut job::encode(&records))
            }
            _ => self.real(),
        }
    }

    /// A grading that gives another number for a plan file that it refuses, by its records.
    fn renumber(&self, rule: fn(&Job, &[[u32; 4]], u32) -> u32) -> u32 {
        match (self.real(), self.is_grading()) {
            (code @ 11..=13, true) => rule(&self.graded_job().unwrap(), &job::decode(self.bytes(Slot::Plan)), code),
            (code, _) => code,
        }
    }

    /// Spoils each 16-byte record of an accepted plan file.
    fn records(&self, wanted: bool, spoil: fn(&mut [u8])) -> u32 {
        self.then(wanted, |job| self.bytes(Slot::Plan)[..16 * job.speeds.len()].chunks_mut(16).for_each(spoil))
    }
}

/// Whether a record's load and speed are those of the machine's tiles, as far as these are there.
fn untrue(job: &Job, r: &[u32; 4], p: usize) -> bool {
    let (a, b) = (r[0] as usize, r[1] as usize);
    a <= b && b <= job.weights.len() && (job.load(a, b) != r[2] as u128 || job.speeds[p] != r[3])
}

/// The first fault record by record: 11 for a record that does not begin where the one before ends, 13 for an untrue one.
fn record_by_record(job: &Job, records: &[[u32; 4]], code: u32) -> u32 {
    let mut before = 0;
    for (p, r) in records.iter().enumerate().take(if code == 12 { 0 } else { usize::MAX }) {
        if r[0] != before || r[1] < r[0] {
            return 11;
        }
        if untrue(job, r, p) {
            return 13;
        }
        before = r[1];
    }
    code
}

fn gcd(a: u128, b: u128) -> u128 {
    if b == 0 {
        a
    } else {
        gcd(b, a % b)
    }
}

fn reduced(b: Bound) -> Bound {
    let g = gcd(b.0, b.1);
    (b.0 / g, b.1 / g)
}

/// The same bound as the highest-numbered machine has it.
fn of_last_machine(job: &Job, s: &[u32], found: Bound) -> Bound {
    let shares = (0..job.speeds.len()).map(|p| (job.load(s[p] as usize, s[p + 1] as usize), job.speeds[p] as u128));
    shares.filter(|&b| !less(b, found)).last().unwrap_or(found)
}

fn best_bound(job: &Job) -> Bound {
    answers::Solved::of(job).bottleneck
}

/// The whole thousandths of the ideal by which the best bottleneck is above it, and whether it is above by more; None where nothing weighs.
fn thousandths(job: &Job) -> Option<(u64, bool)> {
    let (ideal, best) = (methods::ideal(job), best_bound(job));
    let (above, one) = (1000 * (best.0 * ideal.1 - ideal.0 * best.1), ideal.0 * best.1);
    (one > 0).then(|| ((above / one) as u64, above % one > 0))
}

/// All bids of a trial that fails, those too that holds keep from being made: of each machine whether it makes it.
fn every_bid(job: &Job, bound: Bound) -> Vec<(Bound, bool)> {
    let (tiles, last) = (job.weights.len(), job.speeds.len() - 1);
    let s = methods::trial(job, bound).separators;
    let end = |p: usize| if p == last { tiles } else { s[p + 1] + 1 };
    (0..=last).map(|p| ((job.load(s[p], end(p)), job.speeds[p] as u128), job.keeps(p, s[p], end(p)))).collect()
}

/// Those that are made.
fn all_bids(job: &Job, bound: Bound) -> Vec<Bound> {
    every_bid(job, bound).into_iter().filter(|b| b.1).map(|b| b.0).collect()
}

/// The least of all bids, where those too are made that a rule takes, by the job, the machine and whether it may make it; none of these is
/// the bid that was made.
fn rebid_by(l: Lists, made: fn(&Job, usize, bool) -> bool) -> u32 {
    l.rebid(|job, bound, found| {
        let bids: Vec<Bound> = every_bid(job, bound).into_iter().enumerate().filter(|(p, b)| made(job, *p, b.1)).map(|(_, b)| b.0).collect();
        least_of(&bids).unwrap_or(found)
    })
}

/// The same where the last machine bids its share with the next tile added, as the others do.
fn rebid_next_tile(l: Lists) -> u32 {
    l.rebid(|job, bound, found| {
        let (start, end) = methods::trial(job, bound).last();
        if end == job.weights.len() || !job.keeps(job.speeds.len() - 1, start, job.weights.len()) {
            return found;
        }
        let mut bids = all_bids(job, bound);
        bids.pop();
        bids.push((job.load(start, end + 1), job.speeds[job.speeds.len() - 1] as u128));
        least_of(&bids).unwrap()
    })
}

/// The greatest index, from a start on, up to which the tiles from another place on are within a bound at a speed.
fn reached(job: &Job, start: usize, from: usize, speed: u32, bound: Bound) -> usize {
    let keeps = |to: usize| job.keeps(job.speeds.len() - 1, start, to);
    (start..=job.weights.len()).rev().find(|&to| keeps(to) && (from >= to || !less(bound, (job.load(from, to), speed as u128)))).unwrap_or(start)
}

/// The separators of the trial as little below the bottleneck as makes it fail; None where nothing weighs.
fn failing(job: &Job) -> Option<Vec<usize>> {
    let (load, speed) = best_bound(job);
    (load > 0).then(|| methods::trial(job, ((load << 40) - 1, speed << 40)).separators)
}

/// A plan that leaves the separators of a trial that fails.
fn left_failing(job: &Job, s: &mut [u32]) {
    if let Some(walk) = failing(job) {
        put(s, &walk);
    }
}

/// The same in a listing of so many bytes, in the line of the table.
fn relist_failing(l: &Lists, bytes: usize) {
    let job = job::read(l.bytes(Slot::File), 1, usize::MAX).ok().filter(|job| job.has_room());
    let Some(walk) = job.and_then(|job| failing(&job)) else { return };
    let text = &mut l.bytes(Slot::Text)[..bytes];
    let ends: Vec<usize> = text.iter().enumerate().filter(|(_, b)| **b == b'\n').map(|(k, _)| k).collect();
    let words: Vec<String> = walk.iter().map(|s| format!(" {}", s)).collect();
    let line = &mut text[ends[0] + 1..ends[1]];
    let spaces: Vec<usize> = line.iter().enumerate().filter(|(_, b)| **b == b' ').map(|(k, _)| k).collect();
    let old = &mut line[spaces[5]..];
    if old.len() == words.concat().len() {
        old.copy_from_slice(words.concat().as_bytes());
    }
}

/// Spoils the separators behind the first that is N, by what the list held there.
fn refill(job: &Job, before: &[u32], s: &mut [u32], spoil: impl FnOnce(&Job, &[u32], &mut [u32])) {
    let end = s.len();
    let from = s.iter().position(|&s| s as usize == job.weights.len()).map_or(end, |p| p + 1);
    if from < end {
        spoil(job, &before[from..end], &mut s[from..]);
    }
}

/// A plan by a method that leaves them as the list had them.
fn unfilled(l: Lists, method: u32) -> u32 {
    let before = l.words(Slot::Separators).to_vec();
    l.inner(l.is_plan(method), |job, s| refill(job, &before, s, |_, old, s| s.copy_from_slice(old)))
}

/// The walk of a fit that stops one machine early, where no more than so many tiles are left then: the machine takes them too.
fn stopped_with(job: &Job, found: &Trial, left: usize) -> Option<Vec<usize>> {
    let tiles = job.weights.len();
    let many = found.machines.filter(|&many| many > 1 && found.separators[many - 1] + left >= tiles)?;
    let mut walk = found.separators.clone();
    walk[many - 1] = tiles;
    Some(walk)
}

/// Puts separators into a list, as far as it goes.
fn put(to: &mut [u32], from: &[usize]) {
    for (to, from) in to.iter_mut().zip(from) {
        *to = *from as u32;
    }
}

/// Other separators of an accepted call, with their bottleneck.
fn redivide(l: Lists, wanted: bool, other: impl FnOnce(&Job) -> Vec<usize>) -> u32 {
    l.then(wanted, |job| {
        let s = other(job);
        let found = slow::bottleneck(job, &s);
        put(l.words(Slot::Separators), &s);
        for (to, from) in l.answer().iter_mut().zip([found.0, found.1]) {
            *to = from as u64;
        }
    })
}

/// Another quick plan, by which of two indices is nearer.
fn requick(l: Lists, nearer: fn(i128, i128) -> bool) -> u32 {
    redivide(l, l.is_quick(), |job| {
        let whole = job.weight(0, job.weights.len()) as i128;
        let all: i128 = job.speeds.iter().map(|&e| e as i128).sum();
        let mut sofar = 0;
        let mut s = vec![0usize];
        for &e in &job.speeds[..job.speeds.len() - 1] {
            sofar += e as i128;
            let off = |i: usize| job.weight(0, i) as i128 * all - whole * sofar;
            let pick = |best: usize, i: usize| if nearer(off(i), off(best)) { i } else { best };
            s.push((0..=job.weights.len()).reduce(pick).unwrap());
        }
        s.push(job.weights.len());
        s
    })
}

/// Other separators of a row that is halved, with their bottleneck.
fn rehalve(l: Lists, other: impl FnOnce(&Job) -> Vec<usize>) -> u32 {
    redivide(l, l.is_halving(), other)
}

/// A row halved another way: where the separator is put in the part from a to b, of so many machines, and which sides are then split:
/// the part, and whether it is a left one. A side that is not split is all its last machine's.
fn halved_by(job: &Job, put: &dyn Fn(usize, usize, usize) -> usize, goes_on: &dyn Fn(usize, bool) -> bool) -> Vec<usize> {
    let machines = job.speeds.len();
    let mut s = vec![0; machines + 1];
    let mut parts = vec![(0, machines, 0, job.weights.len(), true)];
    while let Some((first, last, a, b, split)) = parts.pop() {
        s[last] = b;
        let middle = (first + last) / 2;
        if first == middle {
            continue;
        }
        let at = if split { put(a, b, last - first) } else { a };
        parts.push((first, middle, a, at, split && goes_on(middle - first, true)));
        parts.push((middle, last, at, b, split && goes_on(middle - first, false)));
    }
    s
}

/// Another choice of the nearest: by the doubled distances of an index and of the one chosen so far, below 0 on the left of the half.
fn halved_nearer(job: &Job, nearer: fn(i128, i128) -> bool) -> Vec<usize> {
    halved_to(job, |off, _| off, nearer)
}

/// Another half: by what is made of the doubled distance and of the part's weight.
fn halved_to(job: &Job, made: fn(i128, i128) -> i128, nearer: fn(i128, i128) -> bool) -> Vec<usize> {
    let put = |a: usize, b: usize, _: usize| {
        let part = job.weight(a, b) as i128;
        let off = |i: usize| made(2 * job.weight(a, i) as i128 - part, part);
        (a..=b).reduce(|best, i| if nearer(off(i), off(best)) { i } else { best }).unwrap()
    };
    halved_by(job, &put, &|_, _| true)
}

fn is_nearer(new: i128, old: i128) -> bool {
    new.abs() < old.abs()
}

/// Halving as it has to be, but that some sides are not split.
fn halved_but(job: &Job, goes_on: &dyn Fn(usize, bool) -> bool) -> Vec<usize> {
    let put = |a: usize, b: usize, _: usize| halving::by_sums(&Job::new(&[1, 1], &job.weights[a..b]))[1] + a;
    halved_by(job, &put, goes_on)
}

/// The same job without its start-up work.
fn without(job: &Job) -> Job {
    Job { startup: None, ..job.clone() }
}

/// The start-up work for the first share with tiles alone.
fn once(job: &Job, a: usize, b: usize) -> u128 {
    job.weight(a, b) + if a == 0 && b > 0 { job.c() } else { 0 }
}

/// The quick plan with start-up work among the weights: that of so many machines.
fn quick_by_loads(job: &Job) -> Vec<usize> {
    let (c, machines) = (job.c() as i128, job.speeds.len());
    let all: i128 = job.speeds.iter().map(|&e| e as i128).sum();
    let whole = job.weight(0, job.weights.len()) as i128 + c * machines as i128;
    let mut s = vec![0];
    for p in 1..machines {
        let sofar: i128 = job.speeds[..p].iter().map(|&e| e as i128).sum();
        let off = |i: usize| ((job.weight(0, i) as i128 + c * p as i128) * all - whole * sofar).abs();
        s.push((s[p - 1]..=job.weights.len()).reduce(|best, i| if off(i) < off(best) { i } else { best }).unwrap());
    }
    s.push(job.weights.len());
    s
}

/// Bidding's trials from another bound than the ideal on.
fn bids_from(job: &Job, mut bound: Bound) -> u64 {
    let mut trials = 1;
    while let Some(next) = methods::trial(job, bound).next {
        trials += 1;
        bound = next;
    }
    trials
}

/// The ideal with the start-up work of all machines.
fn ideal_with_startup(job: &Job) -> Bound {
    let (whole, all) = methods::ideal(job);
    (whole + job.c() * job.speeds.len() as u128, all)
}

/// The table's value where each entry is made of its crossing, and of the row before, another way: by the machine, where j starts, the
/// crossing from there on, and i.
fn table_by(job: &Job, made: impl Fn(&[Bound], usize, usize, usize, usize) -> Bound) -> Bound {
    let tiles = job.weights.len();
    let first = |i: usize| if job.keeps(0, 0, i) { (job.load(0, i), job.speeds[0] as u128) } else { (1, 0) };
    let mut row: Vec<Bound> = (0..=tiles).map(first).collect();
    for p in 1..job.speeds.len() {
        let share = |j: usize, i: usize| (job.load(j, i), job.speeds[p] as u128);
        let entry = |i: usize| {
            let from = methods::start(job, p, i);
            let at = (from..=i).find(|&j| !less(row[j], share(j, i))).unwrap();
            made(&row, p, from, at, i)
        };
        row = (0..=tiles).map(entry).collect();
    }
    row[tiles]
}

/// Where each entry looks only at its crossing.
fn crossing_only(job: &Job) -> Bound {
    table_by(job, |row, _, _, at, _| row[at])
}

/// Where each entry looks at the index before its crossing also where that is before the start of j.
fn before_start(job: &Job) -> Bound {
    table_by(job, |row, p, _, at, i| {
        let value = |j: usize| {
            let share = (job.load(j, i), job.speeds[p] as u128);
            if less(row[j], share) { share } else { row[j] }
        };
        let (here, before) = (value(at), value(at.saturating_sub(1)));
        if less(before, here) { before } else { here }
    })
}

/// The table's moves where those to the start of j are not counted.
fn moves_without_starts(job: &Job) -> u64 {
    let mut moves = 0;
    for (k, crossings) in methods::table(job).crossings.iter().enumerate() {
        let mut pointer = 0;
        for (i, &goal) in crossings.iter().enumerate() {
            pointer = methods::start(job, k + 1, i).max(pointer);
            moves += (goal - pointer) as u64;
            pointer = goal;
        }
    }
    moves
}

/// The table's moves where the crossing is looked for from 0 on.
fn moves_from_nought(job: &Job) -> u64 {
    let (t, tiles) = (methods::table(job), job.weights.len());
    let crossing = |p: usize| (0..=tiles).find(|&j| !less(t.rows[p - 1][j], (job.load(j, tiles), job.speeds[p] as u128))).unwrap() as u64;
    (1..job.speeds.len()).map(crossing).sum()
}

/// Bisection's trials from another high end on, where that is no lower than the best.
fn halvings_from(job: &Job, high: Bound) -> Option<u64> {
    let (mut low, mut high, mut trials) = (methods::trial(job, methods::ideal(job)).next?, high, 1);
    if less(high, best_bound(job)) {
        return None;
    }
    while less(low, high) {
        trials += 1;
        let tried = methods::trial(job, (low.0 * high.1 + high.0 * low.1, 2 * low.1 * high.1));
        match tried.next {
            None => high = slow::bottleneck(job, &tried.separators),
            Some(next) => low = next,
        }
    }
    Some(trials)
}

/// All weight and this start-up work over this speed.
fn whole_over(job: &Job, startup: u128, speed: u32) -> Bound {
    (methods::ideal(job).0 + startup, speed as u128)
}

/// The separators of the walk at a bound that may not fit; the last one is N.
fn force(job: &Job, s: &mut [u32], bound: Bound) {
    put(s, &methods::trial(job, bound).separators);
    s[job.speeds.len()] = job.weights.len() as u32;
}

/// The separators of the walk at a bound.
fn rewalk(job: &Job, s: &mut [u32], bound: Option<Bound>) {
    if let Some(found) = bound.map(|b| methods::trial(job, b)).filter(|found| found.fits()) {
        put(s, &found.separators);
    }
}

fn least_of(bounds: &[Bound]) -> Option<Bound> {
    bounds.iter().copied().reduce(|a, b| if less(b, a) { b } else { a })
}

/// The least candidate of a search in which each machine keeps tile j too.
fn keeping_j(job: &Job) -> Option<Bound> {
    let tiles = job.weights.len();
    let fits = |b: &Bound| methods::trial(job, *b).fits();
    let (mut start, mut list) = (0, Vec::new());
    for &e in &job.speeds {
        let share = |j: usize| (job.load(start, j), e as u128);
        let Some(j) = (start..=tiles).find(|&j| fits(&share(j))) else { break };
        list.push(share(j));
        start = j;
    }
    least_of(&list)
}

/// So many times the binary digits of N, or of some tiles fewer.
fn times_digits(job: &Job, times: usize, fewer: usize) -> u64 {
    times as u64 * methods::digits(job.weights.len().saturating_sub(fewer) as u128)
}

/// True once in so many times.
fn seldom(times: u64) -> bool {
    static TURN: AtomicU64 = AtomicU64::new(0);
    TURN.fetch_add(1, Relaxed) % times == times - 1
}

fn value(r: &[u8]) -> u32 {
    u32::from_le_bytes(r[4..8].try_into().unwrap())
}

/// The least number of any record, taken for itself: of kind 3 as the first one where it is that.
fn rule_by_rule(file: &[u8]) -> Option<u32> {
    let alone = |k: usize| job::parse(&if k == 0 { file[..8].to_vec() } else { [&job::machine(1), &file[8 * k..8 * k + 8]].concat() }).err();
    (0..file.len() / 8).filter_map(alone).chain(job::parse(file).err()).min()
}

/// 5 before 4 in one record.
fn speed_before_place(file: &[u8]) -> Option<u32> {
    let mut tiles = false;
    for r in file.chunks(8) {
        if r[1] != 0 || r[0] != 1 && (r[2] != 0 || r[3] != 0) || !(1..=3).contains(&r[0]) {
            return None;
        }
        let bad = r[0] == 1 && (value(r) == 0 || value(r) > SPEED);
        if tiles && r[0] == 1 {
            return bad.then_some(5);
        }
        tiles |= r[0] == 2;
    }
    None
}

fn swap_fields(r: &mut [u8]) {
    for k in 8..12 {
        r.swap(k, k + 4);
    }
}

/// Three quarters of the most machines.
const MANY: usize = MACHINES * 3 / 4;

#[rustfmt::skip]
const FAULTS: &[(&str, &str, Run)] = &[
    ("none", "no fault: this one must pass", |l| l.real()),
    // Plans by lists and by the C call.
    ("plan-separator-short", "the first inner separator one too small", |l| l.inner(l.is_plans(), |_, s| if s.len() > 2 && s[1] > 0 { s[1] -= 1 })),
    ("plan-separator-long", "the last inner separator one too great", |l| l.inner(l.is_plans(), |_, s| { let k = s.len() - 2; if k > 0 && s[k] < s[k + 1] { s[k] += 1 } })),
    ("plan-tie", "a share stopped before tiles of weight 0", |l| l.inner(l.is_plans(), |j, s| for k in 1..s.len() - 1 { if s[k] > s[k - 1] && j.weights[s[k] as usize - 1] == 0 { s[k] -= 1 } })),
    ("plan-many", "one separator wrong, by bisection, with more than three quarters of the most machines", |l| l.inner(l.is_plan(3), |_, s| { let k = s.len() - 2; if k > MANY && s[k] > s[k - 1] { s[k] -= 1 } })),
    ("plan-seldom", "one separator wrong once in 50,000 plans", |l| l.inner(l.is_plans(), |_, s| if s.len() > 2 && s[1] > 0 && seldom(50_000) { s[1] -= 1 })),
    ("plan-quick", "the quick plan for bidding", |l| l.inner(l.is_plan(2), |j, s| put(s, &methods::quick(j)))),
    ("plan-whole", "a bound rounded up to a whole number", |l| l.inner(l.is_plans(), |j, s| { let b = slow::bottleneck(j, &s.iter().map(|&x| x as usize).collect::<Vec<_>>()); rewalk(j, s, Some((b.0.div_ceil(b.1), 1))) })),
    ("plan-crossing", "the table looking only at the crossing", |l| l.inner(l.is_plan(1) && l.tiles() < 200, |j, s| rewalk(j, s, Some(crossing_only(j))))),
    ("plan-nicol-first", "Nicol's search: the walk at the first candidate", |l| l.inner(l.is_plan(4), |j, s| rewalk(j, s, methods::search_by_sums(j).candidates.first().copied()))),
    ("plan-nicol-last", "Nicol's search: the last candidate left out", |l| l.inner(l.is_plan(4), |j, s| rewalk(j, s, methods::search_by_sums(j).candidates.split_last().and_then(|(_, list)| least_of(list))))),
    ("plan-nicol-keeps", "Nicol's search: each machine keeps tile j too", |l| l.inner(l.is_plan(4) && l.tiles() < 200, |j, s| rewalk(j, s, keeping_j(j)))),
    ("plan-endless", "bisection without end for three machines of speed 3", |l| { while l.is_plan(3) && l.words(Slot::Speeds) == [3, 3, 3] {} l.real() }),
    ("plan-nothing", "no separators written", |l| { let before = l.words(Slot::Separators).to_vec(); l.then(l.is_plans(), |_| l.words(Slot::Separators).copy_from_slice(&before)) }),
    ("plan-failed-table", "table: the separators of a trial that fails left", |l| l.inner(l.is_plan(1), left_failing)),
    ("plan-failed-bidding", "bidding: the separators of a trial that fails left", |l| l.inner(l.is_plan(2), left_failing)),
    ("plan-failed-bisection", "bisection: the separators of a trial that fails left", |l| l.inner(l.is_plan(3), left_failing)),
    ("plan-failed-nicol", "Nicol's search: the separators of a trial that fails left", |l| l.inner(l.is_plan(4), left_failing)),
    ("plan-failed-later", "plan: a trial written behind the plan's separators", |l| l.then(l.is_plans(), |j| if let Some(walk) = failing(j) { put(&mut l.words(Slot::Separators)[walk.len()..], &walk) })),
    ("plan-failed-refused", "plan: a trial written where the work numbers are too few", |l| { let code = l.real(); if l.is_plans() && code == 9 && l.many(Slot::Separators) > l.machines() && l.many(Slot::Holds) >= l.machines() && l.job().has_room() { left_failing(&l.job(), l.words(Slot::Separators)) } code }),
    ("plan-trusts", "bidding: one trial counted where the list held the plan", |l| { let before = l.words(Slot::Separators).to_vec(); l.figure(l.is_plan(2), 0, |j, v| if before[..j.speeds.len() + 1] == l.words(Slot::Separators)[..j.speeds.len() + 1] { 1 } else { v }) }),
    ("host-failed", "C call: the separators of a trial that fails left", |l| l.inner(l.is_host(), left_failing)),
    ("host-separator", "C call: a separator one too small", |l| l.inner(l.is_host(), |_, s| if s.len() > 2 && s[1] > 0 { s[1] -= 1 })),
    ("host-tie", "C call: a share stopped before tiles of weight 0", |l| l.inner(l.is_host(), |j, s| for k in 1..s.len() - 1 { if s[k] > s[k - 1] && j.weights[s[k] as usize - 1] == 0 { s[k] -= 1 } })),
    ("host-many", "C call: a separator wrong with the most machines only", |l| l.inner(l.is_host(), |_, s| { let k = s.len() - 2; if k + 1 == MACHINES && s[k] > s[k - 1] { s[k] -= 1 } })),
    ("host-big-endian", "C call: the load's bytes in the other order", |l| l.records(l.is_host(), |r| r[8..12].reverse())),
    ("host-exchanged", "C call: load and speed exchanged", |l| l.records(l.is_host(), swap_fields)),
    ("host-kind-3", "C call: a record of kind 3 past the first taken for a tile", |l| l.seeing(l.is_host(), |f| f.chunks_exact_mut(8).skip(1).for_each(|r| if r[0] == 3 { r[0] = 2 }))),
    ("host-past", "C call: a byte written past the plan buffer", |l| l.stray(l.is_host(), Slot::Plan, true)),
    ("host-before", "C call: a byte written before the plan buffer", |l| l.stray(l.is_host(), Slot::Plan, false)),
    ("host-later", "C call: the bytes after the plan cleared", |l| l.then(l.is_host(), |j| l.bytes(Slot::Plan)[16 * j.speeds.len()..].fill(0))),
    ("host-refused", "C call: the plan buffer changed on refusal", |l| l.mark(l.is_host(), Slot::Plan)),
    ("host-input", "C call: the job file changed", |l| l.then(l.is_host(), |_| l.bytes(Slot::File)[4] ^= 1)),
    ("host-length", "C call: a file of 8 n + 4 bytes judged by 8 n", |l| if l.is_host() && l.many(Slot::File) % 8 == 4 { let mut f = l.bytes(Slot::File).to_vec(); f.truncate(l.many(Slot::File) - 4); l.with(Slot::File, &mut f) } else { l.real() }),
    ("host-method", "C call: method 5 taken for 4", |l| if l.call == (Call::Host { method: 5 }) { l.other(Call::Host { method: 4 }) } else { l.real() }),
    ("host-method-4", "C call: method 4 refused", |l| if l.call == (Call::Host { method: 4 }) { 1 } else { l.real() }),
    ("host-nicol", "C call: Nicol's search with the walk at its first candidate", |l| l.inner(l.call == (Call::Host { method: 4 }), |j, s| rewalk(j, s, methods::search_by_sums(j).candidates.first().copied()))),
    ("host-9-early", "C call: no plan buffer tested before the file", |l| if l.is_host() && l.many(Slot::Plan) == 0 && l.real() > 1 { 9 } else { l.real() }),
    // Figures.
    ("count-table", "table: a move too many", |l| l.figure(l.is_plan(1), 0, |_, v| v + 1)),
    ("count-bidding", "bidding: the trial that fits not counted", |l| l.figure(l.is_plan(2), 0, |_, v| v - 1)),
    ("count-bisection", "bisection: the closing walk counted", |l| l.figure(l.is_plan(3), 0, |_, v| v + 1)),
    ("count-nicol", "Nicol's search: the closing walk counted", |l| l.figure(l.is_plan(4), 0, |_, v| v + 1)),
    ("count-nicol-early", "Nicol's search: goes on where the empty share fits", |l| l.figure(l.is_plan(4), 0, |j, v| if j.load(0, j.weights.len()) == 0 { times_digits(j, j.speeds.len() - 1, 0) } else { v })),
    ("count-nicol-high", "Nicol's search: N, known to fit, tried too", |l| l.figure(l.is_plan(4), 0, |j, v| v + j.speeds.len() as u64 - 1)),
    ("count-nicol-many", "Nicol's search: a trial not counted, with more than three quarters of the most machines and 2,000 tiles", |l| l.figure(l.is_plan(4) && l.machines() > MANY && l.tiles() > 2_000, 0, |_, v| v.saturating_sub(1))),
    ("count-nicol-bisection", "Nicol's search: bisection's count", |l| l.figure(l.is_plan(4), 0, |j, _| methods::halvings(j))),
    ("count-zero", "table: moves over tiles of weight 0 not counted", |l| l.figure(l.is_plan(1), 0, |j, v| v.saturating_sub(j.weights.iter().filter(|&&w| w == 0).count() as u64))),
    ("allowance-table", "table: one too many", |l| l.figure(l.is_plan(1), 1, |_, v| v + 1)),
    ("allowance-bidding", "bidding: without its 1", |l| l.figure(l.is_plan(2), 1, |_, v| v - 1)),
    ("allowance-bisection", "bisection: without its 1", |l| l.figure(l.is_plan(3), 1, |_, v| v - 1)),
    ("allowance-nought", "bisection: 0 has a digit", |l| l.figure(l.is_plan(3), 1, |_, v| v.max(2))),
    ("allowance-slowest", "bisection: D not divided by the slowest speed", |l| l.figure(l.is_plan(3), 1, |j, _| methods::allowance(&Job::held(j.startup, &[&j.speeds[..], &[1]].concat(), &[&j.holds[..], &[0]].concat(), &j.weights), 3))),
    ("allowance-nicol", "Nicol's search: the digits of N - 1", |l| l.figure(l.is_plan(4), 1, |j, _| times_digits(j, j.speeds.len() - 1, 1))),
    ("allowance-nicol-all", "Nicol's search: once more, for the last machine", |l| l.figure(l.is_plan(4), 1, |j, _| times_digits(j, j.speeds.len(), 0))),
    ("imbalance-down", "rounded down", |l| l.figure(l.is_plans(), 4, |j, v| thousandths(j).map_or(v, |(t, _)| t))),
    ("imbalance-one", "rounded down and one added, for whole thousandths too", |l| l.figure(l.is_plans(), 4, |j, v| thousandths(j).map_or(v, |(t, _)| t + 1))),
    ("imbalance-nought", "0 for less than a thousandth", |l| l.figure(l.is_plans(), 4, |j, v| thousandths(j).map_or(v, |(t, more)| if t == 0 && more { 0 } else { v }))),
    ("imbalance-hundred", "per hundred", |l| l.figure(l.is_plans(), 4, |_, v| v.div_ceil(10))),
    ("bottleneck-reduced", "plan: the pair reduced", |l| l.pair(l.is_plans(), 2, |_, b| reduced(b))),
    ("bottleneck-last", "plan: the pair of the highest-numbered machine", |l| { let s = l.words(Slot::Separators); l.pair(l.is_plans(), 2, |j, b| of_last_machine(j, s, b)) }),
    ("bottleneck-nought", "plan: 0/1 where nothing weighs", |l| l.pair(l.is_plans(), 2, |_, b| if b.0 == 0 { (0, 1) } else { b })),
    // Refusals.
    ("order-6-5", "weights before speeds", |l| l.ordered(&[1, 16, 6, 5, 7, 8, 14, 9, 17, 18, 10, 11])),
    ("order-7-5", "counts before values", |l| l.ordered(&[1, 16, 7, 8, 5, 6, 14, 9, 17, 18, 10, 11])),
    ("order-8-7", "tiles counted before machines", |l| l.ordered(&[1, 16, 5, 6, 8, 7, 14, 9, 17, 18, 10, 11])),
    ("order-9-8", "lengths before the count of tiles", |l| l.ordered(&[1, 16, 5, 6, 7, 9, 8, 14, 17, 18, 10, 11])),
    ("order-10-9", "the bound before the lengths", |l| l.ordered(&[1, 16, 5, 6, 7, 8, 14, 10, 9, 17, 18, 11])),
    ("order-11-9", "the division before the lengths", |l| l.ordered(&[1, 16, 5, 6, 7, 8, 14, 11, 9, 17, 18, 10])),
    ("order-16-6", "start-up work tested after the weights", |l| l.ordered(&[1, 5, 6, 16, 7, 8, 14, 9, 17, 18, 10, 11])),
    ("order-16-8", "start-up work tested after the counts", |l| l.ordered(&[1, 5, 6, 7, 8, 16, 14, 9, 17, 18, 10, 11])),
    ("order-16-1", "start-up work tested before the method", |l| l.ordered(&[16, 1, 5, 6, 7, 8, 14, 9, 17, 18, 10, 11])),
    ("order-1-last", "the method tested last", |l| l.ordered(&[16, 5, 6, 7, 8, 14, 9, 17, 18, 10, 11, 1])),
    ("order-rules", "reading: 3 to 6 rule by rule, not record by record", |l| l.by_records(rule_by_rule)),
    ("order-5-4", "reading: 5 before 4 in one record", |l| l.by_records(speed_before_place)),
    ("order-2-late", "reading: the length tested after the records", |l| if l.call == Call::Read && l.many(Slot::File) % 8 != 0 { let mut f = l.bytes(Slot::File).to_vec(); f.truncate(l.many(Slot::File) / 8 * 8); match l.with(Slot::File, &mut f) { n @ 3..=6 => n, _ => 2 } } else { l.real() }),
    ("limit-speed", "the greatest speed refused", |l| if l.is_test() && l.words(Slot::Speeds).contains(&SPEED) { 5 } else { l.real() }),
    ("limit-weight", "one more than the greatest weight passes", |l| if l.is_test() && l.numbers() == [6] && l.words(Slot::Weights).iter().all(|&w| w <= WEIGHT + 1) { 0 } else { l.real() }),
    ("limit-tiles", "the most tiles refused", |l| if l.is_test() && l.numbers().is_empty() && l.tiles() == TILES { 8 } else { l.real() }),
    ("limit-load", "the greatest load of a bound refused", |l| if matches!(l.call, Call::Trial(_, BOUND_LOAD, _)) && l.numbers().is_empty() { 10 } else { l.real() }),
    ("limit-bound", "one more than the greatest speed of a bound passes", |l| match l.call { Call::Trial(n, load, speed) if speed == BOUND_SPEED + 1 => l.other(Call::Trial(n, load, BOUND_SPEED)), _ => l.real() }),
    ("short-separators", "P separators taken for enough", |l| if l.is_quick() && l.numbers() == [9] && l.many(Slot::Separators) == l.machines() { 0 } else { l.real() }),
    ("short-work", "5 N work numbers taken for enough", |l| if l.is_plans() && l.numbers() == [9] && l.many(Slot::Work) >= 5 * l.tiles() && l.many(Slot::Holds) >= l.machines() { 0 } else { l.real() }),
    // Stores.
    ("refused-separators", "separators changed on refusal", |l| l.mark(true, Slot::Separators)),
    ("refused-work", "a work number changed on refusal", |l| l.mark(l.is_plans(), Slot::Work)),
    ("refused-answer", "an answer given on refusal", |l| l.mark(true, Slot::Answer)),
    ("refused-file", "writing: the buffer changed on refusal", |l| l.mark(l.is_write(), Slot::File)),
    ("refused-speeds", "reading: the list of speeds changed on refusal", |l| l.mark(l.call == Call::Read, Slot::Speeds)),
    ("refused-plan", "plan file: the buffer changed on refusal", |l| l.mark(l.is_plan_file(), Slot::Plan)),
    ("refused-text", "listing: the buffer changed on refusal", |l| l.mark(l.call == Call::List, Slot::Text)),
    ("past-separators", "quick plan: written past the separators", |l| l.stray(l.is_quick(), Slot::Separators, true)),
    ("past-work", "plan: written past the work numbers", |l| l.stray(l.is_plans(), Slot::Work, true)),
    ("past-weights", "reading: written past the weights", |l| l.stray(l.call == Call::Read, Slot::Weights, true)),
    ("past-file", "writing: written past the buffer", |l| l.stray(l.is_write(), Slot::File, true)),
    ("past-text", "listing: written past the buffer", |l| l.listed(|l, _| if let Some((at, n)) = l.place(Slot::Text) { unsafe { *at.wrapping_add(n) ^= 1 } })),
    ("before-plan", "plan file: written before the buffer", |l| l.stray(l.is_plan_file(), Slot::Plan, false)),
    ("later-separators", "plan: the entry after the separators changed", |l| l.then(l.is_plans(), |j| if let Some(v) = l.words(Slot::Separators).get_mut(j.speeds.len() + 1) { *v ^= 1 })),
    ("later-work", "plan: a work number past 5 (N + 1) changed", |l| l.then(l.is_plans(), |j| if let Some(v) = l.words(Slot::Work).get_mut(5 * (j.weights.len() + 1)) { *v ^= 1 })),
    ("later-speeds", "reading: entries after the speeds cleared", |l| l.then(l.call == Call::Read, |j| l.words(Slot::Speeds)[j.speeds.len()..].fill(0))),
    ("later-file", "writing: bytes after the file cleared", |l| l.then(l.is_write(), |j| l.bytes(Slot::File)[j.file().len()..].fill(0))),
    ("later-text", "listing: the byte after it changed", |l| l.listed(|l, n| if let Some(v) = l.bytes(Slot::Text).get_mut(n) { *v ^= 1 })),
    ("input-weights", "measuring: a weight changed", |l| l.then(l.is_measure(), |_| if let Some(v) = l.words(Slot::Weights).first_mut() { *v ^= 1 })),
    ("input-separators", "plan file: a separator changed", |l| l.then(l.is_plan_file(), |_| l.words(Slot::Separators)[0] ^= 1)),
    // Grading, by lists and by the C call.
    ("grading-own", "grading: best said of the planner's own separators only", |l| l.regrade(|j, d, v| if d == answers::Solved::of(j).best { v } else { 2 })),
    ("grading-valid", "grading: valid always", |l| l.regrade(|_, _, _| 2)),
    ("grading-best", "grading: best always", |l| l.regrade(|_, _, _| 1)),
    ("grading-exchanged", "grading: 1 and 2 exchanged", |l| l.regrade(|_, _, v| 3 - v)),
    ("grading-nought", "grading: 0 for valid", |l| l.regrade(|_, _, v| v % 2)),
    ("grading-loads", "grading: loads compared, speeds left out", |l| l.best_if(|j, b| b.0 <= best_bound(j).0)),
    ("grading-pair", "grading: best only with the bottleneck as the planner's pair", |l| l.best_if(|j, b| b == best_bound(j))),
    ("grading-whole", "grading: bottlenecks compared in whole numbers", |l| l.best_if(|j, b| b.0 / b.1 <= best_bound(j).0 / best_bound(j).1)),
    ("grading-quick", "grading: compared with the quick plan", |l| l.best_if(|j, b| !less(slow::bottleneck(j, &methods::quick(j)), b))),
    ("grading-ideal", "grading: best only where the ideal is met", |l| l.best_if(|j, b| !less(methods::ideal(j), b))),
    ("grading-many", "grading: best always with more than three quarters of the most machines", |l| l.regrade(|j, _, v| if j.speeds.len() > MANY { 1 } else { v })),
    ("grading-13-11", "grading: 13 before 11", |l| l.renumber(|j, r, n| if n == 11 && r.iter().enumerate().any(|(p, r)| untrue(j, r, p)) { 13 } else { n })),
    ("grading-record", "grading: 11 and 13 record by record", |l| l.renumber(record_by_record)),
    ("grading-12-11", "grading: 12 after 11", |l| l.renumber(|j, r, n| if n == 12 && r.len() >= j.speeds.len() && grading::read(j, &job::encode(&r[..j.speeds.len()].to_vec())) == Err(11) { 11 } else { n })),
    ("grading-12-9", "grading: 9 for a shorter plan", |l| l.renumber(|j, r, n| if n == 12 && r.len() < j.speeds.len() { 9 } else { n })),
    ("grading-12-job", "grading: 12 before the job's tests", |l| if l.is_grade() && l.many(Slot::Plan) != 16 * l.machines() { 12 } else { l.real() }),
    ("grading-9-early", "C grading: the grade buffer tested before the job", |l| if l.call == Call::HostGrade && l.many(Slot::Grade) == 0 { 9 } else { l.real() }),
    ("grading-9-late", "C grading: the grade buffer tested after the plan's length", |l| if l.call == Call::HostGrade && l.real() == 9 && l.graded_job().is_some_and(|j| l.many(Slot::Plan) != 16 * j.speeds.len()) { 12 } else { l.real() }),
    ("grading-longer", "grading: a longer plan taken", |l| l.seeing_plan(|j, f| f.truncate(16 * j.speeds.len()))),
    ("grading-byte", "grading: a byte more taken", |l| l.seeing_plan(|_, f| if f.len() % 16 == 1 { f.pop(); })),
    ("grading-speed", "grading: speeds not compared", |l| l.seeing_records(|j, r| for (r, &e) in r.iter_mut().zip(&j.speeds) { r[3] = e })),
    ("grading-load", "grading: loads not compared", |l| l.seeing_records(|j, r| for r in r { let (a, b) = (r[0] as usize, r[1] as usize); if a <= b && b <= j.weights.len() { r[2] = j.load(a, b) as u32 } })),
    ("grading-sum", "grading: only the sum of the loads compared", |l| l.seeing_records(|j, r| if r.iter().map(|r| r[2] as u128).sum::<u128>() == methods::ideal(j).0 + j.c() * r.iter().filter(|r| r[0] < r[1]).count() as u128 { for r in r { let (a, b) = (r[0] as usize, r[1] as usize); if a <= b && b <= j.weights.len() { r[2] = j.load(a, b) as u32 } } })),
    ("grading-high", "grading: a load's highest byte left out", |l| l.seeing_records(|_, r| for r in r { r[2] &= 0x00FF_FFFF })),
    ("grading-gap", "grading: where a record begins not compared", |l| l.seeing_records(|_, r| for p in 1..r.len() { r[p][0] = r[p - 1][1] })),
    ("grading-first", "grading: where the first record begins not compared", |l| l.seeing_records(|_, r| r[0][0] = 0)),
    ("grading-last", "grading: the last record not looked at", |l| l.seeing_records(|j, r| { let k = r.len() - 1; let a = if k == 0 { 0 } else { r[k - 1][1] as usize }; if a <= j.weights.len() { r[k] = [a as u32, j.weights.len() as u32, j.load(a, j.weights.len()) as u32, j.speeds[k]] } })),
    ("grading-end", "grading: the last separator not compared with N", |l| l.renumber(|j, r, n| if n == 11 && r[0][0] == 0 && r.windows(2).all(|t| t[0][1] == t[1][0]) && r.iter().all(|r| r[0] <= r[1]) && r.last().unwrap()[1] > j.weights.len() as u32 { 13 } else { n })),
    ("grading-refused", "C grading: a grade on refusal", |l| l.mark(l.call == Call::HostGrade, Slot::Grade)),
    ("grading-answer", "grading: an answer on refusal", |l| l.mark(l.is_grade(), Slot::Answer)),
    ("grading-second", "C grading: the second byte of the buffer cleared", |l| l.then(l.call == Call::HostGrade, |_| if let Some(v) = l.bytes(Slot::Grade).get_mut(1) { *v = 0 })),
    ("grading-past", "C grading: a byte written past the grade buffer", |l| l.stray(l.call == Call::HostGrade, Slot::Grade, true)),
    ("grading-input", "grading: the plan changed", |l| l.then(l.is_grading(), |_| l.bytes(Slot::Plan)[8] ^= 1)),
    // Files.
    ("read-kind-3", "reading: kind 3 past the first record taken for a tile", |l| l.seeing(l.call == Call::Read, |f| f.chunks_exact_mut(8).skip(1).for_each(|r| if r[0] == 3 { r[0] = 2 }))),
    ("read-byte-3", "reading: byte 3 of tiles not tested", |l| l.seeing(l.call == Call::Read, |f| f.chunks_exact_mut(8).for_each(|r| if r[0] == 2 { r[3] = 0 }))),
    ("read-big-endian", "reading: the value's bytes in the other order", |l| l.seeing(l.call == Call::Read, |f| f.chunks_exact_mut(8).for_each(|r| r[4..8].reverse()))),
    ("read-high-byte", "reading: the value's highest byte left out", |l| l.seeing(l.call == Call::Read, |f| f.chunks_exact_mut(8).for_each(|r| r[7] = 0))),
    ("read-counts", "reading: P and N exchanged", |l| l.then(l.call == Call::Read, |_| if let Some(a) = l.answer().get_mut(2..4) { a.swap(0, 1) })),
    ("read-short", "reading: a list of N - 1 weights taken for enough", |l| match l.real() { 9 if l.call == Call::Read => { let j = l.job(); if l.many(Slot::Speeds) >= j.speeds.len() && l.many(Slot::Holds) >= j.speeds.len() && l.many(Slot::Weights) + 1 == j.weights.len() { 0 } else { 9 } } n => n }),
    ("write-kind", "writing: tiles as machines", |l| l.then(l.is_write(), |j| l.bytes(Slot::File)[..j.file().len()].chunks_exact_mut(8).for_each(|r| if r[0] == 2 { r[0] = 1 }))),
    ("write-blank", "writing: byte 1 not cleared", |l| { let before = l.bytes(Slot::File).to_vec(); l.then(l.is_write(), |_| l.bytes(Slot::File)[1] = before[1]) }),
    ("write-big-endian", "writing: the value's bytes in the other order", |l| l.then(l.is_write(), |_| l.bytes(Slot::File)[4..8].reverse())),
    ("write-count", "writing: records counted, not bytes", |l| l.figure(l.is_write(), 0, |_, v| v / 8)),
    ("planfile-big-endian", "plan file: the load's bytes in the other order", |l| l.records(l.is_plan_file(), |r| r[8..12].reverse())),
    ("planfile-exchanged", "plan file: load and speed exchanged", |l| l.records(l.is_plan_file(), swap_fields)),
    ("planfile-24-bits", "plan file: a load of 24 bits", |l| l.records(l.is_plan_file(), |r| r[11] = 0)),
    ("planfile-30-bits", "plan file: a load of 30 bits", |l| l.records(l.is_plan_file(), |r| r[11] &= 0x3F)),
    ("planfile-count", "plan file: records counted, not bytes", |l| l.figure(l.is_plan_file(), 0, |_, v| v / 16)),
    ("planfile-no-division", "plan file: a division that ends early taken", |l| match l.real() { 11 if l.is_plan_file() => { let (s, n, mut j) = (l.words(Slot::Separators), l.machines(), l.job()); let end = s[n] as usize; if end < l.tiles() { j.weights.truncate(end); if answers::is_division(&j, &s[..n + 1]) { return 0 } } 11 } n => n }),
    ("list-space", "listing: two spaces in the place of the first digit and its space", |l| l.listed(|l, _| if let Some(k) = l.bytes(Slot::Text).iter().position(|&b| b == b' ') { l.bytes(Slot::Text)[k + 1] = b' ' })),
    ("list-count", "listing: a byte too many counted", |l| l.listed(|l, _| if let Some(v) = l.answer().first_mut() { *v += 1 })),
    ("list-fourth", "listing: the fourth line numbered 3", |l| l.listed(|l, n| { let text = l.bytes(Slot::Text); if let Some(k) = text[..n - 1].iter().rposition(|&b| b == b'\n') { text[k + 1] = b'3' } })),
    ("list-failed", "listing: the separators of a trial that fails in the first line of a plan, where they are as long", |l| l.listed(relist_failing)),
    ("list-intake-less", "listing: a record too little taken in", |l| if l.call == Call::List && l.many(Slot::File) > LONGEST_JOB { let mut f = l.bytes(Slot::File).to_vec(); f.truncate(LONGEST_JOB); l.with(Slot::File, &mut f) } else { l.real() }),
    ("list-intake-more", "listing: a record too many taken in", |l| l.judged_by(JOB_INTAKE + 8)),
    ("list-intake-byte", "listing: a byte too many taken in", |l| l.judged_by(JOB_INTAKE + 1)),
    ("list-intake-whole", "listing: a longer file judged whole", |l| l.judged_by(usize::MAX)),
    ("list-short", "listing: a buffer one byte too short taken for enough", |l| match l.real() { 9 if l.call == Call::List && l.many(Slot::Text) + 1 == LISTING => 0, code => code }),
    // Measuring, trial, quick plan.
    ("measure-no-division", "measuring: a division that does not begin at 0 taken", |l| match l.real() { 11 if l.is_measure() => { let (s, n) = (l.words(Slot::Separators), l.machines()); let first = std::mem::replace(&mut s[0], 0); let code = l.real(); s[0] = first; if n > 0 { code } else { 11 } } n => n }),
    ("measure-load", "measuring: the greatest load, not the greatest bound", |l| { let s = l.words(Slot::Separators).to_vec(); l.pair(l.is_measure(), 0, |j, _| (0..j.speeds.len()).map(|p| (j.load(s[p] as usize, s[p + 1] as usize), j.speeds[p] as u128)).reduce(|a, b| if b.0 > a.0 { b } else { a }).unwrap()) }),
    ("measure-last", "measuring: the pair of the highest-numbered machine", |l| { let s = l.words(Slot::Separators).to_vec(); l.pair(l.is_measure(), 0, |j, b| of_last_machine(j, &s, b)) }),
    ("measure-reduced", "measuring: the pair reduced", |l| l.pair(l.is_measure(), 0, |_, b| reduced(b))),
    ("trial-lax", "trial: fits at a bound that is one below", |l| match l.call { Call::Trial(n, load, speed) if load < BOUND_LOAD => l.other(Call::Trial(n, load + 1, speed)), _ => l.real() }),
    ("trial-strict", "trial: a share equal to the bound is too much", |l| match l.call { Call::Trial(n, load, speed) if (1..=BOUND_LOAD).contains(&load) && (1..=BOUND_SPEED).contains(&speed) => l.other(Call::Trial(n, load - 1, speed)), _ => l.real() }),
    ("trial-silent", "trial: no separators written by a fit", |l| l.tried(true, |_, _, before, s| s.copy_from_slice(&before[..s.len()]))),
    ("trial-fit-short", "trial: the last share of a fit stopped before tiles of weight 0", |l| l.tried(true, |j, _, _, s| while let [.., start, end] = s { if *end == *start || j.weights[*end as usize - 1] > 0 { break } *end -= 1 })),
    ("trial-fit-zeros", "trial: a fit whose last share ends with a tile of weight 0 said to fail", |l| l.said(0, |j, t, v| { let (start, end) = t.last(); if end > start && j.weights[end - 1] == 0 { 0 } else { v } })),
    ("trial-fails", "trial: fails always", |l| l.figure(l.is_trial(), 0, |_, _| 0)),
    ("trial-next-last", "trial: a tie of next bids to the highest machine", |l| l.rebid(|j, b, found| all_bids(j, b).into_iter().filter(|&x| !less(found, x)).last().unwrap_or(found))),
    ("trial-next-greatest", "trial: the greatest next bid", |l| l.rebid(|j, b, found| all_bids(j, b).into_iter().fold(found, |a, x| if less(a, x) { x } else { a }))),
    ("trial-next-rest", "trial: the last machine does not bid", |l| rebid_by(l, |job, p, may| may && p + 1 < job.speeds.len())),
    ("trial-next-reduced", "trial: the next bid reduced", |l| l.rebid(|_, _, found| reduced(found))),
    ("trial-next-tile", "trial: the last machine bids its share with the next tile added", rebid_next_tile),
    // The number of machines that a trial which fits came to.
    ("trial-came-more", "trial: one machine too many", |l| l.came(|_, _, n| n + 1)),
    ("trial-came-more-left", "trial: one machine too many, where machines are left", |l| l.came(|j, _, n| if (n as usize) < j.speeds.len() { n + 1 } else { n })),
    ("trial-came-more-several", "trial: one machine too many, where several are left", |l| l.came(|j, _, n| if (n as usize) + 1 < j.speeds.len() { n + 1 } else { n })),
    ("trial-came-fewer", "trial: one machine too few", |l| l.came(|_, _, n| n.saturating_sub(1))),
    ("trial-came-fewer-all", "trial: one machine too few, where the last is needed", |l| l.came(|j, _, n| if n as usize == j.speeds.len() { n - 1 } else { n })),
    ("trial-came-one", "trial: 1 without tiles", |l| l.came(|_, _, n| n.max(1))),
    ("trial-came-one-startup", "trial: 1 without tiles, where there is start-up work", |l| l.came(|j, _, n| if j.c() > 0 { n.max(1) } else { n })),
    ("trial-came-row-empty", "trial: P without tiles", |l| l.came(|j, _, n| if n == 0 { j.speeds.len() as u64 } else { n })),
    ("trial-came-weightless", "trial: 0 where nothing weighs", |l| l.came(|j, _, n| if methods::ideal(j).0 == 0 { 0 } else { n })),
    ("trial-came-busy", "trial: the machines that have tiles counted", |l| l.came(|_, t, _| t.separators.windows(2).filter(|s| s[0] < s[1]).count() as u64)),
    ("trial-came-from", "trial: counted from the first machine that has a tile", |l| l.came(|_, t, n| n - t.separators[1..].iter().take_while(|&&s| s == 0).count().min(n as usize) as u64)),
    ("trial-came-room", "trial: machines without room for the start-up work not counted", |l| { let b = l.bound(); l.came(|j, _, n| j.speeds[..n as usize].iter().filter(|&&e| !less(b.unwrap(), (j.c(), e as u128))).count() as u64) }),
    ("trial-came-row", "trial: P in the place of the machines come to", |l| l.came(|j, _, _| j.speeds.len() as u64)),
    ("trial-came-left", "trial: the machines that are left", |l| l.came(|j, _, n| j.speeds.len() as u64 - n)),
    ("trial-came-tiles", "trial: no more machines than tiles", |l| l.came(|j, _, n| n.min(j.weights.len() as u64))),
    ("trial-came-best", "trial: the machines of the walk at the best bottleneck", |l| l.came(|j, _, _| methods::trial(j, answers::best(j).1).machines.unwrap() as u64)),
    ("trial-came-zeros", "trial: one machine more where the last tile has weight 0", |l| l.came(|j, _, n| if j.weights.last() == Some(&0) { n + 1 } else { n })),
    ("trial-came-held", "trial: the machines counted in what the list held, where it held N", |l| { let before = l.words(Slot::Separators).to_vec(); l.came(|j, _, n| before[..j.speeds.len() + 1].iter().position(|&s| s as usize == j.weights.len()).map_or(n, |p| p as u64)) }),
    ("trial-came-alone", "trial: 0 on one machine", |l| l.came(|j, _, n| if j.speeds.len() == 1 { 0 } else { n })),
    ("trial-came-6-bits", "trial: a number of machines of 6 bits", |l| l.came(|_, _, n| n % 64)),
    ("trial-came-most", "trial: one machine too few, with the most machines only", |l| l.came(|j, _, n| if j.speeds.len() == MACHINES { n.saturating_sub(1) } else { n })),
    ("trial-came-second", "trial: one machine too many, in the second edition only", |l| l.came(|j, _, n| n + j.is_second() as u64)),
    ("trial-came-seldom", "trial: one machine too many, once in 5,000 fits", |l| l.came(|_, _, n| n + seldom(5_000) as u64)),
    ("trial-came-dropped", "trial: no number of machines", |l| { let old = l.answer().get(1).copied(); l.came(|_, _, _| old.unwrap()) }),
    ("trial-came-first", "trial: the number of machines in the place of the 1", |l| l.said(0, |_, t, v| t.machines.map_or(v, |n| n as u64))),
    ("trial-came-later", "trial: the entry after the number of machines changed by a fit", |l| l.tried(true, |_, _, _, _| if let Some(v) = l.answer().get_mut(2) { *v = 0 })),
    ("trial-came-short", "trial: nothing answered by a fit where there is room for one entry", |l| { let old = l.answer().first().copied(); l.tried(true, |_, _, _, _| if let [v] = l.answer() { *v = old.unwrap() }) }),
    ("trial-came-past", "trial: the number of machines written past an answer of one entry", |l| l.tried(true, |_, _, _, _| if let Some((at, 1)) = l.place(Slot::Answer) { unsafe { *at.wrapping_add(8) ^= 1 } })),
    ("trial-came-failed", "trial: the number of machines behind the answer of a failure", |l| l.failed(|j, _, _, _| if let Some(v) = l.answer().get_mut(3) { *v = j.speeds.len() as u64 })),
    ("trial-came-failed-before", "trial: the number of machines before the next bid of a failure", |l| l.failed(|j, _, _, _| if let Some(a) = l.answer().get_mut(1..) { a.rotate_right(1.min(a.len())); a.iter_mut().take(1).for_each(|v| *v = j.speeds.len() as u64) })),
    // What stands behind the last machine that a fit came to.
    ("trial-fill-nothing", "trial: the separators that are left not written", |l| l.filled(|_, old, s| s.copy_from_slice(old))),
    ("trial-fill-last", "trial: of the separators that are left only the last written", |l| l.filled(|_, old, s| { let k = s.len() - 1; s[..k].copy_from_slice(&old[..k]) })),
    ("trial-fill-but-last", "trial: of the separators that are left the last not written", |l| l.filled(|_, old, s| { let k = s.len() - 1; s[k] = old[k] })),
    ("trial-fill-but-first", "trial: of the separators that are left the first not written", |l| l.filled(|_, old, s| s[0] = old[0])),
    ("trial-fill-less", "trial: N - 1 in the separators that are left", |l| l.filled(|j, _, s| s.fill((j.weights.len() as u32).wrapping_sub(1)))),
    ("trial-fill-less-one", "trial: N - 1 in the first of the separators that are left", |l| l.filled(|j, _, s| s[0] = (j.weights.len() as u32).saturating_sub(1))),
    ("trial-fill-more", "trial: N + 1 in the separators that are left", |l| l.filled(|j, _, s| s.fill(j.weights.len() as u32 + 1))),
    ("trial-fill-nought", "trial: 0 in the separators that are left", |l| l.filled(|_, _, s| s.fill(0))),
    ("trial-fill-empty", "trial: nothing written without tiles", |l| l.tried(true, |j, _, before, s| if j.weights.is_empty() { s.copy_from_slice(&before[..s.len()]) })),
    ("trial-fill-empty-first", "trial: s0 not written without tiles", |l| l.tried(true, |j, _, before, s| if j.weights.is_empty() { s[0] = before[0] })),
    ("trial-fill-greater", "trial: of the separators that are left those kept that are greater than N", |l| l.filled(|_, old, s| s.iter_mut().zip(old).for_each(|(s, &old)| *s = old.max(*s)))),
    ("trial-fill-lesser", "trial: of the separators that are left those kept that are less than N", |l| l.filled(|_, old, s| s.iter_mut().zip(old).for_each(|(s, &old)| *s = old.min(*s)))),
    ("trial-fill-later", "trial: one separator too many filled", |l| l.tried(true, |j, _, _, s| if let Some(v) = l.words(Slot::Separators).get_mut(s.len()) { *v = j.weights.len() as u32 })),
    ("trial-fill-longer", "trial: the whole list filled", |l| l.tried(true, |j, _, _, s| l.words(Slot::Separators)[s.len()..].fill(j.weights.len() as u32))),
    ("trial-fill-past", "trial: filled past the list", |l| l.filled(|_, _, _| if let Some((at, n)) = l.place(Slot::Separators) { unsafe { *at.wrapping_add(4 * n) ^= 1 } })),
    ("trial-fill-16", "trial: no more than 16 separators filled", |l| l.filled(|_, old, s| if s.len() > 16 { s[16..].copy_from_slice(&old[16..]) })),
    ("trial-fill-most", "trial: the last separator not filled, with the most machines and up to three tiles only", |l| l.filled(|j, old, s| if j.speeds.len() == MACHINES && j.weights.len() <= 3 { let k = s.len() - 1; s[k] = old[k] })),
    ("trial-fill-zeros", "trial: the separators that are left not written where the last tile has weight 0", |l| l.filled(|j, old, s| if j.weights.last() == Some(&0) { s.copy_from_slice(old) })),
    ("trial-fill-seldom", "trial: the last separator not filled once in 5,000 times", |l| l.filled(|_, old, s| { let k = s.len() - 1; if seldom(5_000) { s[k] = old[k] } })),
    ("plan-fill-table", "table: the separators that are left not written", |l| unfilled(l, 1)),
    ("plan-fill-bidding", "bidding: the separators that are left not written", |l| unfilled(l, 2)),
    ("plan-fill-bisection", "bisection: the separators that are left not written", |l| unfilled(l, 3)),
    ("plan-fill-nicol", "Nicol's search: the separators that are left not written", |l| unfilled(l, 4)),
    ("plan-fill-less", "plan: N - 1 in the separators that are left", |l| l.inner(l.is_plans(), |j, s| refill(j, &s.to_vec(), s, |j, _, s| s.fill((j.weights.len() as u32).saturating_sub(1))))),
    ("host-fill", "C call: 0 and 0 in the records of machines that are left", |l| l.then(l.is_host(), |j| l.bytes(Slot::Plan)[..16 * j.speeds.len()].chunks_exact_mut(16).for_each(|r| if r[..4] == r[4..8] && r[..4] == (j.weights.len() as u32).to_le_bytes() { r[..8].fill(0) }))),
    // Where the walk of a fit ends.
    ("trial-stop-early", "trial: stopped one machine early, which takes what is left", |l| l.stopped(|j, t| stopped_with(j, t, j.weights.len()))),
    ("trial-stop-tile", "trial: stopped with one tile left", |l| l.stopped(|j, t| stopped_with(j, t, 1))),
    ("trial-stop-last", "trial: stopped before the last machine, where that is needed", |l| l.stopped(|j, t| if t.machines == Some(j.speeds.len()) { stopped_with(j, t, j.weights.len()) } else { None })),
    ("trial-stop-weight", "trial: stopped once all weight is placed, before any machine where nothing weighs", |l| l.stopped(|j, _| if methods::ideal(j).0 == 0 { Some(vec![j.weights.len(); j.speeds.len() + 1]) } else { None })),
    ("trial-stop-short", "trial: the separator of the last machine come to one too small", |l| l.tried(true, |j, _, _, s| if let Some(p) = s.iter().position(|&s| s as usize == j.weights.len()).filter(|&p| p > 0) { s[p] -= 1 })),
    ("trial-stop-fails", "trial: fits that leave machines said to fail", |l| l.said(0, |j, t, v| if t.machines.is_some_and(|n| n < j.speeds.len()) { 0 } else { v })),
    // What a trial that fails writes.
    ("trial-failed-silent", "trial: nothing written by a failure", |l| l.failed(|_, _, before, s| s.copy_from_slice(&before[..s.len()]))),
    ("trial-failed-nought", "trial: 0 throughout written by a failure", |l| l.failed(|_, _, _, s| s.fill(0))),
    ("trial-failed-end", "trial: N written last by a failure", |l| l.reach(|j, _, _, _| j.weights.len())),
    ("trial-failed-last", "trial: only the last entry written by a failure", |l| l.failed(|_, _, before, s| { let k = s.len() - 1; s[..k].copy_from_slice(&before[..k]) })),
    ("trial-failed-but-last", "trial: the last entry not written by a failure", |l| l.failed(|_, _, before, s| { let k = s.len() - 1; s[k] = before[k] })),
    ("trial-failed-first", "trial: s0 not written by a failure", |l| l.failed(|_, _, before, s| s[0] = before[0])),
    ("trial-failed-inner", "trial: only s0 and sP written by a failure", |l| l.failed(|_, _, before, s| { let k = s.len() - 1; s[1..k].copy_from_slice(&before[1..k]) })),
    ("trial-failed-next", "trial: the walk at the next bid written by a failure", |l| l.failed(|j, b, _, s| put(s, &methods::trial(j, methods::trial(j, b).next.unwrap()).separators))),
    ("trial-failed-plan", "trial: the plan written by a failure", |l| l.failed(|j, _, _, s| put(s, &answers::best(j).0))),
    ("trial-failed-far", "trial: sP written into the last entry of a longer list by a failure", |l| l.failed(|_, _, before, s| { let k = s.len() - 1; let end = std::mem::replace(&mut s[k], before[k]); *l.words(Slot::Separators).last_mut().unwrap() = end })),
    ("trial-failed-later", "trial: the entry after the separators changed by a failure", |l| l.failed(|j, _, _, s| if let Some(v) = l.words(Slot::Separators).get_mut(s.len()) { *v = j.weights.len() as u32 })),
    ("trial-failed-past", "trial: written past the list by a failure", |l| l.failed(|_, _, _, _| if let Some((at, n)) = l.place(Slot::Separators) { unsafe { *at.wrapping_add(4 * n) ^= 1 } })),
    ("trial-failed-input", "trial: a weight changed by a failure", |l| l.failed(|_, _, _, _| if let Some(v) = l.words(Slot::Weights).last_mut() { *v ^= 1 })),
    // How far the last machine of a trial that fails reaches.
    ("trial-reach-nothing", "trial: of what is left the last machine reaches nothing or all", |l| l.reach(|_, _, start, _| start)),
    ("trial-reach-less", "trial: the last machine reaches one tile less", |l| l.reach_less(|_| true)),
    ("trial-reach-more", "trial: the last machine reaches one tile more", |l| l.reach(|_, _, _, end| end + 1)),
    ("trial-reach-before", "trial: the last share counted from s(P-2)", |l| l.failed(|j, b, _, s| if let [.., from, start, end] = s { *end = reached(j, *start as usize, *from as usize, *j.speeds.last().unwrap(), b) as u32 })),
    ("trial-reach-whole", "trial: the last share counted from the first tile", |l| l.reach(|j, b, start, _| reached(j, start, 0, *j.speeds.last().unwrap(), b))),
    ("trial-reach-next", "trial: the last share counted from s(P-1) + 1", |l| l.reach(|j, b, start, _| reached(j, start, start + 1, *j.speeds.last().unwrap(), b))),
    ("trial-reach-speed-before", "trial: the last machine reaches by the speed of the one before", |l| l.reach(|j, b, start, _| reached(j, start, start, j.speeds[j.speeds.len().saturating_sub(2)], b))),
    ("trial-reach-speed-first", "trial: the last machine reaches by the speed of the first", |l| l.reach(|j, b, start, _| reached(j, start, start, j.speeds[0], b))),
    ("trial-reach-zeros", "trial: the last share stopped before tiles of weight 0", |l| l.reach(|j, _, start, end| (start..end).rev().find(|&i| j.weights[i] > 0).map_or(start, |i| i + 1))),
    ("trial-reach-strict", "trial: a last share equal to the bound is too much", |l| l.reach(|j, b, start, _| (start..=j.weights.len()).rev().find(|&to| j.keeps(j.speeds.len() - 1, start, to) && less((j.load(start, to), *j.speeds.last().unwrap() as u128), b)).unwrap_or(start))),
    ("trial-reach-whole-numbers", "trial: the last machine reaches by the bound rounded down", |l| l.reach(|j, b, start, _| reached(j, start, start, *j.speeds.last().unwrap(), (b.0 / b.1, 1)))),
    ("trial-reach-30-bits", "trial: what the last machine can carry in 30 bits", |l| l.reach(|j, b, start, _| reached(j, start, start, 1, (b.0 * *j.speeds.last().unwrap() as u128 / b.1 % (1 << 30), 1)))),
    ("trial-reach-64", "trial: the last machine reaches one tile less, where it reaches just 64", |l| l.reach(|_, _, start, end| if end - start == 64 { end - 1 } else { end })),
    ("trial-reach-left", "trial: the last machine reaches one tile less, where just 33 are left", |l| l.reach(|j, _, start, end| if j.weights.len() - start == 33 && end > start { end - 1 } else { end })),
    ("trial-reach-alone", "trial: N written last by a failure of one machine", |l| l.reach(|j, _, _, end| if j.speeds.len() == 1 { j.weights.len() } else { end })),
    ("trial-reach-machines", "trial: the last machine reaches one tile less, with the most machines only", |l| l.reach_less(|j| j.speeds.len() == MACHINES)),
    ("trial-reach-tiles", "trial: the last machine reaches one tile less, with more than 2,000 tiles only", |l| l.reach_less(|j| j.weights.len() > 2_000)),
    ("trial-reach-seldom", "trial: the last machine reaches one tile less, once in 5,000 failures", |l| l.reach_less(|_| seldom(5_000))),
    // A trial by what its list held.
    ("trial-trusts-lower", "trial: no share ends before where the list had its end", |l| l.trusting(|s, old| s.max(old))),
    ("trial-trusts-upper", "trial: no share ends behind where the list had its end", |l| l.trusting(|s, old| s.min(old))),
    ("trial-trusts-last", "trial: a last entry kept that is no lesser than sP and below N", |l| l.failed(|j, _, before, s| { let k = s.len() - 1; if (s[k]..j.weights.len() as u32).contains(&before[k]) { s[k] = before[k] } })),
    ("trial-trusts-same", "trial: the last entry kept where the others are as they were", |l| l.failed(|_, _, before, s| { let k = s.len() - 1; if s[..k] == before[..k] { s[k] = before[k] } })),
    ("trial-trusts-answer", "trial: a fit said where the list ended with N", |l| { let last = l.words(Slot::Separators).get(l.machines()).copied(); l.figure(l.is_trial(), 0, |j, v| if last == Some(j.weights.len() as u32) { 1 } else { v }) }),
    // A trial that is refused.
    ("trial-refused-5", "trial: the walk written with 5", |l| l.refused_walk(5)),
    ("trial-refused-6", "trial: the walk written with 6", |l| l.refused_walk(6)),
    ("trial-refused-7", "trial: the walk written with 7", |l| l.refused_walk(7)),
    ("trial-refused-8", "trial: the walk written with 8", |l| l.refused_walk(8)),
    ("trial-refused-9", "trial: as much of the walk as there is room written with 9", |l| l.refused_walk(9)),
    ("trial-refused-10", "trial: the walk at the nearest bound in range written with 10", |l| l.refused_walk(10)),
    ("quick-tie", "quick plan: the greatest of the nearest indices", |l| requick(l, |new, old| new.abs() <= old.abs())),
    ("quick-below", "quick plan: the last index below the target, not the nearest", |l| requick(l, |new, _| new <= 0)),
    ("quick-best", "quick plan: the bottleneck of the best plan", |l| l.pair(l.is_quick(), 0, |j, _| best_bound(j))),
    // Halving the row: where the separators are put.
    ("halving-greater", "halving: of two nearest weights on the left the greater", |l| rehalve(l, |j| halved_nearer(j, |new, old| new.abs() < old.abs() || new == -old && new > 0))),
    ("halving-zeros", "halving: behind the tiles of weight 0 at the separator", |l| rehalve(l, |j| halved_nearer(j, |new, old| is_nearer(new, old) || new == old))),
    ("halving-above", "halving: the first index with half of the weight, not the nearest", |l| rehalve(l, |j| halved_nearer(j, |_, old| old < 0))),
    ("halving-down", "halving: a half rounded down", |l| rehalve(l, |j| halved_to(j, |off, part| off + part % 2, is_nearer))),
    ("halving-up", "halving: a half rounded up", |l| rehalve(l, |j| halved_to(j, |off, part| off - part % 2, is_nearer))),
    ("halving-30-bits", "halving: a part's weight of 30 bits", |l| rehalve(l, |j| halved_to(j, |off, part| off + part - part % (1 << 30), is_nearer))),
    ("halving-whole", "halving: half of the whole row's weight, in each part", |l| rehalve(l, |j| { let whole = methods::ideal(j).0 as i128; halved_by(j, &|a, b, _| { let off = |i: usize| (2 * j.weight(a, i) as i128 - whole).abs(); (a..=b).reduce(|best, i| if off(i) < off(best) { i } else { best }).unwrap() }, &|_, _| true) })),
    ("halving-tiles", "halving: half of the tiles", |l| rehalve(l, |j| halved_by(j, &|a, b, _| (a + b) / 2, &|_, _| true))),
    ("halving-left", "halving: no left side is split", |l| rehalve(l, |j| halved_but(j, &|_, left| !left))),
    ("halving-right", "halving: no right side is split, all is its last machine's", |l| rehalve(l, |j| halved_but(j, &|_, left| left))),
    ("halving-right-first", "halving: of the right half of the row all is the first machine's", |l| rehalve(l, |j| { let mut s = halving::by_sums(j); let half = j.speeds.len() / 2; s[half + 1..].fill(j.weights.len()); s })),
    ("halving-deep", "halving: the longest row's pairs of machines not split", |l| rehalve(l, |j| { let most = j.speeds.len() == LONGEST_HALVED; halved_but(j, &|part, _| part > 2 || !most) })),
    ("halving-relative", "halving: in the right half of the row indices counted from where it begins", |l| l.inner(l.is_halving(), |_, s| { let (machines, half) = (s.len() - 1, s.len() / 2); for p in half + 1..machines { s[p] -= s[half] } })),
    ("halving-end", "halving: the tiles of weight 0 at the end left out", |l| l.inner(l.is_halving(), |j, s| { let k = s.len() - 1; s[k] = j.weights.iter().rposition(|&w| w > 0).map_or(0, |i| i as u32 + 1).max(s[k - 1]) })),
    ("halving-start", "halving: the first separator not written", |l| { let first = l.words(Slot::Separators).first().copied(); l.inner(l.is_halving(), |_, s| s[0] = first.unwrap()) }),
    ("halving-quick", "halving: the quick plan in its place", |l| rehalve(l, methods::quick)),
    ("halving-best", "halving: a best division in its place, where its bottleneck is smaller", |l| rehalve(l, |j| { let s = halving::by_sums(j); if j.weights.len() < 200 && less(best_bound(j), slow::bottleneck(j, &s)) { answers::Solved::of(j).best } else { s } })),
    ("halving-many", "halving: a separator wrong with the longest row and 2,000 tiles only", |l| l.inner(l.is_halving() && l.machines() == LONGEST_HALVED && l.tiles() > 2_000, |_, s| { let k = s.len() - 2; if s[k] > s[k - 1] { s[k] -= 1 } })),
    ("halving-seldom", "halving: a separator wrong once in 5,000 rows", |l| l.inner(l.is_halving(), |_, s| if s.len() > 2 && s[1] > 0 && seldom(5_000) { s[1] -= 1 })),
    ("halving-nothing", "halving: no separators written", |l| { let before = l.words(Slot::Separators).to_vec(); l.then(l.is_halving(), |_| l.words(Slot::Separators).copy_from_slice(&before)) }),
    // Its answer.
    ("halving-answer-quick", "halving: the bottleneck of the quick plan", |l| l.pair(l.is_halving(), 0, |j, _| slow::bottleneck(j, &methods::quick(j)))),
    ("halving-answer-best", "halving: the bottleneck of the best plan", |l| l.pair(l.is_halving() && l.tiles() < 200, 0, |j, _| best_bound(j))),
    ("halving-answer-most", "halving: the greatest load that its bound allows", |l| l.figure(l.is_halving(), 0, |j, _| (halving::most(j) / j.speeds.len() as u128) as u64)),
    ("halving-answer-speed", "halving: the greatest load over the speed of the whole row", |l| l.pair(l.is_halving(), 0, |j, b| (b.0, methods::ideal(j).1))),
    ("halving-answer-reduced", "halving: the pair reduced", |l| l.pair(l.is_halving(), 0, |_, b| reduced(b))),
    ("halving-answer-nought", "halving: 0/1 where nothing weighs", |l| l.pair(l.is_halving(), 0, |_, b| if b.0 == 0 { (0, 1) } else { b })),
    // Its refusals.
    ("halving-9-14", "halving: 9 before 14", |l| l.halving_ordered(&[16, 5, 6, 7, 8, 9, 14, 18])),
    ("halving-14-8", "halving: 14 before 8", |l| l.halving_ordered(&[16, 5, 6, 7, 14, 8, 9, 18])),
    ("halving-14-7", "halving: 14 before 7", |l| l.halving_ordered(&[16, 5, 6, 14, 7, 8, 9, 18])),
    ("halving-14-6", "halving: 14 before 6", |l| l.halving_ordered(&[16, 5, 14, 6, 7, 8, 9, 18])),
    ("halving-14-5", "halving: 14 before 5", |l| l.halving_ordered(&[16, 14, 5, 6, 7, 8, 9, 18])),
    ("halving-7-for-14", "halving: 7 for a number of machines that is no power of two", |l| l.halving_gives(7, 14, |e| !e.len().is_power_of_two())),
    ("halving-5-for-14", "halving: 5 for speeds that are not equal", |l| l.halving_gives(5, 14, |e| e.iter().any(|v| *v != e[0]))),
    ("halving-3-taken", "halving: three machines taken", |l| l.halving_gives(0, 14, |e| e.len() == 3 && e.windows(2).all(|v| v[0] == v[1]))),
    ("halving-6-taken", "halving: six machines taken", |l| l.halving_gives(0, 14, |e| e.len() == 6 && e.windows(2).all(|v| v[0] == v[1]))),
    ("halving-96-taken", "halving: the most machines taken", |l| l.halving_gives(0, 14, |e| e.len() == MACHINES && e.windows(2).all(|v| v[0] == v[1]))),
    ("halving-128-taken", "halving: a power of two above the most machines taken", |l| l.halving_gives(0, 7, |e| e.len() == 2 * LONGEST_HALVED)),
    ("halving-no-machine", "halving: 14 for no machine", |l| match l.real() { 7 if l.is_halving() && l.machines() == 0 => 14, code => code }),
    ("halving-one-refused", "halving: one machine refused", |l| l.halving_gives(14, 0, |e| e.len() == 1)),
    ("halving-64-refused", "halving: the longest row refused", |l| l.halving_gives(14, 0, |e| e.len() == LONGEST_HALVED)),
    ("halving-speeds-last", "halving: the last speed not compared", |l| l.halving_gives(0, 14, |e| e.len().is_power_of_two() && e[..e.len() - 1].windows(2).all(|v| v[0] == v[1]))),
    ("halving-speeds-first", "halving: the first speed not compared", |l| l.halving_gives(0, 14, |e| e.len().is_power_of_two() && e[1..].windows(2).all(|v| v[0] == v[1]))),
    ("halving-speeds-two", "halving: the first two speeds compared, no others", |l| l.halving_gives(0, 14, |e| e.len().is_power_of_two() && e[0] == e[1])),
    ("halving-speeds-pairs", "halving: speeds compared in pairs only", |l| l.halving_gives(0, 14, |e| e.len().is_power_of_two() && e.chunks(2).all(|v| v[0] == v[1]))),
    ("halving-speeds-sum", "halving: speeds whose sum is P times the first taken", |l| l.halving_gives(0, 14, |e| e.len().is_power_of_two() && e.iter().sum::<u32>() == e.len() as u32 * e[0])),
    ("halving-speeds-byte", "halving: the lowest bytes of the speeds compared", |l| l.halving_gives(0, 14, |e| e.len().is_power_of_two() && e.iter().all(|v| v % 256 == e[0] % 256))),
    ("halving-speeds-empty", "halving: unequal speeds taken where there are no tiles", |l| if l.is_halving() && l.tiles() == 0 { l.halving_gives(0, 14, |e| e.len().is_power_of_two()) } else { l.real() }),
    ("halving-short", "halving: P separators taken for enough", |l| if l.is_halving() && l.numbers() == [9] && l.many(Slot::Separators) == l.machines() { 0 } else { l.real() }),
    // What it leaves.
    ("halving-refused", "halving: separators changed by a refusal with 14", |l| { let code = l.real(); if l.is_halving() && code == 14 { if let Some(v) = l.words(Slot::Separators).last_mut() { *v = 0 } } code }),
    ("halving-refused-answer", "halving: an answer given with 14", |l| { let code = l.real(); if l.is_halving() && code == 14 { if let Some(v) = l.answer().first_mut() { *v ^= 1 } } code }),
    ("halving-past", "halving: written past the separators", |l| l.stray(l.is_halving(), Slot::Separators, true)),
    ("halving-later", "halving: the entry after the separators changed", |l| l.then(l.is_halving(), |j| if let Some(v) = l.words(Slot::Separators).get_mut(j.speeds.len() + 1) { *v = j.weights.len() as u32 })),
    ("halving-input", "halving: a weight changed", |l| l.then(l.is_halving(), |_| if let Some(v) = l.words(Slot::Weights).last_mut() { *v ^= 1 })),
    // Start-up work: loads.
    ("startup-empty", "measuring: an empty share has the start-up work too", |l| l.measuring(|j, a, b, _| j.c() + j.weight(a, b))),
    ("startup-once", "measuring: the start-up work once a plan", |l| l.measuring(|j, a, b, _| once(j, a, b))),
    ("startup-nought", "measuring: no start-up work for tiles of weight 0", |l| l.measuring(|j, a, b, _| if j.weight(a, b) == 0 { 0 } else { j.load(a, b) })),
    ("startup-first", "measuring: no start-up work on machine 1", |l| l.measuring(|j, a, b, p| if p == 0 { j.weight(a, b) } else { j.load(a, b) })),
    ("startup-last", "measuring: no start-up work on the last machine", |l| l.measuring(|j, a, b, p| if p + 1 == j.speeds.len() { j.weight(a, b) } else { j.load(a, b) })),
    ("startup-planfile-empty", "plan file: an empty share has the start-up work too", |l| l.reload(l.is_plan_file(), |j, r, _| if r[0] == r[1] { j.c() } else { r[2] as u128 })),
    ("startup-planfile-once", "plan file: the start-up work once a plan", |l| l.reload(l.is_plan_file(), |j, r, _| once(j, r[0] as usize, r[1] as usize))),
    ("startup-planfile-nought", "plan file: no start-up work for tiles of weight 0", |l| l.reload(l.is_plan_file(), |j, r, _| if j.weight(r[0] as usize, r[1] as usize) == 0 { 0 } else { r[2] as u128 })),
    ("startup-host-empty", "C call: an empty share has the start-up work too", |l| l.reload(l.is_host(), |j, r, _| if r[0] == r[1] { j.c() } else { r[2] as u128 })),
    ("startup-host-load", "C call: loads without start-up work", |l| l.reload(l.is_host(), |j, r, _| j.weight(r[0] as usize, r[1] as usize))),
    ("startup-host-plan", "C call: the plan without start-up work, with loads that have it", |l| l.inner(l.is_host(), |j, s| put(s, &crate::fast::solve(&without(j)).0))),
    ("startup-host", "C call: no start-up work", |l| l.seeing_head(l.is_host(), |r| r[4..8].fill(0))),
    ("startup-list", "listing: no start-up work", |l| l.seeing_head(l.call == Call::List, |r| r[4..8].fill(0))),
    ("startup-hostgrade", "C grading: no start-up work", |l| l.seeing_head(l.call == Call::HostGrade, |r| r[4..8].fill(0))),
    ("startup-16-bits", "files: start-up work of 16 bits", |l| l.seeing_head(true, |r| r[6..8].fill(0))),
    ("startup-big-endian", "files: the bytes of the start-up work in the other order", |l| l.seeing_head(true, |r| r[4..8].reverse())),
    // Start-up work: trials, plans and their figures.
    ("startup-trial-walk", "trial: a walk without start-up work, bids with it", |l| l.failed(|j, b, _, s| put(s, &methods::trial(&without(j), b).separators))),
    ("startup-trial-reach", "trial: the last machine reaches as without start-up work", |l| l.reach(|j, b, start, _| reached(&without(j), start, start, *j.speeds.last().unwrap(), b))),
    ("startup-trial-bid", "trial: the next bid without start-up work", |l| l.rebid(|j, _, found| (found.0 - j.c(), found.1))),
    ("startup-trial-last", "trial: the last machine bids without start-up work", |l| l.rebid(|j, b, _| { let mut bids = every_bid(j, b); bids.last_mut().unwrap().0.0 -= j.c(); least_of(&bids.iter().filter(|b| b.1).map(|b| b.0).collect::<Vec<_>>()).unwrap() })),
    ("startup-plan-table", "table: the plan without start-up work", |l| l.inner(l.is_plan(1), |j, s| put(s, &crate::fast::solve(&without(j)).0))),
    ("startup-plan-bidding", "bidding: the plan without start-up work", |l| l.inner(l.is_plan(2), |j, s| put(s, &crate::fast::solve(&without(j)).0))),
    ("startup-plan-bisection", "bisection: the plan without start-up work", |l| l.inner(l.is_plan(3), |j, s| put(s, &crate::fast::solve(&without(j)).0))),
    ("startup-plan-nicol", "Nicol's search: the plan without start-up work", |l| l.inner(l.is_plan(4), |j, s| put(s, &crate::fast::solve(&without(j)).0))),
    ("startup-count-table", "table: the moves without start-up work", |l| l.figure(l.is_plan(1), 0, |j, _| methods::moves_by_walks(&without(j)))),
    ("startup-count-bidding", "bidding: begins at an ideal with start-up work", |l| l.figure(l.is_plan(2), 0, |j, v| if less(best_bound(j), ideal_with_startup(j)) { v } else { bids_from(j, ideal_with_startup(j)) })),
    ("startup-count-one", "bidding: one trial on one machine", |l| l.figure(l.is_plan(2), 0, |j, v| if j.speeds.len() == 1 { 1 } else { v })),
    ("startup-count-nicol", "Nicol's search: the trials without start-up work", |l| l.figure(l.is_plan(4), 0, |j, _| methods::search_by_sums(&without(j)).trials)),
    ("startup-ideal", "plan: imbalance against an ideal with the start-up work of all machines", |l| l.figure(l.is_plans(), 4, |j, v| { let (b, i) = (best_bound(j), ideal_with_startup(j)); let (high, low) = (b.0 * i.1, i.0 * b.1); if low == 0 { v } else { (1000 * high.saturating_sub(low)).div_ceil(low) as u64 } })),
    ("startup-ideal-once", "plan: imbalance against an ideal with the start-up work once", |l| l.figure(l.is_plans(), 4, |j, v| { let (b, (w, e)) = (best_bound(j), methods::ideal(j)); let (high, low) = (b.0 * e, (w + j.c()) * b.1); if low == 0 { v } else { (1000 * high.saturating_sub(low)).div_ceil(low) as u64 } })),
    ("startup-imbalance", "plan: an imbalance where nothing weighs and start-up work makes a bottleneck", |l| l.figure(l.is_plans(), 4, |j, v| if methods::ideal(j).0 == 0 && j.load(0, j.weights.len()) > 0 { 1000 } else { v })),
    ("allowance-startup", "bisection: D without start-up work", |l| l.figure(l.is_plan(3), 1, |j, _| methods::allowance(&without(j), 3))),
    ("allowance-startup-empty", "bisection: D without start-up work where there are no tiles", |l| l.figure(l.is_plan(3), 1, |j, v| if j.weights.is_empty() { 1 } else { v })),
    ("allowance-one", "bidding: 1 on one machine in the second edition", |l| l.figure(l.is_plan(2), 1, |j, v| if j.speeds.len() == 1 { 1 } else { v })),
    ("allowance-one-nought", "bidding: 1 on one machine in the second edition without start-up work", |l| l.figure(l.is_plan(2), 1, |j, v| if j.speeds.len() == 1 && j.startup == Some(0) { 1 } else { v })),
    ("allowance-one-first", "bidding: 2 on one machine in the first edition", |l| l.figure(l.is_plan(2), 1, |j, v| if j.speeds.len() == 1 { 2 } else { v })),
    ("allowance-one-empty", "bidding: 1 on one machine without tiles in the second edition", |l| l.figure(l.is_plan(2), 1, |j, v| if j.speeds.len() == 1 && j.weights.is_empty() { 1 } else { v })),
    ("allowance-second", "bidding: one more on several machines in the second edition", |l| l.figure(l.is_plan(2), 1, |j, v| if j.is_second() && j.speeds.len() > 1 { v + 1 } else { v })),
    ("startup-quick", "quick plan: separators by weights and start-up work", |l| redivide(l, l.is_quick(), quick_by_loads)),
    ("startup-halving", "halving: half of the part's load, with start-up work on the left", |l| rehalve(l, |j| halved_by(j, &|a, b, _| { let off = |i: usize| (2 * j.load(a, i) as i128 - j.load(a, b) as i128).abs(); (a..=b).reduce(|best, i| if off(i) < off(best) { i } else { best }).unwrap() }, &|_, _| true))),
    ("startup-halving-empty", "halving: an empty share has the start-up work too", |l| l.pair(l.is_halving(), 0, |j, b| if j.weights.is_empty() { (j.c(), b.1) } else { b })),
    ("startup-grading", "grading: best by weights alone", |l| l.regrade(|j, d, _| { let j = without(j); if less(best_bound(&j), slow::bottleneck(&j, d)) { 2 } else { 1 } })),
    ("startup-grading-load", "grading: loads without start-up work taken", |l| l.seeing_records(|j, r| for r in r { let (a, b) = (r[0] as usize, r[1] as usize); if a < b && b <= j.weights.len() && r[2] as u128 == j.weight(a, b) { r[2] = j.load(a, b) as u32 } })),
    ("startup-grading-empty", "grading: a load of the start-up work without a tile taken", |l| l.seeing_records(|j, r| for r in r { if r[0] == r[1] && r[2] as u128 == j.c() { r[2] = 0 } })),
    // Start-up work: reading and writing.
    ("read-edition", "reading: the first edition always", |l| l.figure(l.call == Call::Read, 0, |_, _| 1)),
    ("read-edition-nought", "reading: the second edition without start-up work said to be the first", |l| l.figure(l.call == Call::Read, 0, |j, v| if j.c() == 0 { 1 } else { v })),
    ("read-edition-bit", "reading: the editions as 0 and 1", |l| l.figure(l.call == Call::Read, 0, |_, v| v - 1)),
    ("read-startup", "reading: no start-up work answered", |l| l.figure(l.call == Call::Read, 1, |_, _| 0)),
    ("read-startup-order", "reading: start-up work before the edition", |l| l.then(l.call == Call::Read, |_| if let Some(a) = l.answer().get_mut(..2) { a.swap(0, 1) })),
    ("read-head-machine", "reading: the first record counted among the machines", |l| l.figure(l.call == Call::Read, 2, |j, v| v + j.is_second() as u64)),
    ("write-nought", "writing: the second edition without start-up work written as the first", |l| if l.is_write() && l.edition() == (Edition { second: true, startup: 0 }) { l.with_edition(|_| Edition::FIRST) } else { l.real() }),
    ("write-head-last", "writing: the record of kind 3 behind all others", |l| l.then(l.is_write(), |j| if j.is_second() { l.bytes(Slot::File)[..j.file().len()].rotate_left(8) })),
    ("write-head-kind", "writing: start-up work as a tile", |l| l.then(l.is_write(), |j| if j.is_second() { l.bytes(Slot::File)[0] = 2 })),
    ("write-short", "writing: 8 (N + P) bytes taken for enough in the second edition", |l| if l.is_write() && l.numbers() == [9] && l.edition().second && l.many(Slot::File) >= 8 * (l.machines() + l.tiles()) && l.many(Slot::Holds) >= l.machines() { 0 } else { l.real() }),
    ("write-more", "writing: a record more asked for in the first edition", |l| if l.is_write() && l.numbers().is_empty() && !l.edition().second && l.many(Slot::File) < 8 * (l.machines() + l.tiles() + 1) { 9 } else { l.real() }),
    ("file-second-record", "files: kind 3 as the second record taken for the first", |l| if l.call.edition().is_none() && l.bytes(Slot::File).len() >= 16 && l.bytes(Slot::File)[0] == 1 && l.bytes(Slot::File)[8] == 3 { let mut f = l.bytes(Slot::File).to_vec(); f[..16].rotate_left(8); l.with(Slot::File, &mut f) } else { l.real() }),
    ("file-second-twice", "files: a second record of kind 3 left out of account", |l| if l.call.edition().is_none() && l.bytes(Slot::File).len() >= 16 && l.bytes(Slot::File)[0] == 3 && l.bytes(Slot::File)[8] == 3 { let mut f = l.bytes(Slot::File).to_vec(); f.drain(8..16); l.with(Slot::File, &mut f) } else { l.real() }),
    ("file-head-refused", "files: kind 3 refused with 3 as the first record too", |l| l.recode(|f, n| if n != 1 && n != 2 && f.first() == Some(&3) { 3 } else { n })),
    ("file-head-blank", "files: bytes 1 to 3 of the first record of kind 3 not tested", |l| l.seeing_head(true, |r| r[1..4].fill(0))),
    ("file-15-3", "files: 3 for kind 3 past the first record", |l| l.recode(|_, n| if n == 15 { 3 } else { n })),
    ("file-15-4", "files: 4 for kind 3 behind a tile", |l| l.recode(|f, n| if n == 15 && f.chunks_exact(8).take_while(|r| r[0] != 3).any(|r| r[0] == 2) { 4 } else { n })),
    ("file-16-15", "files: 16 before 15 in one record", |l| l.recode(|f, n| if n == 15 && f.chunks_exact(8).skip(1).find(|r| r[0] == 3).is_some_and(|r| value(r) > STARTUP) { 16 } else { n })),
    ("file-16-6", "files: 6 for start-up work out of range", |l| l.recode(|_, n| if n == 16 { 6 } else { n })),
    ("file-16-late", "files: the start-up work tested after all records", |l| l.recode(|f, n| if n == 16 { let mut f = f.to_vec(); f[4..8].fill(0); match job::parse(&f) { Err(other) => other, _ => 16 } } else { n })),
    ("file-16-counts", "files: the start-up work tested after the counts", |l| l.recode(|f, n| if n == 16 { let mut f = f.to_vec(); f[4..8].fill(0); match job::read(&f, 1, usize::MAX) { Err(other @ (7 | 8)) => other, _ => 16 } } else { n })),
    ("file-16-limit", "files: the greatest start-up work refused", |l| l.recode(|f, n| if n != 1 && n != 2 && f.len() >= 8 && f[..4] == [3, 0, 0, 0] && value(f) == STARTUP { 16 } else { n })),
    ("file-16-more", "files: one more than the greatest start-up work taken", |l| l.seeing_head(true, |r| if value(r) == STARTUP + 1 { r[4] -= 1 })),
];

/// Of each call alone: a row of the most machines refused, one of a machine more taken.
macro_rules! rows {
    ($(($name:literal, $words:literal, $call:pat),)*) => {
        &[$(
            (concat!("row-most-", $name), concat!($words, ": the most machines refused"), |l| l.row(matches!(l.call, $call), MACHINES, false)),
            (concat!("row-more-", $name), concat!($words, ": one machine too many taken"), |l| l.row(matches!(l.call, $call), MACHINES + 1, true)),
        )*]
    };
}

const ROWS: &[(&str, &str, Run)] = rows![
    ("test", "testing", Call::Test(_)),
    ("read", "reading", Call::Read),
    ("write", "writing", Call::Write(_)),
    ("measure", "measuring", Call::Measure(_)),
    ("trial", "trial", Call::Trial(..)),
    ("quick", "quick plan", Call::Quick(_)),
    ("plan", "plan", Call::Plan(..)),
    ("planfile", "plan file", Call::PlanFile(_)),
    ("list", "listing", Call::List),
    ("host", "C call", Call::Host { .. }),
    ("grade", "grading", Call::Grade(_)),
    ("hostgrade", "C grading", Call::HostGrade),
];

/// Of each call on lists alone: start-up work left out, counted for each tile, and that of the first edition counted.
macro_rules! startups {
    ($(($name:literal, $words:literal, $call:pat),)*) => {
        &[$(
            (concat!("startup-lost-", $name), concat!($words, ": no start-up work"), |l| l.counting(matches!(l.call, $call), |_| 0)),
            (concat!("startup-each-", $name), concat!($words, ": start-up work for each tile"), |l| l.counting_each(matches!(l.call, $call))),
            (concat!("startup-counted-", $name), concat!($words, ": start-up work of the first edition counted"), |l| l.first_counted(matches!(l.call, $call))),
        )*]
    };
}

const STARTUPS: &[(&str, &str, Run)] = startups![
    ("write", "writing", Call::Write(_)),
    ("measure", "measuring", Call::Measure(_)),
    ("trial", "trial", Call::Trial(..)),
    ("quick", "quick plan", Call::Quick(_)),
    ("halving", "halving", Call::Halving(_)),
    ("table", "table", Call::Plan(_, 1)),
    ("bidding", "bidding", Call::Plan(_, 2)),
    ("bisection", "bisection", Call::Plan(_, 3)),
    ("nicol", "Nicol's search", Call::Plan(_, 4)),
    ("planfile", "plan file", Call::PlanFile(_)),
    ("grade", "grading", Call::Grade(_)),
];

/// The faults that a macro makes, for each call on lists but testing; what else it makes them for stands beside it.
macro_rules! calls_on_lists {
    ($faults:ident $(, $first:tt)*) => {
        $faults![
            $($first,)*
            ("write", "writing", Call::Write(_)),
            ("measure", "measuring", Call::Measure(_)),
            ("trial", "trial", Call::Trial(..)),
            ("quick", "quick plan", Call::Quick(_)),
            ("halving", "halving", Call::Halving(_)),
            ("plan", "plan", Call::Plan(..)),
            ("planfile", "plan file", Call::PlanFile(_)),
            ("grade", "grading", Call::Grade(_)),
        ]
    };
}

/// Of each call on lists alone: the greatest start-up work refused, one more taken; that of the first edition tested; 16 after 5.
macro_rules! tests_of_startup {
    ($(($name:literal, $words:literal, $call:pat),)*) => {
        &[$(
            (concat!("limit-startup-", $name), concat!($words, ": the greatest start-up work refused"), |l| match l.real() { 0 if matches!(l.call, $call) && l.edition() == Edition { second: true, startup: STARTUP } => 16, n => n }),
            (concat!("more-startup-", $name), concat!($words, ": one more than the greatest start-up work taken"), |l| if matches!(l.call, $call) && l.edition() == (Edition { second: true, startup: STARTUP + 1 }) { l.with_edition(|e| Edition { startup: STARTUP, ..e }) } else { l.real() }),
            (concat!("tested-startup-", $name), concat!($words, ": start-up work of the first edition tested"), |l| l.first_tested(matches!(l.call, $call))),
            (concat!("order-5-16-", $name), concat!($words, ": 16 after 5"), |l| l.late_startup(matches!(l.call, $call))),
        )*]
    };
}

const TESTS: &[(&str, &str, Run)] = calls_on_lists!(tests_of_startup, ("test", "testing", Call::Test(_)));

/// Whether a call makes a plan, or tries one.
fn is_planning(l: &Lists) -> bool {
    l.is_trial() || l.is_plans() || l.is_host()
}

fn is_quick_one(l: &Lists) -> bool {
    l.is_quick() || l.is_halving()
}

/// The places that holds leave, one that is 0 for none.
fn places(holds: &[u16]) -> usize {
    holds.iter().map(|&h| h as usize).sum()
}

/// Each byte of a hold in the place of the other.
fn swapped(holds: &mut [u16]) {
    holds.iter_mut().for_each(|h| *h = h.swap_bytes());
}

/// Holds: refusals, the table, bidding, bisection, trials, files.
#[rustfmt::skip]
const HELD: &[(&str, &str, Run)] = &[
    // Holds: what is refused.
    ("hold-17-never", "17 never given: 11", |l| l.hold_number(is_planning(&l), |_, n| if n == 17 { 11 } else { n })),
    ("hold-17-taken", "one place too few taken", |l| l.hold_number(is_planning(&l), |j, n| if n == 17 && places(&j.holds) + 1 == j.weights.len() { 0 } else { n })),
    ("hold-17-just", "17 for just as many places as tiles", |l| l.hold_number(is_planning(&l), |j, n| if n == 0 && !j.holds.contains(&0) && places(&j.holds) == j.weights.len() { 17 } else { n })),
    ("hold-17-just-empty", "17 for holds and no tiles", |l| l.hold_number(is_planning(&l), |j, n| if n == 0 && j.weights.is_empty() { 17 } else { n })),
    ("hold-17-unlimited", "17 where the holds that are set are too few and a machine has none", |l| l.hold_number(is_planning(&l), |j, n| if n == 0 && places(&j.holds) < j.weights.len() { 17 } else { n })),
    ("hold-17-last", "17 where the last machine alone is limited", |l| l.hold_number(is_planning(&l), |j, n| if n == 0 && j.holds.len() > 1 && (*j.holds.last().unwrap() as usize) < j.weights.len() && places(&j.holds) == *j.holds.last().unwrap() as usize { 17 } else { n })),
    ("hold-17-sum-16-bits", "the places added up in 16 bits", |l| l.hold_number(is_planning(&l), |j, n| if n == 0 && !j.holds.contains(&0) && places(&j.holds) % 65_536 < j.weights.len() { 17 } else { n })),
    ("hold-17-each", "17 only where each machine holds less than its part of the tiles", |l| l.hold_number(is_planning(&l), |j, n| if n == 17 && j.holds.iter().any(|&h| h as usize * j.holds.len() >= j.weights.len()) { 0 } else { n })),
    ("hold-17-quick", "quick plans: 17 in the place of 18", |l| l.hold_number(is_quick_one(&l), |j, n| if n == 18 && !j.has_room() { 17 } else { n })),
    ("hold-17-measure", "measuring: 17 for too few places", |l| l.hold_number(l.is_measure() || l.is_plan_file(), |j, n| if n == 11 && !j.has_room() { 17 } else { n })),
    ("hold-17-grade", "grading: 17 for too few places", |l| l.hold_number(l.is_grading(), |j, n| if (n == 11 || n == 12) && !j.has_room() { 17 } else { n })),
    ("hold-17-test", "testing: 17 for too few places", |l| l.hold_number(l.is_test(), |j, n| if n == 0 && !j.has_room() { 17 } else { n })),
    ("hold-17-read", "reading: 17 for too few places", |l| l.hold_number(l.call == Call::Read, |j, n| if n == 0 && !j.has_room() { 17 } else { n })),
    ("hold-17-write", "writing: 17 for too few places", |l| l.hold_number(l.is_write(), |j, n| if n == 0 && !j.has_room() { 17 } else { n })),
    ("hold-18-quick", "quick plans: holds that limit nothing taken", |l| l.hold_number(is_quick_one(&l), |j, n| if n == 18 && j.holds.iter().all(|&h| h == 0 || h as usize >= j.weights.len()) { 0 } else { n })),
    ("hold-18-some", "quick plans: 18 only where all machines are limited", |l| l.hold_number(is_quick_one(&l), |j, n| if n == 18 && j.holds.contains(&0) { 0 } else { n })),
    ("hold-18-trial", "trial: 18 with holds", |l| l.hold_number(l.is_trial(), |_, n| if n == 0 { 18 } else { n })),
    ("hold-18-table", "table: 18 with holds", |l| l.hold_number(l.is_plan(1), |_, n| if n == 0 { 18 } else { n })),
    ("hold-18-short", "method 4: 18 before 17", |l| l.hold_number(l.is_plan(4) || l.call == Call::Host { method: 4 }, |_, n| if n == 17 { 18 } else { n })),
    ("hold-18-nicol-1", "method 4: 1 with holds", |l| l.hold_number(l.is_plan(4) || l.call == Call::Host { method: 4 }, |_, n| if n == 18 { 1 } else { n })),
    ("hold-18-host", "C call: method 4 with holds plans by the table", |l| match l.real() { 18 if l.is_host() => l.other(Call::Host { method: 1 }), n => n }),
    ("hold-18-plan", "plan: method 4 with holds plans by the table", |l| match (l.real(), l.call) { (18, Call::Plan(n, _)) => l.other(Call::Plan(n, 1)), (n, _) => n }),
    ("hold-order-17-9", "17 before 9", |l| l.ordered(&[1, 16, 5, 6, 7, 8, 14, 17, 9, 18, 10, 11])),
    ("hold-order-18-9", "18 before 9", |l| l.ordered(&[1, 16, 5, 6, 7, 8, 14, 18, 9, 17, 10, 11])),
    ("hold-order-18-14", "18 before 14", |l| l.ordered(&[1, 16, 5, 6, 7, 8, 18, 14, 9, 17, 10, 11])),
    ("hold-order-18-17", "18 before 17", |l| l.ordered(&[1, 16, 5, 6, 7, 8, 14, 9, 18, 17, 10, 11])),
    ("hold-order-10-17", "10 before 17", |l| l.ordered(&[1, 16, 5, 6, 7, 8, 14, 9, 10, 17, 18, 11])),
    ("hold-order-17-8", "17 before 8", |l| l.ordered(&[1, 16, 5, 6, 7, 17, 8, 14, 9, 18, 10, 11])),
    ("hold-order-17-6", "17 before 6", |l| l.ordered(&[1, 16, 5, 17, 6, 7, 8, 14, 9, 18, 10, 11])),
    ("hold-order-17-1", "17 before 1", |l| l.ordered(&[17, 1, 16, 5, 6, 7, 8, 14, 9, 18, 10, 11])),
    ("hold-order-host-9", "C call: 17 and 18 before 9", |l| match (l.real(), l.call) { (9, Call::Host { method }) => answers::refuse_holds(&l.job(), method == 4).err().unwrap_or(9), (n, _) => n }),
    ("hold-order-host-18", "C call: 18 before 9, 17 after it", |l| match (l.real(), l.call) { (9, Call::Host { method: 4 }) if l.job().has_holds() => 18, (n, _) => n }),
    ("hold-order-host-1", "C call: the method tested after the holds", |l| match (l.real(), l.call) { (1, Call::Host { .. }) if job::read(l.bytes(Slot::File), 1, l.many(Slot::Plan)).is_ok_and(|j| !j.has_room()) => 17, (n, _) => n }),
    ("hold-list-9", "grading: the list of holds tested after the plan's length", |l| match l.real() { 9 if l.is_grade() && l.many(Slot::Plan) != 16 * l.machines() => 12, n => n }),
    ("hold-list-14", "halving: the list of holds tested before 14", |l| match l.real() { 14 if l.is_halving() && l.many(Slot::Holds) < l.machines() => 9, n => n }),
    ("hold-list-8", "the list of holds tested before the counts", |l| match l.real() { 7 | 8 if l.call.edition().is_some() && l.many(Slot::Holds) < l.machines() => 9, n => n }),
    // Holds: what is left.
    ("hold-refused", "the list of holds changed on refusal", |l| l.mark(true, Slot::Holds)),
    ("hold-refused-17", "separators changed with 17", |l| { let code = l.real(); if code == 17 { if let Some(v) = l.words(Slot::Separators).first_mut() { *v ^= 1 } } code }),
    ("hold-refused-17-host", "C call: the plan changed with 17", |l| { let code = l.real(); if code == 17 { if let Some(v) = l.bytes(Slot::Plan).first_mut() { *v ^= 1 } } code }),
    ("hold-refused-18", "separators changed with 18", |l| { let code = l.real(); if code == 18 { if let Some(v) = l.words(Slot::Separators).last_mut() { *v ^= 1 } } code }),
    ("hold-refused-18-answer", "an answer given with 18", |l| { let code = l.real(); if code == 18 { if let Some(v) = l.answer().first_mut() { *v ^= 1 } } code }),
    ("hold-refused-17-answer", "an answer given with 17", |l| { let code = l.real(); if code == 17 { if let Some(v) = l.answer().first_mut() { *v ^= 1 } } code }),
    ("hold-input", "plan: a hold changed", |l| l.then(l.is_plans(), |_| l.holds()[0] ^= 1)),
    ("hold-input-cut", "trial: what stands behind the holds cleared", |l| l.then(l.is_trial(), |j| l.holds()[j.speeds.len()..].fill(0))),
    ("hold-past", "reading: written past the holds", |l| l.stray(l.call == Call::Read, Slot::Holds, true)),
    ("hold-later", "reading: entries after the holds cleared", |l| l.then(l.call == Call::Read, |j| l.holds()[j.speeds.len()..].fill(0))),
    // Holds: files.
    ("hold-read-nothing", "reading: no holds written", |l| { let before = l.holds().to_vec(); l.then(l.call == Call::Read, |_| l.holds().copy_from_slice(&before)) }),
    ("hold-read-nought", "reading: 0 for every hold", |l| l.then(l.call == Call::Read, |j| l.holds()[..j.speeds.len()].fill(0))),
    ("hold-read-big-endian", "reading: the bytes of a hold in the other order", |l| l.then(l.call == Call::Read, |j| swapped(&mut l.holds()[..j.speeds.len()]))),
    ("hold-read-8-bits", "reading: holds of 8 bits", |l| l.then(l.call == Call::Read, |j| l.holds()[..j.speeds.len()].iter_mut().for_each(|h| *h %= 256))),
    ("hold-read-15-bits", "reading: holds of 15 bits", |l| l.then(l.call == Call::Read, |j| l.holds()[..j.speeds.len()].iter_mut().for_each(|h| *h &= 0x7FFF))),
    ("hold-read-order", "reading: the holds from the last machine back", |l| l.then(l.call == Call::Read, |j| l.holds()[..j.speeds.len()].reverse())),
    ("hold-read-short", "reading: a list of P - 1 holds taken for enough", |l| match l.real() { 9 if l.call == Call::Read => { let j = l.job(); if l.many(Slot::Speeds) >= j.speeds.len() && l.many(Slot::Holds) + 1 == j.speeds.len() && l.many(Slot::Weights) >= j.weights.len() { 0 } else { 9 } } n => n }),
    ("hold-read-more", "reading: as many holds asked for as tiles", |l| match l.real() { 0 if l.call == Call::Read && l.many(Slot::Holds) < l.job().weights.len() => 9, n => n }),
    ("hold-file-3", "files: 3 for a machine with a hold", |l| l.recode(|f, n| if n != 1 && n != 2 && f.chunks_exact(8).any(|r| r[0] == 1 && (r[2] != 0 || r[3] != 0)) { 3 } else { n })),
    ("hold-file-3-high", "files: 3 for a machine with a hold of 256 or more", |l| l.recode(|f, n| if n != 1 && n != 2 && f.chunks_exact(8).any(|r| r[0] == 1 && r[3] != 0) { 3 } else { n })),
    ("hold-file-tile", "files: bytes 2 and 3 of a tile not tested", |l| l.seeing(l.call.edition().is_none(), |f| f.chunks_exact_mut(8).for_each(|r| if r[0] == 2 { r[2..4].fill(0) }))),
    ("hold-file-tile-3", "files: byte 3 of a tile not tested", |l| l.seeing(l.call.edition().is_none(), |f| f.chunks_exact_mut(8).for_each(|r| if r[0] == 2 { r[3] = 0 }))),
    ("hold-file-head", "files: bytes 2 and 3 of the start-up work not tested", |l| l.seeing_head(true, |r| r[2..4].fill(0))),
    ("hold-file-byte-1", "files: byte 1 of a machine not tested", |l| l.seeing(l.call.edition().is_none(), |f| f.chunks_exact_mut(8).for_each(|r| if r[0] == 1 { r[1] = 0 }))),
    ("hold-file-big-endian", "C calls and listing: the bytes of a hold in the other order", |l| l.with_holds(l.call.edition().is_none() && l.call != Call::Read, |h, _| swapped(h))),
    ("hold-file-8-bits", "C calls and listing: holds of 8 bits", |l| l.with_holds(l.call.edition().is_none() && l.call != Call::Read, |h, _| h.iter_mut().for_each(|h| *h %= 256))),
    ("hold-8-bits", "calls on lists: holds of 8 bits", |l| l.with_holds(l.call.edition().is_some() && !l.is_write(), |h, _| h.iter_mut().for_each(|h| *h %= 256))),
    ("hold-write-nought", "writing: no holds", |l| l.then(l.is_write(), |j| l.bytes(Slot::File)[..j.file().len()].chunks_exact_mut(8).for_each(|r| r[2..4].fill(0)))),
    ("hold-write-big-endian", "writing: the bytes of a hold in the other order", |l| l.then(l.is_write(), |j| l.bytes(Slot::File)[..j.file().len()].chunks_exact_mut(8).for_each(|r| r.swap(2, 3)))),
    ("hold-write-early", "writing: holds in bytes 1 and 2", |l| l.then(l.is_write(), |j| l.bytes(Slot::File)[..j.file().len()].chunks_exact_mut(8).for_each(|r| r[1..4].rotate_left(1)))),
    ("hold-write-tile", "writing: the last hold in the tiles too", |l| l.then(l.is_write(), |j| l.bytes(Slot::File)[..j.file().len()].chunks_exact_mut(8).for_each(|r| if r[0] == 2 { r[2..4].copy_from_slice(&j.holds.last().unwrap().to_le_bytes()) }))),
    // Holds: the listing.
    ("hold-list-fourth", "listing: a fourth line with holds", |l| l.relist(|_, text| match text.lines().last() { Some(line) if line.starts_with('3') => format!("{}4{}\n", text, &line[1..]), _ => text })),
    ("hold-list-third", "listing: the third line left out too", |l| l.relist(|_, text| match text.rfind("\n3 ") { Some(at) => text[..at + 1].to_string(), None => text })),
    ("hold-list-18", "listing: 18 with holds", |l| l.relist(|j, text| if j.has_room() { "refused 18\n".to_string() } else { text })),
    ("hold-list-first", "listing: the first line before 17", |l| l.relist(|j, text| if j.has_room() { text } else { format!("tiles {} machines {} total {}\n{}", j.weights.len(), j.speeds.len(), methods::ideal(j).0, text) })),
    ("hold-list-17", "listing: 18 for too few places", |l| l.relist(|_, text| text.replace("refused 17", "refused 18"))),
    // Holds: divisions and grades.
    ("hold-measure-taken", "measuring: a division that breaks the hold of the last machine taken", |l| match l.real() { 11 if l.is_measure() => l.with_holds(true, |h, _| if let Some(h) = h.last_mut() { *h = 0 }), n => n }),
    ("hold-grade-13", "grading: 13 for a broken hold", |l| l.renumber(|j, r, n| if n == 11 && grading::read(&j.unlimited(), &job::encode(&r.to_vec())).is_ok() { 13 } else { n })),
    ("hold-grade-13-11", "grading: 13 before 11 for a broken hold", |l| l.renumber(|j, r, n| if n == 11 && grading::read(&j.unlimited(), &job::encode(&r.to_vec())) == Err(13) { 13 } else { n })),
    ("hold-grade-best", "grading: best by all divisions, those that break a hold among them", |l| l.best_if(|j, b| !less(best_bound(&j.unlimited()), b))),
    ("hold-grade-17", "grading: 17 for a broken hold", |l| l.renumber(|j, r, n| if n == 11 && grading::read(&j.unlimited(), &job::encode(&r.to_vec())).is_ok() { 17 } else { n })),
    // Holds: trials.
    ("hold-trial-bid", "trial: a machine at its hold bids", |l| rebid_by(l, |j, p, may| may || p + 1 < j.speeds.len())),
    ("hold-trial-bid-first", "trial: the first machine bids at its hold", |l| rebid_by(l, |_, p, may| may || p == 0)),
    ("hold-trial-bid-last", "trial: the last bids though it does not hold the rest", |l| rebid_by(l, |j, p, may| may || p + 1 == j.speeds.len())),
    ("hold-trial-bid-limited", "trial: no limited machine bids", |l| rebid_by(l, |j, p, may| may && j.holds[p] == 0)),
    ("hold-trial-bid-last-limited", "trial: a limited last machine does not bid", |l| rebid_by(l, |j, p, may| may && (j.holds[p] == 0 || p + 1 < j.speeds.len()))),
    ("hold-trial-bid-just", "trial: the last does not bid where it holds just the rest", |l| l.rebid(|j, b, found| { if methods::trial(j, b).last().0 + j.holds[j.speeds.len() - 1] as usize != j.weights.len() { return found } let bids: Vec<Bound> = every_bid(j, b).iter().take(j.speeds.len() - 1).filter(|b| b.1).map(|b| b.0).collect(); least_of(&bids).unwrap_or((1, 1)) })),
    ("hold-trial-bid-1-0", "trial: 1/0 where the last has no bid", |l| l.rebid(|j, b, found| if j.keeps(j.speeds.len() - 1, methods::trial(j, b).last().0, j.weights.len()) { found } else { (1, 0) })),
    ("hold-trial-reach", "trial: the last machine reaches past its hold", |l| l.reach(|j, b, start, _| reached(&j.unlimited(), start, start, *j.speeds.last().unwrap(), b))),
    ("hold-trial-reach-all", "trial: N written last where the last could carry the rest and not hold it", |l| l.reach(|j, b, start, end| if reached(&j.unlimited(), start, start, *j.speeds.last().unwrap(), b) == j.weights.len() { j.weights.len() } else { end })),
    ("hold-trial-reach-nothing", "trial: a last machine that does not hold the rest reaches nothing", |l| l.reach(|j, _, start, end| if j.keeps(j.speeds.len() - 1, start, j.weights.len()) { end } else { start })),
    ("hold-trial-reach-less", "trial: the last machine reaches one tile less than it holds", |l| l.reach(|j, _, start, end| if end > start && end - start == *j.holds.last().unwrap() as usize { end - 1 } else { end })),
    ("hold-trial-fits", "trial: fits where the last could carry the rest and not hold it", |l| { let b = l.bound(); l.said(0, |j, t, v| { let start = t.last().0; if reached(&j.unlimited(), start, start, *j.speeds.last().unwrap(), b.unwrap()) == j.weights.len() { 1 } else { v } }) }),
    ("hold-trial-fails", "trial: fails where the last has just as many tiles as it holds", |l| l.said(0, |j, t, v| { let (start, end) = t.last(); if end > start && end - start == *j.holds.last().unwrap() as usize { 0 } else { v } })),
    ("hold-trial-came", "trial: machines at their holds not counted", |l| l.came(|j, t, n| n - (0..n as usize).filter(|&p| j.holds[p] > 0 && t.separators[p + 1] - t.separators[p] == j.holds[p] as usize).count() as u64)),
    ("hold-trial-bound", "trial: a limited machine stops at its hold alone", |l| l.failed(|j, _, _, s| { for p in 0..j.speeds.len() { if j.holds[p] > 0 { s[p + 1] = (s[p] + j.holds[p] as u32).min(j.weights.len() as u32) } } })),
    // Holds: the table, bidding, bisection and their figures.
    ("hold-table-before", "table: the index before the start looked at", |l| l.inner(l.is_plan(1) && l.tiles() < 200, |j, s| if less(before_start(j), best_bound(j)) { force(j, s, before_start(j)) })),
    ("hold-table-crossing", "table: the crossing alone, with holds", |l| l.inner(l.is_plan(1) && l.tiles() < 200, |j, s| if j.has_holds() { rewalk(j, s, Some(crossing_only(j))) })),
    ("hold-count-start", "table: moves to the start not counted", |l| l.figure(l.is_plan(1) && l.tiles() < 200, 0, |j, _| moves_without_starts(j))),
    ("hold-count-nought", "table: the crossing looked for from 0 on", |l| l.figure(l.is_plan(1) && l.tiles() < 200, 0, |j, _| moves_from_nought(j))),
    ("hold-count-table", "table: the moves without holds", |l| l.figure(l.is_plan(1), 0, |j, _| methods::moves_by_walks(&j.unlimited()))),
    ("hold-count-jump", "table: a move to the start counted once", |l| l.figure(l.is_plan(1) && l.tiles() < 200, 0, |j, v| if j.has_holds() { v.min(moves_without_starts(j) + (1..j.speeds.len()).filter(|&p| methods::start(j, p, j.weights.len()) > 0).count() as u64) } else { v })),
    ("hold-count-bidding", "bidding: the trials without holds", |l| l.figure(l.is_plan(2), 0, |j, _| methods::bids(&j.unlimited()))),
    ("hold-count-bisection", "bisection: the trials without holds", |l| l.figure(l.is_plan(3), 0, |j, _| methods::halvings(&j.unlimited()))),
    ("hold-high-quick", "bisection: the high end at the quick plan's bottleneck, where that is no lower than the best", |l| l.figure(l.is_plan(3), 0, |j, v| if j.has_holds() { halvings_from(j, slow::bottleneck(j, &methods::quick(j))).unwrap_or(v) } else { v })),
    ("hold-high-startup", "bisection: the high end without start-up work", |l| l.figure(l.is_plan(3), 0, |j, v| if j.has_holds() { halvings_from(j, whole_over(j, 0, *j.speeds.iter().min().unwrap())).unwrap_or(v) } else { v })),
    ("hold-high-fastest", "bisection: the high end over the fastest speed", |l| l.figure(l.is_plan(3), 0, |j, v| if j.has_holds() { halvings_from(j, whole_over(j, j.c(), *j.speeds.iter().max().unwrap())).unwrap_or(v) } else { v })),
    ("hold-high-first", "bisection: the high end over the first speed", |l| l.figure(l.is_plan(3), 0, |j, v| if j.has_holds() { halvings_from(j, whole_over(j, j.c(), j.speeds[0])).unwrap_or(v) } else { v })),
    ("hold-high-one", "bisection: the high end over 1", |l| l.figure(l.is_plan(3), 0, |j, v| if j.has_holds() { halvings_from(j, whole_over(j, j.c(), 1)).unwrap_or(v) } else { v })),
    ("hold-high-startups", "bisection: the high end with the start-up work of every machine", |l| l.figure(l.is_plan(3), 0, |j, v| if j.has_holds() { halvings_from(j, whole_over(j, j.c() * j.speeds.len() as u128, *j.speeds.iter().min().unwrap())).unwrap_or(v) } else { v })),
    ("hold-high-loose", "bisection: begins as without holds where they limit nothing", |l| l.figure(l.is_plan(3), 0, |j, v| if j.holds.iter().all(|&h| h == 0 || h as usize >= j.weights.len()) { methods::halvings(&j.unlimited()) } else { v })),
    ("hold-high-all", "bisection: begins as without holds where a machine has none", |l| l.figure(l.is_plan(3), 0, |j, v| if j.has_holds() && j.holds.contains(&0) { halvings_from(j, slow::bottleneck(j, &methods::quick(j))).unwrap_or(v) } else { v })),
    ("hold-high-always", "bisection: begins without holds as with them", |l| l.figure(l.is_plan(3), 0, |j, v| halvings_from(j, whole_over(j, j.c(), *j.speeds.iter().min().unwrap())).unwrap_or(v))),
    ("hold-allowance", "bisection: D by the heaviest weight with holds", |l| l.figure(l.is_plan(3), 1, |j, _| methods::allowance(&j.unlimited(), 3))),
    ("hold-allowance-startup", "bisection: D without start-up work with holds", |l| l.figure(l.is_plan(3), 1, |j, v| if j.has_holds() { methods::allowance(&without(j), 3) } else { v })),
    ("hold-allowance-loose", "bisection: D by the heaviest weight where the holds limit nothing", |l| l.figure(l.is_plan(3), 1, |j, v| if j.holds.iter().all(|&h| h == 0 || h as usize >= j.weights.len()) { methods::allowance(&j.unlimited(), 3) } else { v })),
    ("hold-allowance-always", "bisection: D by all weight without holds", |l| l.figure(l.is_plan(3), 1, |j, _| { let mut holds = j.holds.clone(); holds[0] = holds[0].max(1); methods::allowance(&j.holding(holds), 3) })),
    ("hold-allowance-both", "bisection: D by all weight and the heaviest", |l| l.figure(l.is_plan(3), 1, |j, v| if j.has_holds() { let mut more = j.clone(); more.weights.extend(j.weights.iter().max()); methods::allowance(&more, 3) } else { v })),
    ("hold-seldom", "plan: the plan without holds once in 1,000 plans with them", |l| l.inner(l.is_plans(), |j, s| if j.has_holds() && seldom(1_000) { put(s, &crate::fast::solve(&j.unlimited()).0) })),
    ("hold-many", "plan: the hold of the last machine not kept with the most machines only", |l| l.with_holds(l.is_plan(3) && l.machines() == MACHINES, |h, _| h[MACHINES - 1] = 0)),
];

/// Of each call that looks at holds alone: none looked at; each one less, and one more; the last machine's not looked at, and the first one's;
/// each machine with the hold of the next; and no limit taken for a hold of 1.
macro_rules! holds {
    ($(($name:literal, $words:literal, $call:pat),)*) => {
        &[$(
            (concat!("hold-lost-", $name), concat!($words, ": no holds"), |l| l.with_holds(matches!(l.call, $call), |h, _| h.fill(0))),
            (concat!("hold-less-", $name), concat!($words, ": each hold one less"), |l| l.with_holds(matches!(l.call, $call), |h, _| h.iter_mut().for_each(|h| if *h > 1 { *h -= 1 }))),
            (concat!("hold-more-", $name), concat!($words, ": each hold one more"), |l| l.with_holds(matches!(l.call, $call), |h, _| h.iter_mut().for_each(|h| if (1..u16::MAX).contains(h) { *h += 1 }))),
            (concat!("hold-last-", $name), concat!($words, ": no hold on the last machine"), |l| l.with_holds(matches!(l.call, $call), |h, _| if let Some(h) = h.last_mut() { *h = 0 })),
            (concat!("hold-first-", $name), concat!($words, ": no hold on the first machine"), |l| l.with_holds(matches!(l.call, $call), |h, _| if let Some(h) = h.first_mut() { *h = 0 })),
            (concat!("hold-next-", $name), concat!($words, ": each machine with the hold of the next"), |l| l.with_holds(matches!(l.call, $call), |h, _| if !h.is_empty() { h.rotate_left(1) })),
            (concat!("hold-one-", $name), concat!($words, ": no limit taken for a hold of 1"), |l| l.with_holds(matches!(l.call, $call), |h, _| if h.iter().any(|&h| h > 0) { h.iter_mut().for_each(|h| *h = (*h).max(1)) })),
        )*]
    };
}

const HOLDS: &[(&str, &str, Run)] = holds![
    ("measure", "measuring", Call::Measure(_)),
    ("trial", "trial", Call::Trial(..)),
    ("table", "table", Call::Plan(_, 1)),
    ("bidding", "bidding", Call::Plan(_, 2)),
    ("bisection", "bisection", Call::Plan(_, 3)),
    ("planfile", "plan file", Call::PlanFile(_)),
    ("grade", "grading", Call::Grade(_)),
    ("host-table", "C call, table", Call::Host { method: 1 }),
    ("host-bidding", "C call, bidding", Call::Host { method: 2 }),
    ("host-bisection", "C call, bisection", Call::Host { method: 3 }),
    ("hostgrade", "C grading", Call::HostGrade),
    ("list", "listing", Call::List),
];

/// Of each call on lists that looks at holds alone: what stands behind them in a longer list looked at.
macro_rules! holds_behind {
    ($(($name:literal, $words:literal, $call:pat),)*) => {
        &[$(
            (concat!("holds-end-", $name), concat!($words, ": the last entries of a longer list of holds taken"), |l| l.listing_holds(matches!(l.call, $call), |h, p| if h.len() > p { h.drain(..h.len() - p); })),
            (concat!("holds-any-", $name), concat!($words, ": a hold behind those of the machines counts for the last one"), |l| l.listing_holds(matches!(l.call, $call), |h, p| if h.len() > p && p > 0 { h[p - 1] = h[p - 1].max(h[p]) })),
        )*]
    };
}

const HELD_BEHIND: &[(&str, &str, Run)] = calls_on_lists!(holds_behind);

/// Of each call on lists alone: a list of holds that is too short taken, what lacks being no limit, and a longer one refused.
macro_rules! hold_lists {
    ($(($name:literal, $words:literal, $call:pat),)*) => {
        &[$(
            (concat!("holds-short-", $name), concat!($words, ": a list of holds that is too short taken"), |l| l.listing_holds(matches!(l.call, $call), |h, p| if h.len() < p { h.resize(p, 0) })),
            (concat!("holds-one-short-", $name), concat!($words, ": a list of P - 1 holds taken"), |l| l.listing_holds(matches!(l.call, $call), |h, p| if h.len() + 1 == p { h.push(0) })),
            (concat!("holds-none-", $name), concat!($words, ": an empty list of holds taken"), |l| l.listing_holds(matches!(l.call, $call), |h, p| if h.is_empty() { h.resize(p, 0) })),
            (concat!("holds-longer-", $name), concat!($words, ": a longer list of holds refused"), |l| l.listing_holds(matches!(l.call, $call), |h, p| if h.len() > p { h.truncate(p.saturating_sub(1)) })),
        )*]
    };
}

const HELD_LISTS: &[(&str, &str, Run)] = calls_on_lists!(hold_lists, ("test", "testing", Call::Test(_)));
