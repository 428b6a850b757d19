//! One call of the planner, compared whole with what the solver expects.

use crate::answers::{self, After, Solved};
use crate::guard;
use crate::job::{self, Job, Plan};
use crate::lent::Lent;
use crate::limits::STARTUP;
use crate::planner::{self, At, Call, Edition, Slot, LISTS};
use crate::rng::Rng;

/// Room of one lent list.
const ROOM: usize = 4 << 20;

/// The most failures that are printed.
const SHOWN: u64 = 5;

pub struct Check {
    desk: Vec<Lent>,
    pub rng: Rng,
    pub calls: u64,
    pub jobs_seen: u64,
    pub failures: u64,
    /// Stop at the first failure.
    pub hasty: bool,
    /// The part of the test that runs.
    pub part: &'static str,
    /// How often each call gave each number.
    seen: [[u64; OTHER + 1]; KINDS.len()],
    /// Of trials that fit and whose answer had room for the number of machines: how often that was 0, the only one, 1 of several, some
    /// between, and all of several; how often one of these had no tile; how often the last tile had weight 0; how often two machines or more
    /// were left; and how often there were fewer tiles than machines, in a row of the most.
    pub fits: [u64; 9],
    /// Of trials that failed: how often the last of several machines reached none of what was left, and some; the only machine some; and how
    /// often the last share ended with a tile of weight 0, was just the bound, and left one tile.
    pub failed: [u64; 6],
    /// How often a search ended early, and had its least candidate on the first machine, on one between, on the last.
    pub searches: [u64; 4],
    /// How many plans had nothing to weigh and bottleneck 0, nothing to weigh and start-up work for a bottleneck, met the ideal, were above
    /// it by less than a thousandth of it, and by as much or more.
    pub noughts: [u64; 5],
    /// How many accepted jobs were of the first edition, of the second without start-up work, with some, and with the most; of those with
    /// some, how many whose plan is another than without it, whose plan uses fewer machines, and whose one machine makes bidding try twice.
    pub editions: [u64; 7],
    /// Of accepted jobs with holds: how many had start-up work; no tiles; just as many places as tiles, and one more; one machine without a
    /// limit; the last of several limited alone; a hold of 1, of the most that 16 bits have, of N; and the most tiles on the most machines.
    pub kinds_of_holds: [u64; 10],
    /// Of tiny ones: how many had a greater bottleneck than without holds; an equal one with another plan; another count of moves, of
    /// bidding's trials, of bisection's; a j of the table that starts above 0; a crossing that would come earlier from 0 on; a smaller value
    /// at the index before the start; an entry without a division past the first row, and in it.
    pub changed_by_holds: [u64; 10],
    /// How many jobs had holds that leave no room for all tiles, and for all but one.
    pub short_holds: [u64; 2],
    /// Of trials with holds: how often one failed in which a machine at its hold did not bid; its bid would have been the least; the last had
    /// no bid; the last reached no further for its hold, and no further for the bound alone; and how often one fitted in which a machine was at its
    /// hold, and the last had just as many tiles as it holds.
    pub held_trials: [u64; 7],
    /// How many listings had the lines of three plans, and said 17; and how many plans were refused with 11 for a hold alone.
    pub held_files: [u64; 3],
    /// How often each of the two gradings said best, and valid.
    grades: [[u64; 2]; 2],
    /// How many best plans had other separators than the planner's, and of these how many had their bottleneck as another pair.
    pub others: [u64; 2],
    /// How many splits of halved rows had two nearest weights on the left, and how many tiles of weight 0 behind the separator.
    pub splits: [u64; 2],
    /// Of rows of two machines and more that were halved: how many had the greatest load that 16.7 allows, and more than one tile that
    /// weighs; how many had other separators than the quick plan, a smaller bottleneck, a greater one; and how many one above the best.
    pub halved: [u64; 5],
}

/// The calls, the name of each, and the numbers that it can give.
pub const KINDS: [(&str, &[u32]); 13] = [
    ("testing", &[0, 16, 5, 6, 7, 8, 9]),
    ("reading", &[0, 2, 3, 4, 15, 5, 6, 16, 7, 8, 9]),
    ("writing", &[0, 16, 5, 6, 7, 8, 9]),
    ("measuring", &[0, 16, 5, 6, 7, 8, 9, 11]),
    ("trial", &[0, 16, 5, 6, 7, 8, 9, 17, 10]),
    ("quick plan", &[0, 16, 5, 6, 7, 8, 9, 18]),
    ("halving", &[0, 16, 5, 6, 7, 8, 14, 9, 18]),
    ("plan", &[0, 1, 16, 5, 6, 7, 8, 9, 17, 18]),
    ("plan file", &[0, 16, 5, 6, 7, 8, 9, 11]),
    ("C call", &[0, 1, 2, 3, 4, 15, 5, 6, 16, 7, 8, 9, 17, 18]),
    ("listing", &[0, 9]),
    ("grading", &[0, 16, 5, 6, 7, 8, 9, 12, 11, 13]),
    ("C grading", &[0, 2, 3, 4, 15, 5, 6, 16, 7, 8, 9, 12, 11, 13]),
];

/// One more than the greatest number: what no call can give counts as this.
const OTHER: usize = 19;

/// Where the two gradings stand among the calls.
const GRADING: usize = 11;

fn kind(call: Call) -> usize {
    match call {
        Call::Test(_) => 0,
        Call::Read => 1,
        Call::Write(_) => 2,
        Call::Measure(_) => 3,
        Call::Trial(..) => 4,
        Call::Quick(_) => 5,
        Call::Halving(_) => 6,
        Call::Plan(..) => 7,
        Call::PlanFile(_) => 8,
        Call::Host { .. } => 9,
        Call::List => 10,
        Call::Grade(_) => GRADING,
        Call::HostGrade => GRADING + 1,
    }
}

/// The job of a file where it is one, else its records.
fn describe_file(file: &[u8]) -> String {
    if let Ok(j) = job::read(file, 1, usize::MAX) {
        let edition = j.startup.map_or("first edition".to_string(), |c| format!("second edition, start-up work {}", c));
        let machines = format!("{} machines, speeds {:?}, holds {:?}", j.speeds.len(), j.speeds, j.holds);
        return format!("{}\n  {}\n  {} tiles, weights {:?}", edition, machines, j.weights.len(), j.weights);
    }
    let records: Vec<String> = file.chunks(8).take(4096).map(|r| r.iter().map(|b| format!("{:02x}", b)).collect()).collect();
    format!("{} bytes, records {}", file.len(), records.join(" "))
}

/// A call with its lists, for a failure's message.
pub fn describe(call: Call, lists: &[&[u8]]) -> String {
    let mut text = format!("  {:?}", call);
    for (slot, list) in call.slots().iter().zip(lists) {
        text += &match slot {
            Slot::File if !matches!(call, Call::Write(_)) => format!("\n  file: {}", describe_file(list)),
            Slot::Speeds | Slot::Holds | Slot::Weights if call == Call::Read => format!("\n  {:?}: {} entries", slot, list.len() / slot.width()),
            Slot::Speeds | Slot::Weights | Slot::Separators => format!("\n  {:?}: {} entries {:?}", slot, list.len() / 4, answers::words(list)),
            Slot::Holds => format!("\n  {:?}: {} entries {:?}", slot, list.len() / 2, answers::halves(list)),
            Slot::Plan if kind(call) >= GRADING => format!("\n  plan: {} bytes {:?}", list.len(), job::decode(&list[..list.len().min(16 * 300)])),
            _ => format!("\n  {:?}: {} entries", slot, list.len() / slot.width()),
        };
    }
    text
}

/// Entries of a list as numbers, as far as a person wants to read them.
fn entries(slot: Slot, list: &[u8]) -> Vec<u64> {
    let width = if slot == Slot::Plan { 4 } else { slot.width() };
    let number = |b: &[u8]| b.iter().rev().fold(0u64, |n, &x| n << 8 | x as u64);
    list.chunks(width).take(400).map(number).collect()
}

/// Any start-up work, in its range or out of it.
fn some_startup(r: &mut Rng) -> u32 {
    match r.below(6) {
        0 => 0,
        1 => r.range(1, 9),
        2 => r.range(0, STARTUP),
        3 => r.pick(&[STARTUP, STARTUP + 1]),
        4 => u32::MAX,
        _ => r.next() as u32,
    }
}

impl Check {
    pub fn new(seed: u64) -> Check {
        Check {
            desk: (0..LISTS).map(|_| Lent::new(ROOM)).collect(),
            rng: Rng::new(seed),
            calls: 0,
            jobs_seen: 0,
            failures: 0,
            hasty: false,
            part: "",
            seen: [[0; OTHER + 1]; KINDS.len()],
            fits: [0; 9],
            failed: [0; 6],
            searches: [0; 4],
            noughts: [0; 5],
            editions: [0; 7],
            kinds_of_holds: [0; 10],
            changed_by_holds: [0; 10],
            short_holds: [0; 2],
            held_trials: [0; 7],
            held_files: [0; 3],
            grades: [[0; 2]; 2],
            others: [0; 2],
            splits: [0; 2],
            halved: [0; 5],
        }
    }

    /// How the edition of a job comes beside its lists. In the first one any start-up work does, since it is neither tested nor counted.
    pub fn edition(&mut self, job: &Job) -> Edition {
        Edition { second: job.is_second(), startup: job.startup.unwrap_or_else(|| some_startup(&mut self.rng)) }
    }

    /// The holds of a job as a list: just so many, or more, and what stands behind those of the machines is anything.
    pub fn holds(&mut self, job: &Job) -> Vec<u8> {
        let more = self.rng.below(4).saturating_sub(1);
        self.holds_of(job, job.holds.len() + more)
    }

    /// The same with so many entries, fewer than machines too.
    pub fn holds_of(&mut self, job: &Job, entries: usize) -> Vec<u8> {
        let mut bytes = answers::bytes_of_holds(&job.holds);
        bytes.truncate(2 * entries);
        let more = (entries).saturating_sub(job.holds.len());
        // Often such as would count: all limited, none limited, the least, the most.
        let style = self.rng.below(5);
        for _ in 0..more {
            let any = self.rng.next() as u16;
            bytes.extend([0, 1, u16::MAX, any, any][style].to_le_bytes());
        }
        bytes
    }

    pub fn fail(&mut self, what: &str, job: String) {
        self.failures += 1;
        if self.failures <= SHOWN {
            eprintln!("FAILED: {}\n{}", what, job);
        }
        if self.hasty {
            guard::end_early(self.part);
        }
    }

    /// Makes the call and compares: the number, and every byte of every list and around it.
    pub fn ask(&mut self, call: Call, given: &[&[u8]], wanted: &Result<Vec<After>, u32>) {
        self.calls += 1;
        let slots = call.slots();
        assert_eq!(slots.len(), given.len());
        let mut at: [At; LISTS] = [(std::ptr::null_mut(), 0); LISTS];
        for (k, slot) in slots.iter().enumerate() {
            self.desk[k].lend(&mut self.rng, given[k], slot.width());
            at[k] = (self.desk[k].place(), given[k].len() / slot.width());
        }
        let at = &at[..slots.len()];
        guard::note(call, at);
        let code = unsafe { planner::call(call, at) };
        guard::done();
        self.seen[kind(call)][(code as usize).min(OTHER)] += 1;
        let number = wanted.as_ref().err().copied().unwrap_or(0);
        if code != number {
            self.fail(&format!("answer {} instead of {}", code, number), describe(call, given));
            return;
        }
        if code == 0 && matches!(call, Call::Plan(..)) && !self.nought(given) {
            self.fail("an imbalance of 0 off the ideal, or another one at it", describe(call, given));
            return;
        }
        for (k, &slot) in slots.iter().enumerate() {
            let stays = After::default();
            let after = wanted.as_ref().map_or(&stays, |all| &all[k]);
            if let Some(place) = self.desk[k].wrong(&after.front, after.free) {
                self.report(k, slot, place, &after.front, describe(call, given));
                return;
            }
        }
        if code == 0 && kind(call) >= GRADING {
            self.count_grade(kind(call) - GRADING, &wanted.as_ref().unwrap()[slots.len() - 1]);
        }
    }

    /// A grade as it came, where there was room for it.
    fn count_grade(&mut self, which: usize, came: &After) {
        if let Some(&grade) = came.front.first() {
            self.grades[which][grade as usize - 1] += 1;
        }
    }

    /// What a list of the last call holds now.
    pub fn after(&mut self, list: usize) -> Vec<u8> {
        self.desk[list].now().to_vec()
    }

    /// Nought means nought, asked of the planner's own figures: with Wtot above 0 its imbalance is 0 exactly where its bottleneck meets
    /// the ideal as a bound, and with Wtot 0 it is 0.
    fn nought(&mut self, given: &[&[u8]]) -> bool {
        let figures: Vec<u128> = self.desk[5].now().chunks_exact(8).map(|b| u64::from_le_bytes(b.try_into().unwrap()) as u128).collect();
        let &[_, _, load, speed, imbalance, ..] = &figures[..] else { return true };
        let sum = |list: &[u8]| list.chunks_exact(4).map(|b| u32::from_le_bytes(b.try_into().unwrap()) as u128).sum::<u128>();
        let (all_speed, whole) = (sum(given[0]), sum(given[2]));
        let meets = load * all_speed == whole * speed;
        let which = match whole {
            0 if load == 0 => 0,
            0 => 1,
            _ if meets => 2,
            _ if 1000 * load * all_speed < 1001 * whole * speed => 3,
            _ => 4,
        };
        self.noughts[which] += 1;
        (imbalance == 0) == (whole == 0 || meets)
    }

    /// A list that is not as it must be.
    fn report(&mut self, k: usize, slot: Slot, place: i64, front: &[u8], job: String) {
        let len = front.len();
        let got = entries(slot, &self.desk[k].now()[..len]);
        let what = if place >= 0 && (place as usize) < len {
            format!("{:?} {:?} instead of {:?}", slot, got, entries(slot, front))
        } else {
            format!("{:?}: byte {} was changed", slot, place)
        };
        self.fail(&what, job);
    }

    /// Asks what the rules expect, then the planner.
    pub fn judge(&mut self, call: Call, given: &[&[u8]], solved: Option<&Solved>) {
        let wanted = answers::expected(call, given, solved);
        self.ask(call, given, &wanted);
    }

    /// A judged call whose number is also known by a rule of the test.
    pub fn refuse(&mut self, call: Call, given: &[&[u8]], number: u32) {
        let wanted = answers::expected(call, given, None);
        let said = wanted.as_ref().err().copied().unwrap_or(0);
        if said != number {
            self.fail(&format!("the solver's reader says {}, the rule {}", said, number), describe(call, given));
        }
        self.ask(call, given, &wanted);
    }

    /// The C call: the plan or the number is known.
    pub fn call(&mut self, file: &[u8], method: u32, plan_len: usize, expected: Result<&Plan, u32>) {
        let wanted = expected.map(|plan| vec![After::default(), After { front: job::encode(plan), free: 0 }]);
        let plan = self.rng.pattern(plan_len);
        self.ask(Call::Host { method }, &[file, &plan], &wanted);
    }

    /// An accepted job by each method of the C call: exact, longer and shorter plan buffers.
    pub fn accepted(&mut self, job: &Job, separators: &[usize]) {
        self.jobs_seen += 1;
        let plan = job::plan_of(job, separators);
        let total: u128 = plan.iter().map(|r| r[2] as u128).sum();
        let busy = plan.iter().filter(|r| r[0] < r[1]).count() as u128;
        assert_eq!(total, job.weight(0, job.weights.len()) + job.c() * busy, "loads of the reference");
        let file = job.file();
        let exact = 16 * job.speeds.len();
        for method in 1..=4 {
            let wanted = if method == 4 && job.has_holds() { Err(18) } else { Ok(&plan) };
            self.call(&file, method, exact, wanted);
            let longer = exact + 1 + self.rng.below(80);
            self.call(&file, method, longer, wanted);
            let shorter = if self.rng.once_in(2) { exact - 1 } else { self.rng.below(exact) };
            self.call(&file, method, shorter, Err(9));
        }
    }

    /// The answers that never came up: a run without them would be no test of them.
    pub fn unseen(&self) -> Vec<String> {
        let mut list = Vec::new();
        for (k, (name, numbers)) in KINDS.iter().enumerate() {
            assert!(numbers.iter().all(|&n| (n as usize) < OTHER));
            for &n in numbers.iter().filter(|&&n| self.seen[k][n as usize] == 0) {
                list.push(format!("{} {}", name, n));
            }
        }
        for (k, word) in (0..4).map(|k| (k, ["best", "valid"][k % 2])).filter(|(k, _)| self.grades[k / 2][k % 2] == 0) {
            list.push(format!("{} {}", KINDS[GRADING + k / 2].0, word));
        }
        list
    }
}
