//! Each refusal, every pair of faults, and null pointers.

use crate::check::{self, Check};
use crate::guard;
use crate::job::{head, holding, machine, record, tile, Record};
use crate::limits::{plan_bytes, JOB_INTAKE, LONGEST_JOB, MACHINES, SPEED, STARTUP, TILES, TOO_MANY, WEIGHT};
use crate::planner::{self, At, Call};

/// Methods that are none, some of which look like one when cut short.
const NO_METHOD: [u32; 13] = [0, 5, 6, 255, 256, 257, 258, 260, 65_537, 0x0100_0002, 0x8000_0003, 0x8000_0004, u32::MAX];

/// A call that must be refused; the number is written by rule here, and the solver's reader must say the same. Where the number
/// comes from the file alone, reading must give it too.
fn refuse(c: &mut Check, file: &[u8], method: u32, plan_len: usize, number: u32) {
    let plan = c.rng.pattern(plan_len);
    c.refuse(Call::Host { method }, &[file, &plan], number);
    if ![0, 1, 9, 17, 18].contains(&number) {
        let (e, h, w) = (c.rng.pattern(4 * records(file)), c.rng.pattern(2 * records(file)), c.rng.pattern(4 * records(file)));
        let answer = c.rng.pattern(8 * 4);
        c.refuse(Call::Read, &[file, &e, &h, &w, &answer], number);
        c.refuse(Call::Read, &[file, &[], &[], &[], &[]], number);
    }
}

/// Lists of this length hold any part of the file.
fn records(file: &[u8]) -> usize {
    file.len() / 8
}

/// By the four methods the number given, by any other 1.
fn refuse_all(c: &mut Check, file: &[u8], plan_len: usize, number: u32) {
    for method in 1..=4 {
        refuse(c, file, method, plan_len, number);
    }
    for method in [0, 5, u32::MAX] {
        refuse(c, file, method, plan_len, 1);
    }
}

/// The same by one of the four methods, and now and then by another.
fn some_methods(c: &mut Check, file: &[u8], plan_len: usize, number: u32) {
    let method = c.rng.range(1, 4);
    refuse(c, file, method, plan_len, number);
    if c.rng.once_in(4) {
        let method = c.rng.pick(&[0, 5, u32::MAX]);
        refuse(c, file, method, plan_len, 1);
    }
}

/// No method at all, whatever else is wrong.
fn no_method(c: &mut Check) {
    for method in NO_METHOD {
        for plan_len in [0, 15, 16, 40] {
            refuse(c, &[], method, plan_len, 1);
            refuse(c, &machine(1), method, plan_len, 1);
            refuse(c, &[1, 0, 0], method, plan_len, 1);
            refuse(c, &[0; 8], method, plan_len, 1);
        }
    }
}

/// The smallest file that causes each number from 2 to 7, 15 and 16.
fn smallest(c: &mut Check, plan_len: usize) {
    for len in (1..8).chain(9..16).chain([17, LONGEST_JOB + 1, JOB_INTAKE + 4]) {
        refuse_all(c, &vec![0; len], plan_len, 2);
        refuse_all(c, &vec![1; len], plan_len, 2);
        let mut good = vec![machine(1); len / 8 + 1].concat();
        good.truncate(len);
        refuse_all(c, &good, plan_len, 2);
    }
    for kind in (0..=255).filter(|k| ![1, 2, 3].contains(k)) {
        refuse_all(c, &record(kind, 1), plan_len, 3);
    }
    // A bit of bytes 1 to 3; in bytes 2 and 3 of a machine it is a hold.
    for (kind, place, bit) in (0..3 * 3 * 8).map(|k| (1 + k % 3, 1 + k / 3 % 3, k / 9)) {
        let mut r = record(kind as u8, 1);
        r[place] = 1 << bit;
        if kind != 1 || place == 1 {
            refuse_all(c, &r, plan_len, 3);
            continue;
        }
        assert_eq!(r, holding(1, 1 << (8 * (place - 2) + bit)));
        for (file, number) in [(&[r, tile(WEIGHT + 1)][..], 6), (&[r, tile(0), r], 4), (&[r, holding(0, 1)], 5), (&[r, head(0)], 15)] {
            refuse_all(c, &file.concat(), plan_len, number);
        }
    }
    refuse_all(c, &[tile(0), machine(1)].concat(), plan_len, 4);
    refuse_all(c, &machine(0), plan_len, 5);
    refuse_all(c, &machine(SPEED + 1), plan_len, 5);
    refuse_all(c, &tile(WEIGHT + 1), plan_len, 6);
    refuse_all(c, &[], plan_len, 7);
    refuse_all(c, &tile(0), plan_len, 7);
    for front in [machine(1), tile(0), head(0), head(STARTUP)] {
        for startup in [0, 1, STARTUP, STARTUP + 1, u32::MAX] {
            refuse_all(c, &[front, head(startup)].concat(), plan_len, 15);
        }
    }
    for startup in [STARTUP + 1, 1 << 20, 1 << 24, 1 << 31, u32::MAX] {
        refuse_all(c, &head(startup), plan_len, 16);
        refuse_all(c, &[head(startup), machine(0)].concat(), plan_len, 16);
    }
    for startup in [0, 1, STARTUP] {
        refuse_all(c, &head(startup), plan_len, 7);
        refuse_all(c, &[head(startup), tile(0)].concat(), plan_len, 7);
        refuse_all(c, &[head(startup), tile(0), machine(1)].concat(), plan_len, 4);
        refuse_all(c, &[head(startup), machine(0)].concat(), plan_len, 5);
        refuse_all(c, &[head(startup), tile(WEIGHT + 1)].concat(), plan_len, 6);
    }
}

/// The smallest files that cause 7 by too many machines, 8 and 9.
fn smallest_counts(c: &mut Check) {
    for machines in TOO_MANY {
        for plan_len in [0, plan_bytes(MACHINES), plan_bytes(machines) - 1, plan_bytes(machines)] {
            refuse_all(c, &vec![machine(1); machines].concat(), plan_len, 7);
            refuse_all(c, &[&head(3)[..], &vec![machine(1); machines].concat()].concat(), plan_len, 7);
        }
    }
    for plan_len in [0, 15, 16] {
        let mut records = vec![machine(1)];
        records.extend(vec![tile(0); TILES + 1]);
        refuse_all(c, &records.concat(), plan_len, 8);
        records.insert(0, head(STARTUP));
        refuse_all(c, &records.concat(), plan_len, 8);
    }
    for (startup, machines) in [1, 2, 3, MACHINES - 1, MACHINES].into_iter().flat_map(|m| [(None, m), (Some(4), m)]) {
        let file = Good::of(startup, &vec![machine(1); machines], &[]).records.concat();
        for plan_len in (0..16).chain(plan_bytes(machines - 1)..plan_bytes(machines)) {
            refuse_all(c, &file, plan_len, 9);
        }
    }
}

/// Where a record stands: the first one of the second edition, a machine's that is the first of all or a later one, the first tile's or a
/// later one.
#[derive(Clone, Copy, PartialEq)]
enum Place {
    Head,
    First,
    Machine,
    Tile,
    Later,
}

use Place::{First, Head, Later, Machine, Tile};

/// A fault of one record: its number, where it can stand, and how it is made.
struct Fault {
    number: u32,
    on: &'static [Place],
    make: fn(&mut Record),
}

const ANY: &[Place] = &[Head, First, Machine, Tile, Later];
const NOT_FIRST: &[Place] = &[Machine, Tile, Later];
const NO_MACHINE: &[Place] = &[Head, Tile, Later];

const FAULTS: [Fault; 22] = [
    Fault { number: 3, on: ANY, make: |r| r[0] = 0 },
    Fault { number: 3, on: ANY, make: |r| r[0] = 4 },
    Fault { number: 3, on: ANY, make: |r| r[0] |= 0x80 },
    Fault { number: 3, on: ANY, make: |r| r[1] = 1 },
    Fault { number: 3, on: NO_MACHINE, make: |r| r[2] = 0x80 },
    Fault { number: 3, on: NO_MACHINE, make: |r| r[3] = 0xFF },
    Fault { number: 3, on: &[First, Machine], make: |r| (r[0], r[2]) = (2, 1) },
    Fault { number: 3, on: &[First, Machine], make: |r| (r[0], r[3]) = (3, 1) },
    Fault { number: 4, on: &[Later], make: |r| *r = machine(3) },
    Fault { number: 4, on: &[Later], make: |r| *r = machine(0) },
    Fault { number: 4, on: &[Later], make: |r| *r = machine(WEIGHT + 1) },
    Fault { number: 15, on: &[Tile, Later], make: |r| r[0] = 3 },
    Fault { number: 15, on: &[Machine], make: |r| (r[0], r[2], r[3]) = (3, 0, 0) },
    Fault { number: 15, on: NOT_FIRST, make: |r| *r = head(0) },
    Fault { number: 15, on: NOT_FIRST, make: |r| *r = head(STARTUP + 1) },
    Fault { number: 5, on: &[First, Machine], make: |r| *r = machine(0) },
    Fault { number: 5, on: &[First, Machine], make: |r| *r = machine(SPEED + 1) },
    Fault { number: 6, on: &[Tile, Later], make: |r| *r = tile(WEIGHT + 1) },
    Fault { number: 6, on: &[Tile, Later], make: |r| *r = tile(u32::MAX) },
    Fault { number: 16, on: &[Head], make: |r| *r = head(STARTUP + 1) },
    Fault { number: 16, on: &[Head], make: |r| *r = head(1 << 24) },
    Fault { number: 16, on: &[Head], make: |r| *r = head(u32::MAX) },
];

/// A file whose records are good, with so many machines behind what stands in front of them.
struct Good {
    heads: usize,
    machines: usize,
    records: Vec<Record>,
}

impl Good {
    fn of(startup: Option<u32>, machines: &[Record], tiles: &[Record]) -> Good {
        let front: Vec<Record> = startup.iter().map(|&c| head(c)).collect();
        Good { heads: front.len(), machines: machines.len(), records: [&front[..], machines, tiles].concat() }
    }

    fn place(&self, k: usize) -> Place {
        match k {
            _ if k < self.heads => Head,
            0 if self.machines > 0 => First,
            _ if k < self.heads + self.machines => Machine,
            _ if k == self.heads + self.machines => Tile,
            _ => Later,
        }
    }

    /// The places at which a fault can stand. Kind 3 can be no fault in the first of all records.
    fn places<'a>(&'a self, f: &'a Fault) -> impl Iterator<Item = usize> + 'a {
        (0..self.records.len()).filter(move |&k| f.on.contains(&self.place(k)) && (k > 0 || f.number != 15))
    }
}

/// The machines of the file that is spoilt, and the bytes of its plan.
const FEW: usize = 3;
const EXACT: usize = plan_bytes(FEW);

/// The same job in both editions, in the second also with holds that leave no room for all tiles, which is tested after all faults of
/// records.
fn good_files() -> [Good; 3] {
    let (machines, tiles) = ([machine(2), machine(1), machine(SPEED)], [tile(4), tile(0), tile(WEIGHT), tile(3)]);
    let held = [holding(2, 1), holding(1, 1), holding(SPEED, 1)];
    [(None, &machines), (Some(STARTUP), &machines), (Some(0), &held)].map(|(startup, machines)| Good::of(startup, machines, &tiles))
}

/// One fault, alone and with a length or a plan buffer that is wrong.
fn one_fault(c: &mut Check, one: &[Record], number: u32) {
    for plan_len in [0, EXACT - 1, EXACT, EXACT + 5] {
        refuse_all(c, &one.concat(), plan_len, number);
        for extra in [1, 4, 7] {
            let mut cut = one.concat();
            cut.extend(vec![2; extra]);
            refuse_all(c, &cut, plan_len, 2);
            let len = one.len() * 8 - extra;
            refuse_all(c, &one.concat()[..len], plan_len, 2);
        }
    }
}

/// A fault with a wrong count: no machine, too many, too many tiles, both; in either edition, at the first place that it can have, at the
/// last, and about the middle.
fn with_counts(c: &mut Check, f: &Fault) {
    for (m, t) in [(0, 4), (MACHINES + 1, 4), (3, TILES + 1), (0, TILES + 1), (MACHINES + 1, TILES + 1)] {
        for startup in [None, Some(0)] {
            let good = Good::of(startup, &vec![machine(7); m], &vec![tile(9); t]);
            let places: Vec<usize> = good.places(f).collect();
            let Some(&last) = places.last() else { continue };
            let mut some = vec![places[0], places[places.len() / 2], last];
            some.extend([good.heads + m / 2, good.heads + m, good.heads + m + 1].iter().filter(|k| places.contains(k)));
            some.sort();
            some.dedup();
            for place in some {
                let mut broken = good.records.clone();
                (f.make)(&mut broken[place]);
                let plan_len = c.rng.pick(&[0, plan_bytes(m)]);
                refuse_all(c, &broken.concat(), plan_len, f.number);
            }
        }
    }
}

/// Every two faults in different records: the earlier one counts.
fn pairs(c: &mut Check) {
    for f in &FAULTS {
        with_counts(c, f);
    }
    for good in good_files() {
        for f in &FAULTS {
            for i in good.places(f) {
                let mut one = good.records.clone();
                (f.make)(&mut one[i]);
                one_fault(c, &one, f.number);
                for g in &FAULTS {
                    for j in good.places(g).filter(|&j| j > i) {
                        let mut two = one.clone();
                        (g.make)(&mut two[j]);
                        some_methods(c, &two.concat(), EXACT, f.number);
                        some_methods(c, &two.concat(), EXACT - 1, f.number);
                        some_methods(c, &two.concat()[..two.len() * 8 - 3], EXACT, 2);
                    }
                }
            }
        }
    }
}

/// Two faults in one record: 3 counts before all others, 15 and 4 before 16 and 5. Bytes 2 and 3 of what is a machine then are no fault.
fn pairs_in_one(c: &mut Check) {
    for good in good_files() {
        for f in FAULTS.iter().filter(|f| f.number > 3) {
            for g in FAULTS.iter().filter(|g| g.number == 3) {
                for i in good.places(f) {
                    let mut two = good.records.clone();
                    (f.make)(&mut two[i]);
                    (g.make)(&mut two[i]);
                    let number = if two[i][..2] == [1, 0] { f.number } else { 3 };
                    refuse_all(c, &two.concat(), EXACT, number);
                }
            }
        }
        let (from, tiles) = (good.heads, good.heads + FEW);
        // A machine after a tile with a speed out of range.
        for speed in [0, SPEED + 1, WEIGHT, WEIGHT + 1, u32::MAX] {
            for i in tiles + 1..good.records.len() {
                let mut two = good.records.clone();
                two[i] = machine(speed);
                refuse_all(c, &two.concat(), EXACT, 4);
            }
        }
        // Kind 3 past the first record, with start-up work out of range.
        for startup in [STARTUP + 1, 1 << 24, u32::MAX] {
            for i in 1..good.records.len() {
                let mut two = good.records.clone();
                two[i] = head(startup);
                refuse_all(c, &two.concat(), EXACT, 15);
            }
        }
        // A value good for the other kind only.
        for speed in [0, SPEED + 1, WEIGHT] {
            let mut one = good.records.clone();
            one[from + 1] = machine(speed);
            refuse_all(c, &one.concat(), EXACT, 5);
        }
    }
}

/// Counts, length and plan buffer with each other.
#[rustfmt::skip]
fn pairs_of_counts(c: &mut Check) {
    for (m, t, number) in [
        (0, 0, 7), (0, 4, 7), (MACHINES + 1, 0, 7), (MACHINES + 1, 4, 7), (0, TILES + 1, 7), (MACHINES + 1, TILES + 1, 7),
        (1, TILES + 1, 8), (MACHINES, TILES + 1, 8), (MACHINES, TILES, 9), (1, 0, 9),
    ] {
        let mut records = vec![machine(7); m];
        records.extend(vec![tile(9); t]);
        let file = records.concat();
        for plan_len in [0, plan_bytes(m).saturating_sub(1), plan_bytes(m), plan_bytes(m) + 9] {
            if number == 9 && plan_len >= plan_bytes(m) {
                continue;
            }
            refuse_all(c, &file, plan_len, number);
            for extra in [1, 4, 7] {
                let mut longer = file.clone();
                longer.extend(vec![0; extra]);
                refuse_all(c, &longer, plan_len, 2);
            }
        }
    }
}

/// Holds that leave no room for all tiles give 17, by the fourth method too; others give 18 by it. A method that is none, a file that is
/// spoilt, wrong counts and a plan buffer that is too short come before them.
fn of_holds(c: &mut Check) {
    // Each hold as a number of 16 bits: taken for one of 8 bits it would leave room, or none.
    let rows: [(&[u16], usize, bool); 14] = [
        (&[1], 2, false),
        (&[1], 1, true),
        (&[2], 3, false),
        (&[3], 3, true),
        (&[0], 3, true),
        (&[u16::MAX], 3, true),
        (&[256], 255, true),
        (&[256], 257, false),
        (&[255], 256, false),
        (&[0x0101, 0x0100], 513, true),
        (&[0x0101, 0x0100], 514, false),
        (&[1, 0], 2_048, true),
        (&[0, 1], 2_048, true),
        (&[2_000, 47], 2_048, false),
    ];
    for (holds, tiles, room) in rows {
        for startup in [None, Some(0), Some(STARTUP)] {
            let machines: Vec<Record> = holds.iter().map(|&h| holding(3, h)).collect();
            let good = Good::of(startup, &machines, &vec![tile(1); tiles]).records;
            let exact = plan_bytes(holds.len());
            let number = |method: u32| match method {
                _ if !room => 17,
                4 if holds.iter().any(|&h| h > 0) => 18,
                _ => 0,
            };
            for method in 1..=4 {
                for (plan_len, number) in [(exact - 1, 9), (0, 9), (exact, number(method)), (exact + 7, number(method))] {
                    refuse(c, &good.concat(), method, plan_len, number);
                }
            }
            for method in [0, 5, u32::MAX] {
                refuse(c, &good.concat(), method, exact, 1);
            }
            let mut cut = good.concat();
            cut.pop();
            refuse_all(c, &cut, exact, 2);
            for (more, number) in [(record(2, WEIGHT + 1), 6), (record(4, 1), 3), (machine(1), 4), (head(0), 15)] {
                refuse_all(c, &[&good.concat()[..], &more].concat(), exact, number);
            }
            let mut broken = good.clone();
            broken[startup.is_some() as usize][4..8].fill(0);
            refuse_all(c, &broken.concat(), exact, 5);
        }
    }
    // All the most machines with a hold of 21, which is 32 places too few, and of 22; past the most, and past the most tiles.
    for (hold, machines, tiles, number) in [(21, MACHINES, TILES, 17), (22, MACHINES, TILES, 0), (1, MACHINES + 1, TILES, 7), (1, 1, TILES + 1, 8)] {
        let file = [vec![holding(1, hold); machines], vec![tile(0); tiles]].concat().concat();
        for method in 1..=4 {
            let number = if number == 0 && method == 4 { 18 } else { number };
            refuse(c, &file, method, plan_bytes(machines), number);
            let short = if [17, 18, 0].contains(&number) { 9 } else { number };
            refuse(c, &file, method, plan_bytes(machines) - 1, short);
        }
    }
}

/// Null with length 0, on either side.
fn nulls(c: &mut Check) {
    let one = machine(1);
    let broken = [0u8; 8];
    for method in (1..=4).chain(NO_METHOD) {
        let known = (1..=4).contains(&method);
        // No job at all; a job and no room; a broken job; cut ones.
        let cases: [(&[u8], u32); 5] = [(&[], 7), (&one, 9), (&broken, 3), (&one[..7], 2), (&broken[..1], 2)];
        for (file, number) in cases {
            let wanted = if known { number } else { 1 };
            null_plan(c, file, method, wanted);
        }
        // A null job beside a real plan buffer, which stays.
        for plan_len in [1usize, 15, 16, 64] {
            let mut plan = vec![0x5Au8; plan_len];
            let call = Call::Host { method };
            let code = direct(c, call, &[(std::ptr::null_mut(), 0), (plan.as_mut_ptr(), plan_len)]);
            let wanted = if known { 7 } else { 1 };
            if code != wanted || plan.iter().any(|&b| b != 0x5A) {
                let what = format!("answer {} instead of {} with a null job, or the plan changed", code, wanted);
                c.fail(&what, check::describe(call, &[&[], &plan]));
            }
        }
    }
}

fn null_plan(c: &mut Check, file: &[u8], method: u32, wanted: u32) {
    let job_at = if file.is_empty() { std::ptr::null_mut() } else { file.as_ptr() as *mut u8 };
    let call = Call::Host { method };
    let code = direct(c, call, &[(job_at, file.len()), (std::ptr::null_mut(), 0)]);
    if code != wanted {
        c.fail(&format!("answer {} instead of {} with a null plan", code, wanted), check::describe(call, &[file, &[]]));
    }
}

/// A call on lists as they are.
fn direct(c: &mut Check, call: Call, at: &[At]) -> u32 {
    guard::note(call, at);
    let code = unsafe { planner::call(call, at) };
    guard::done();
    c.calls += 1;
    code
}

pub fn run(c: &mut Check) {
    no_method(c);
    for plan_len in [0, 15, 16, 40] {
        smallest(c, plan_len);
    }
    smallest_counts(c);
    pairs(c);
    pairs_in_one(c);
    pairs_of_counts(c);
    of_holds(c);
    nulls(c);
}
