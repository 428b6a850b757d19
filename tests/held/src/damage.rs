//! Random bytes and damaged files; the expected answer comes from the solver's own reader.

use crate::check::Check;
use crate::job::{head, holding, machine, tile, Job, Record};
use crate::limits::{plan_bytes, MACHINES, SPEED, STARTUP, TILES, WEIGHT};
use crate::planner::Call;
use crate::{every, grades, small};

/// Whether every division of the job can be tried.
pub fn is_tiny(job: &Job) -> bool {
    job.speeds.len() <= 4 && job.weights.len() <= 9
}

/// The C call and reading, with lists of any length; now and then grading.
fn judge(c: &mut Check, file: &[u8], method: u32, plan_len: usize) {
    c.jobs_seen += 1;
    let plan = c.rng.pattern(plan_len);
    c.judge(Call::Host { method }, &[file, &plan], None);
    let records = file.len() / 8;
    let (e, h, w) = (c.rng.below(records + 3), c.rng.below(records + 3), c.rng.below(records + 3));
    let h = if c.rng.once_in(2) { records } else { h };
    let (e, h, w) = if c.rng.once_in(3) { (records, records, records) } else { (e, h, w) };
    every::read_into(c, file, e, h, w);
    if c.rng.once_in(3) {
        grades::beside(c, file);
    }
}

fn some_method(c: &mut Check) -> u32 {
    if c.rng.once_in(20) {
        c.rng.pick(&[0, 5, u32::MAX])
    } else {
        c.rng.range(1, 4)
    }
}

fn some_room(c: &mut Check, machines: usize) -> usize {
    match c.rng.below(6) {
        0 => c.rng.below(plan_bytes(machines) + 1),
        1 => plan_bytes(machines) + c.rng.below(50),
        _ => plan_bytes(machines),
    }
}

fn random_bytes(c: &mut Check) {
    let len = if c.rng.once_in(3) { c.rng.below(200) } else { 8 * c.rng.below(25) };
    // All bytes, or few, so that some records are good.
    let (few, second, held) = (c.rng.below(4), c.rng.once_in(2), c.rng.once_in(3));
    let file: Vec<u8> = (0..len)
        .map(|k| match few {
            0 => c.rng.next() as u8,
            1 => c.rng.pick(&[0, 1, 2, 3]),
            _ if k == 0 && second || k > 0 && k % 8 == 0 && c.rng.once_in(60) => 3,
            _ if k % 8 == 0 => c.rng.range(1, 2) as u8,
            _ if k % 8 == 4 => c.rng.range(0, 255) as u8,
            _ if held && (k % 8 == 2 || k % 8 == 3) && k < len / 2 => c.rng.pick(&[0, 0, 1, 2]),
            _ => c.rng.once_in(300) as u8,
        })
        .collect();
    let method = some_method(c);
    let room = some_room(c, 25);
    judge(c, &file, method, room);
}

/// Records of good kinds with values at the edges, in either edition, with holds or without; now and then a first record's kind at another
/// place.
fn random_records(c: &mut Check) {
    let (machines, tiles) = (c.rng.below(5), c.rng.below(9));
    let rare = 2 + c.rng.below(40);
    let mut records: Vec<Record> = Vec::new();
    if c.rng.once_in(2) {
        let bad = c.rng.once_in(rare);
        let v = if bad { c.rng.pick(&[STARTUP + 1, 1_048_576, u32::MAX]) } else { c.rng.pick(&[0, 1, STARTUP - 1, STARTUP]) };
        records.push(head(v));
    }
    let held = c.rng.once_in(3);
    for _ in 0..machines {
        let bad = c.rng.once_in(rare);
        let v = if bad { c.rng.pick(&[0, SPEED + 1, WEIGHT, u32::MAX]) } else { c.rng.pick(&[1, 2, SPEED - 1, SPEED]) };
        let h = if held { c.rng.pick(&[0, 1, 2, 3, tiles as u16, 256, u16::MAX]) } else { 0 };
        records.push(holding(v, h));
    }
    for _ in 0..tiles {
        let bad = c.rng.once_in(rare);
        let v = if bad { c.rng.pick(&[WEIGHT + 1, 1_048_576, u32::MAX]) } else { c.rng.pick(&[0, 1, WEIGHT - 1, WEIGHT]) };
        records.push(if c.rng.once_in(4 * rare) { machine(v) } else { tile(v) });
    }
    if c.rng.once_in(rare) {
        let (at, v) = (c.rng.below(records.len() + 1), c.rng.pick(&[0, STARTUP, STARTUP + 1, u32::MAX]));
        records.insert(at, head(v));
    }
    let method = some_method(c);
    let room = some_room(c, machines);
    judge(c, &records.concat(), method, room);
}

/// A bit flipped, a byte set, cut, lengthened, or records swapped, doubled or lost.
pub fn spoil(c: &mut Check, file: &mut Vec<u8>) {
    if file.len() < 8 {
        return;
    }
    let at = c.rng.below(file.len());
    let (i, j) = (8 * c.rng.below(file.len() / 8), 8 * c.rng.below(file.len() / 8));
    match c.rng.below(8) {
        0 | 1 => file[at] ^= 1 << c.rng.below(8),
        2 => file[at] = c.rng.next() as u8,
        3 => file.truncate(at),
        4 => {
            let extra = 1 + c.rng.below(16);
            file.extend((0..extra).map(|k| (k % 8 == 0) as u8 * 2));
        }
        5 => {
            let (a, b): (Record, Record) = (file[i..i + 8].try_into().unwrap(), file[j..j + 8].try_into().unwrap());
            file[i..i + 8].copy_from_slice(&b);
            file[j..j + 8].copy_from_slice(&a);
        }
        6 => {
            let r: Record = file[i..i + 8].try_into().unwrap();
            file.splice(j..j, r);
        }
        _ => {
            file.drain(i..i + 8);
        }
    }
}

/// A good file, spoilt once or twice.
fn damaged(c: &mut Check, machines_max: usize, tiles_max: usize) {
    let machines = 1 + c.rng.below(machines_max);
    let tiles = c.rng.below(tiles_max + 1);
    let mut file = small::any_sized(&mut c.rng, machines, tiles).file();
    for _ in 0..1 + c.rng.below(2) {
        spoil(c, &mut file);
    }
    let method = some_method(c);
    let room = some_room(c, machines);
    judge(c, &file, method, room);
}

/// Any bad file.
pub fn one(c: &mut Check) {
    match c.rng.below(10) {
        0..=2 => random_bytes(c),
        3..=5 => random_records(c),
        6 => damaged(c, 40, 200),
        _ => damaged(c, 4, 8),
    }
}

pub fn run(c: &mut Check, times: usize) {
    for _ in 0..60_000 * times {
        random_bytes(c);
        random_records(c);
    }
    for (rounds, machines, tiles) in [(100_000, 4, 8), (3_000, 40, 200), (600, MACHINES + 2, TILES + 1)] {
        for _ in 0..rounds * times {
            damaged(c, machines, tiles);
        }
    }
}
