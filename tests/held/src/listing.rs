//! The listing: what the program `strips` writes for a file, however the file comes, and what the call puts into a buffer, against
//! the solver.

use std::io::Write;
use std::process::{Command, Stdio};
use std::time::Duration;

use crate::answers::Solved;
use crate::check::{self, Check};
use crate::job::{self, head, machine, record, tile, Job, Record};
use crate::limits::{JOB_INTAKE, LISTING, LONGEST_JOB, MACHINES, SPEED, STARTUP, TILES, TOO_MANY, WEIGHT};
use crate::planner::Call;
use crate::{damage, methods, small};

/// What the program must write.
pub fn wanted(file: &[u8]) -> String {
    let taken = &file[..file.len().min(JOB_INTAKE)];
    let job = match job::read(taken, 1, usize::MAX) {
        Ok(job) => job,
        Err(number) => return format!("refused {}\n", number),
    };
    if !job.has_room() {
        return "refused 17\n".to_string();
    }
    let s = Solved::of(&job);
    let whole = job.weight(0, job.weights.len());
    let mut text = format!("tiles {} machines {} total {}\n", job.weights.len(), job.speeds.len(), whole);
    // With holds there is no line of method 4.
    for method in 1..=if job.has_holds() { 3 } else { 4 } {
        let (count, most) = (s.counts[method as usize - 1], methods::allowance(&job, method));
        text += &format!("{} {} {} {} {} {}", method, count, most, s.bottleneck.0, s.bottleneck.1, s.imbalance);
        for x in &s.best {
            text += &format!(" {}", x);
        }
        text += "\n";
    }
    text
}

/// Feeds the file in pieces that end at these places, with a pause after each, and gives what the program writes.
fn fed(program: &str, file: &[u8], cuts: &[usize], pause: u64) -> String {
    let mut child = Command::new(program)
        .stdin(Stdio::piped())
        .stdout(Stdio::piped())
        .spawn()
        .unwrap_or_else(|e| panic!("{}: {}", program, e));
    let mut pipe = child.stdin.take().unwrap();
    let mut from = 0;
    for &to in cuts.iter().chain([&file.len()]) {
        // The program may end before it has everything.
        if pipe.write_all(&file[from..to]).is_err() {
            break;
        }
        from = to;
        if pause > 0 {
            std::thread::sleep(Duration::from_millis(pause));
        }
    }
    drop(pipe);
    let out = child.wait_with_output().unwrap();
    String::from_utf8_lossy(&out.stdout).into_owned()
}

fn one(c: &mut Check, program: &str, file: &[u8]) {
    c.jobs_seen += 1;
    c.calls += 1;
    let pieces = if c.rng.once_in(4) { 1 + c.rng.below(4) } else { 0 };
    let mut cuts: Vec<usize> = (0..pieces).map(|_| c.rng.below(file.len() + 1)).collect();
    cuts.sort();
    called(c, file);
    let must = wanted(file);
    let got = fed(program, file, &cuts, (pieces > 0) as u64);
    if got != must {
        let what = format!("strips, in pieces {:?}, writes\n{}instead of\n{}", cuts, got, must);
        c.fail(&what, check::describe(Call::Host { method: 0 }, &[file, &[]]));
    }
}

/// By the call: a buffer of just enough room or of more, now and then one that is too short.
fn called(c: &mut Check, file: &[u8]) {
    let room = match c.rng.below(8) {
        0 => c.rng.below(LISTING),
        1 => LISTING - 1,
        2..=4 => LISTING,
        _ => LISTING + 1 + c.rng.below(300),
    };
    called_with(c, file, room);
}

pub fn called_with(c: &mut Check, file: &[u8], room: usize) {
    let (text, entries) = (c.rng.pattern(room), c.rng.below(3));
    let answer = c.rng.pattern(8 * entries);
    if let Some(job) = job::read(file, 1, usize::MAX).ok().filter(|_| room >= LISTING) {
        c.held_files[0] += (job.has_holds() && job.has_room()) as u64;
        c.held_files[1] += !job.has_room() as u64;
    }
    c.judge(Call::List, &[file, &text, &answer], None);
}

/// By the call with each room: as long as a listing can be, one byte less, which is too short whatever the file is, and others.
pub fn called_with_rooms(c: &mut Check, file: &[u8]) {
    for room in [0, 1, LISTING - 1, LISTING, LISTING + 1] {
        called_with(c, file, room);
    }
}

/// A file that must be refused; the number is also known by a rule.
pub fn must_refuse(c: &mut Check, file: &[u8], number: u32) {
    let (must, rule) = (wanted(file), format!("refused {}\n", number));
    if must != rule {
        let what = format!("the solver's listing is {} the rule says {}", must, rule);
        c.fail(&what, check::describe(Call::Host { method: 0 }, &[file, &[]]));
    }
}

/// Files about as long as the intake, of either edition.
fn long_files(c: &mut Check, program: &str, startup: Option<u32>) {
    let full = Job { startup, ..small::sized(&mut c.rng, MACHINES, TILES) }.file();
    one(c, program, &full);
    for more in [1, 4, 7, 8, 9, 15, 16, 100_000, 300_000] {
        let filler: Vec<u8> = tile(3).iter().copied().cycle().take(more).collect();
        one(c, program, &[&full[..], &filler].concat());
        one(c, program, &[&full[..], &vec![0; more]].concat());
    }
    one(c, program, &[&full[..], &machine(1)].concat());
    one(c, program, &[&full[..], &tile(WEIGHT + 1)].concat());
    one(c, program, &[&full[..], &head(0)].concat());
    one(c, program, &vec![machine(1); 3_000].concat());
    one(c, program, &[machine(1).to_vec(), vec![tile(1); 3_000].concat()].concat());
    one(c, program, &[head(7).to_vec(), vec![machine(1); 3_000].concat()].concat());
}

/// A record with what it gives as the last one that is taken in: behind the longest job, and behind as many machines.
const LAST: [(Record, u32, u32); 12] = [
    ([3, 0, 0, 0, 0, 0, 0, 0], 15, 15),
    ([3, 0, 0, 0, 0xFF, 0xFF, 0xFF, 0xFF], 15, 15),
    ([0; 8], 3, 3),
    ([1, 1, 0, 0, 1, 0, 0, 0], 3, 3),
    ([2, 0, 1, 0, 1, 0, 0, 0], 3, 3),
    ([2, 0, 0, 1, 1, 0, 0, 0], 3, 3),
    ([1, 0, 1, 1, 1, 0, 0, 0], 4, 7),
    ([1, 0, 0, 0, 1, 0, 0, 0], 4, 7),
    ([1, 0, 0, 0, 0, 0, 0, 0], 4, 5),
    ([1, 0, 0, 0, 0xFF, 0xFF, 0, 0], 4, 5),
    ([2, 0, 0, 0, 0, 0, 0, 1], 6, 6),
    ([2, 0, 0, 0, 1, 0, 0, 0], 8, 7),
];

/// Files around the end of what is taken in, each with its number: what stands in the last record inside counts, what stands in the
/// next one does not, and a byte behind the end does not spoil the length.
/// The longest job is one of the second edition; one of the first, and as many tiles as fill its place, are judged likewise.
pub fn around_intake(job: &Job) -> Vec<(Vec<u8>, u32)> {
    let full = Job { startup: Some(STARTUP), ..job.clone() }.file();
    let row = vec![machine(1); LONGEST_JOB / 8].concat();
    assert_eq!((full.len(), row.len()), (LONGEST_JOB, LONGEST_JOB));
    let first = [&Job { startup: None, ..job.clone() }.file()[..], &tile(1)].concat();
    let mut list = vec![(first.clone(), 8)];
    for more in 1..8 {
        list.push(([&full[..], &vec![2; more]].concat(), 2));
        list.push(([&row[..], &vec![2; more]].concat(), 2));
        list.push(([&first[..], &vec![2; more]].concat(), 2));
    }
    for (r, behind_job, behind_row) in LAST {
        let fronts = [(&full, behind_job, tile(1), 8), (&row, behind_row, machine(1), 7), (&first, behind_job, tile(1), 8)];
        for (front, inside, good, past) in fronts {
            list.push(([&front[..], &r].concat(), inside));
            list.push(([&front[..], &r, &[0]].concat(), inside));
            list.push(([&front[..], &r, &r[..7]].concat(), inside));
            list.push(([&front[..], &good, &r].concat(), past));
            list.push(([&front[..], &good, &r[..1]].concat(), past));
            list.push(([&front[..], &good, &r, &r[..5]].concat(), past));
        }
    }
    list
}

/// Rows of machines at the limit and past it.
fn rows(c: &mut Check, program: &str) {
    for machines in [MACHINES - 1, MACHINES] {
        for tiles in [0, 1, TILES] {
            let file = small::sized(&mut c.rng, machines, tiles).file();
            one(c, program, &file);
            called_with_rooms(c, &file);
        }
    }
    for machines in TOO_MANY {
        for tiles in [0, 1, TILES, TILES + 1] {
            let file = small::sized(&mut c.rng, machines, tiles).file();
            must_refuse(c, &file, 7);
            one(c, program, &file);
        }
        let last = machines - 1;
        let wrong = [(0, machine(0), 5), (last, machine(SPEED + 1), 5), (machines, tile(WEIGHT + 1), 6), (machines, record(4, 1), 3)];
        for (place, bad, number) in wrong.into_iter().chain([(last, head(1), 15), (machines, head(1), 15)]) {
            let job = small::sized(&mut c.rng, machines, 1);
            let at = 8 * (place + job.is_second() as usize);
            let mut file = job.file();
            file[at..at + 8].copy_from_slice(&bad);
            must_refuse(c, &file, number);
            one(c, program, &file);
        }
    }
}

pub fn run(c: &mut Check, times: usize) {
    let program = std::env::var("HELD_STRIPS").unwrap_or_else(|_| concat!(env!("CARGO_MANIFEST_DIR"), "/../../target/bin/strips").to_string());
    one(c, &program, &[]);
    for startup in [None, Some(STARTUP)] {
        long_files(c, &program, startup);
    }
    let longest = small::sized(&mut c.rng, MACHINES, TILES);
    for (file, number) in around_intake(&longest) {
        must_refuse(c, &file, number);
        one(c, &program, &file);
    }
    rows(c, &program);
    for _ in 0..1_500 * times {
        let (machines, tiles) = (1 + c.rng.below(5), c.rng.below(12));
        let mut file = small::any_sized(&mut c.rng, machines, tiles).file();
        if c.rng.once_in(3) {
            damage::spoil(c, &mut file);
        }
        one(c, &program, &file);
    }
    for _ in 0..60 * times {
        let (machines, tiles) = (1 + c.rng.below(MACHINES), c.rng.below(TILES + 1));
        let file = small::any_sized(&mut c.rng, machines, tiles).file();
        one(c, &program, &file);
    }
}
