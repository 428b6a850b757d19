//! Jobs by lists that must be refused: the smallest, and every set of faults together.

use crate::answers::{bytes_of, bytes_of_holds};
use crate::check::Check;
use crate::limits::{job_bytes, plan_bytes, work_numbers, BOUND_LOAD, BOUND_SPEED, LONGEST_HALVED, LONGEST_JOB};
use crate::limits::{MACHINES, SPEED, STARTUP, TILES, TOO_MANY, WEIGHT};
use crate::planner::{Call, Edition};
use crate::rng::Rng;

/// What a call on lists is given.
struct Input {
    method: u32,
    bound: (u64, u64),
    edition: Edition,
    speeds: Vec<u32>,
    holds: Vec<u16>,
    weights: Vec<u32>,
    separators: Vec<u32>,
    /// Work numbers, plan bytes or file bytes, whichever the call takes.
    room: usize,
}

/// A call by name, so that the calls can be gone through, and its numbers in the order of its tests.
const CALLS: [(&str, &[u32]); 8] = [
    ("test", &[16, 5, 6, 7, 8, 9]),
    ("write", &[16, 5, 6, 7, 8, 9]),
    ("measure", &[16, 5, 6, 7, 8, 9, 11]),
    ("trial", &[16, 5, 6, 7, 8, 9, 17, 10]),
    ("quick", &[16, 5, 6, 7, 8, 9, 18]),
    ("halving", &[16, 5, 6, 7, 8, 14, 9, 18]),
    ("plan", &[1, 16, 5, 6, 7, 8, 9, 17, 18]),
    ("plan file", &[16, 5, 6, 7, 8, 9, 11]),
];

fn call_of(name: &str, i: &Input) -> Call {
    match name {
        "test" => Call::Test(i.edition),
        "write" => Call::Write(i.edition),
        "measure" => Call::Measure(i.edition),
        "trial" => Call::Trial(i.edition, i.bound.0, i.bound.1),
        "quick" => Call::Quick(i.edition),
        "halving" => Call::Halving(i.edition),
        "plan" => Call::Plan(i.edition, i.method),
        _ => Call::PlanFile(i.edition),
    }
}

/// The entries that the call's other list must have.
fn room_needed(name: &str, second: bool, machines: usize, tiles: usize) -> usize {
    match name {
        "write" => job_bytes(second, machines, tiles),
        "plan" => work_numbers(tiles),
        "plan file" => plan_bytes(machines),
        _ => 0,
    }
}

/// Makes the call; `number` is what the rule says.
fn refuse(c: &mut Check, name: &str, i: &Input, number: u32) {
    let (e, h, w, s) = (bytes_of(&i.speeds), bytes_of_holds(&i.holds), bytes_of(&i.weights), bytes_of(&i.separators));
    let entries = c.rng.below(7);
    let answer = c.rng.pattern(8 * entries);
    let wide = if name == "plan" { 4 } else { 1 };
    let other = c.rng.pattern(wide * i.room);
    let call = call_of(name, i);
    let given: Vec<&[u8]> = match name {
        "test" => vec![&e, &h, &w],
        "write" => vec![&e, &h, &w, &other, &answer],
        "plan" | "plan file" => vec![&e, &h, &w, &s, &other, &answer],
        _ => vec![&e, &h, &w, &s, &answer],
    };
    c.refuse(call, &given, number);
}

/// A division of so many tiles.
fn some_division(r: &mut Rng, machines: usize, tiles: usize) -> Vec<u32> {
    let mut inner: Vec<u32> = (1..machines).map(|_| r.range(0, tiles as u32)).collect();
    inner.sort();
    inner.insert(0, 0);
    inner.push(tiles as u32);
    inner
}

const BAD_SPEED: [u32; 5] = [0, SPEED + 1, 65_537, WEIGHT, u32::MAX];
const BAD_WEIGHT: [u32; 5] = [WEIGHT + 1, 1 << 20, 1 << 24, 1 << 31, u32::MAX];
const BAD_METHOD: [u32; 7] = [0, 5, 255, 257, 260, 65_538, u32::MAX];
const BAD_STARTUP: [u32; 5] = [STARTUP + 1, 1 << 20, 1 << 24, 1 << 31, u32::MAX];

/// The second edition with start-up work out of its range; or either edition, the first with any start-up work beside it.
pub fn edition_with(r: &mut Rng, bad: bool) -> Edition {
    let startup = match r.below(3) {
        _ if bad => return Edition { second: true, startup: r.pick(&BAD_STARTUP) },
        0 => r.pick(&BAD_STARTUP),
        _ => return Edition { second: true, startup: r.pick(&[0, 1, 7, STARTUP - 1, STARTUP]) },
    };
    Edition { second: false, startup }
}

/// Counts and values: edition and lists of a job with these faults of 16 and 5 to 8, and the numbers of those that could be made.
pub fn job_with(r: &mut Rng, faults: &[u32]) -> (Edition, Vec<u32>, Vec<u32>, Vec<u32>) {
    let has = |n: u32| faults.contains(&n);
    let mut made: Vec<u32> = faults.iter().copied().filter(|n| [16, 6, 7, 8].contains(n)).collect();
    let edition = edition_with(r, has(16));
    let machines = match has(7) {
        true if r.once_in(4) => 0,
        true if r.once_in(3) => 600,
        true => r.pick(&TOO_MANY),
        false => r.pick(&[1, 2, 3, 5, MACHINES - 1, MACHINES]),
    };
    let tiles = if has(8) { r.pick(&[TILES + 1, TILES + 2, 5_000]) } else { r.pick(&[1, 2, 4, 7, TILES]) };
    let mut speeds: Vec<u32> = (0..machines).map(|_| r.pick(&[1, 2, SPEED - 1, SPEED])).collect();
    let mut weights: Vec<u32> = (0..tiles).map(|_| r.pick(&[0, 1, WEIGHT - 1, WEIGHT])).collect();
    if has(5) && machines > 0 {
        let k = r.pick(&[0, machines / 2, machines - 1]);
        speeds[k] = r.pick(&BAD_SPEED);
        made.push(5);
    }
    if has(6) {
        let k = r.pick(&[0, tiles / 2, tiles - 1]);
        weights[k] = r.pick(&BAD_WEIGHT);
    }
    (edition, speeds, weights, made)
}

/// A row to be halved with these faults of 5, 7 and 14, and the numbers of those that could be made. Rows that are too long may be of a
/// power of two.
fn row_with(r: &mut Rng, faults: &[u32]) -> (Vec<u32>, Vec<u32>) {
    let has = |n: u32| faults.contains(&n);
    let mut made = Vec::new();
    let (machines, unequal) = match (has(7), has(14)) {
        (true, _) if r.once_in(4) => (0, false),
        (true, bad) => (r.pick(&[TOO_MANY[0], TOO_MANY[3], 2 * LONGEST_HALVED, 4 * LONGEST_HALVED]), bad),
        (false, false) => (1 << r.below(1 + LONGEST_HALVED.ilog2() as usize), false),
        (false, true) if r.once_in(2) => (r.pick(&[3, 5, 6, 7, 12, LONGEST_HALVED - 1, LONGEST_HALVED + 1, MACHINES - 1, MACHINES]), false),
        (false, true) => (2 << r.below(LONGEST_HALVED.ilog2() as usize), true),
    };
    let speed = r.pick(&[1, 2, SPEED - 1, SPEED]);
    let mut speeds = vec![speed; machines];
    let place = |r: &mut Rng| r.pick(&[0, machines / 2, machines - 1]);
    if unequal {
        let k = place(r);
        speeds[k] = if speed == SPEED { SPEED - 1 } else { speed + 1 };
    }
    if has(5) && machines > 0 {
        let k = place(r);
        speeds[k] = r.pick(&BAD_SPEED);
        made.push(5);
    }
    made.extend([7, 14].into_iter().filter(|&n| has(n)));
    (speeds, made)
}

/// Holds that this division keeps: none set, just so many as each share has where it has a tile, more, or only some set.
pub fn kept_holds(r: &mut Rng, separators: &[u32]) -> Vec<u16> {
    let style = r.below(4);
    let shares = separators.windows(2).map(|s| (s[1] - s[0]).min(u16::MAX as u32) as u16);
    let hold = |r: &mut Rng, share: u16| match style {
        0 => 0,
        1 => share.max(1),
        2 => share.max(1) + r.range(0, 3).min((u16::MAX - share.max(1)) as u32) as u16,
        _ => r.pick(&[0, share.max(1), u16::MAX]),
    };
    shares.map(|share| hold(r, share)).collect()
}

/// The holds of an input: by these faults of 17 and 18 too few for all tiles, or any where none may be; else such as pass. Those that could be
/// made are added.
fn hold_with(r: &mut Rng, name: &str, faults: &[u32], i: &mut Input, made: &mut Vec<u32>) {
    let (machines, tiles) = (i.speeds.len(), i.weights.len());
    let has = |n: u32| faults.contains(&n);
    let none_may_be = |i: &Input| name == "quick" || name == "halving" || name == "plan" && i.method == 4;
    i.holds = kept_holds(r, &i.separators);
    if has(18) && name == "plan" {
        i.method = 4;
    }
    if none_may_be(i) && !has(18) {
        i.holds.fill(0);
    }
    if has(18) && machines > 0 {
        let k = r.pick(&[0, machines / 2, machines - 1]);
        i.holds[k] = i.holds[k].max(i.separators[k + 1].saturating_sub(i.separators[k]).max(1).min(u16::MAX as u32) as u16);
        // A quick plan makes no test of the room.
        if name != "plan" && r.once_in(2) {
            i.holds.fill(1);
        }
        made.push(18);
    }
    if has(17) && machines > 0 && machines < tiles {
        i.holds.fill(1);
        let k = r.pick(&[0, machines / 2, machines - 1]);
        i.holds[k] += r.pick(&[0, (tiles - machines - 1).min(60_000)]) as u16;
        made.push(17);
    }
}

/// The lent lists: too short ones, and separators that are no division, perhaps for a hold alone.
fn lend_with(r: &mut Rng, name: &str, faults: &[u32], i: &mut Input, made: &mut Vec<u32>) {
    let (machines, tiles) = (i.speeds.len(), i.weights.len());
    let no_division = faults.contains(&11) && machines > 0;
    if no_division {
        let wide = i.separators.windows(2).position(|s| s[1] - s[0] > 1);
        match (r.below(6), wide) {
            (0 | 1, Some(p)) => i.holds[p] = r.range(1, (i.separators[p + 1] - i.separators[p] - 1).min(u16::MAX as u32)) as u16,
            (2, _) => i.separators[0] = 1 + r.range(0, 3),
            (3, _) => i.separators[machines] = tiles as u32 + 1 + r.range(0, 3),
            (4, _) => i.separators[machines] = tiles as u32 - 1,
            _ => i.separators[machines - 1] = tiles as u32 + 1,
        }
        made.push(11);
    }
    let needed = room_needed(name, i.edition.second, machines, tiles);
    i.room = needed + r.below(3);
    let more = r.below(3);
    i.holds.extend((0..more).map(|_| r.next() as u16));
    if faults.contains(&9) {
        let (lends_list, lends_room) = (name != "write" && name != "test", needed > 0);
        // Which of the lists, and now and then more than one.
        let short = [lends_list && r.once_in(3), lends_room && r.once_in(3), machines > 0 && r.once_in(3)];
        if short[0] {
            i.separators.truncate(r.pick(&[0, machines / 2, machines]));
        }
        if short[1] {
            i.room = r.pick(&[0, needed / 2, needed - 1]);
        }
        if short[2] {
            i.holds.truncate(r.pick(&[0, machines / 2, machines - 1]));
        }
        made.extend(short.contains(&true).then_some(9));
    } else {
        let more = r.below(3);
        i.separators.extend((0..more).map(|_| r.next() as u32));
    }
}

/// An input with these faults, and the first number among those that could be made.
fn input_with(r: &mut Rng, name: &str, numbers: &[u32], faults: &[u32]) -> (Input, u32) {
    let (edition, mut speeds, weights, mut made) = job_with(r, faults);
    if name == "halving" {
        made.retain(|n| *n != 5);
        let (row, more) = row_with(r, faults);
        speeds = row;
        made.extend(more);
    }
    let separators = some_division(r, speeds.len(), weights.len());
    let mut i = Input { method: r.range(1, 4), bound: (1_000_000, 1), edition, speeds, holds: Vec::new(), weights, separators, room: 0 };
    if !i.speeds.is_empty() {
        hold_with(r, name, faults, &mut i, &mut made);
    }
    lend_with(r, name, faults, &mut i, &mut made);
    if faults.contains(&1) {
        i.method = r.pick(&BAD_METHOD);
        made.push(1);
    }
    if faults.contains(&10) {
        i.bound = r.pick(&[(BOUND_LOAD + 1, 1), (0, 0), (5, BOUND_SPEED + 1), (u64::MAX, u64::MAX), (1, 1 << 32)]);
        made.push(10);
    }
    let number = numbers.iter().copied().find(|n| made.contains(n)).unwrap_or(0);
    (i, number)
}

/// Every set of faults of every call, in several shapes.
fn together(c: &mut Check, rounds: usize) {
    for (name, numbers) in CALLS {
        for set in 0u32..1 << numbers.len() {
            let faults: Vec<u32> = numbers.iter().enumerate().filter(|(k, _)| set >> k & 1 == 1).map(|(_, &n)| n).collect();
            let times = if faults.is_empty() { 1 } else { rounds };
            for _ in 0..times {
                let (i, number) = input_with(&mut c.rng, name, numbers, &faults);
                refuse(c, name, &i, number);
            }
        }
    }
}

/// Entries that are enough for any other list.
const PLENTY: usize = LONGEST_JOB;

/// With as many holds as speeds, none of them set.
fn smallest_input(speeds: &[u32], weights: &[u32], separators: &[u32], room: usize) -> Input {
    let (speeds, weights, separators) = (speeds.to_vec(), weights.to_vec(), separators.to_vec());
    Input { method: 1, bound: (0, 1), edition: Edition::FIRST, holds: vec![0; speeds.len()], speeds, weights, separators, room }
}

/// The smallest lists of holds: too short, longer than the machines, with what must not be looked at behind them; 17 and 18, and what comes
/// before and after them.
fn smallest_holds(c: &mut Check, name: &str) {
    let with = |holds: &[u16], i: Input| Input { holds: holds.to_vec(), ..i };
    let (division, plenty): (&[u32], usize) = (&[0, 1], PLENTY);
    // One machine and one tile.
    for (holds, number) in [(&[][..], 9), (&[0], 0), (&[0, 1], 0), (&[0, 0, u16::MAX], 0), (&[0; 200], 0)] {
        refuse(c, name, &with(holds, smallest_input(&[1], &[5], division, plenty)), number);
    }
    // Shorter than the machines, whatever is in it, beside other lists that have room or not; after 5 to 8.
    for holds in [&[][..], &[0], &[1]] {
        for (separators, room) in [(&[0, 1, 1][..], plenty), (&[], 0)] {
            refuse(c, name, &with(holds, smallest_input(&[1, 1], &[5], separators, room)), 9);
            refuse(c, name, &with(holds, smallest_input(&[1, 0], &[5], separators, room)), 5);
            refuse(c, name, &with(holds, smallest_input(&[1, 1], &[WEIGHT + 1], separators, room)), 6);
            let (many, row) = ([1; MACHINES + 1], [0; TILES + 1]);
            refuse(c, name, &with(holds, smallest_input(&many, &[5], separators, room)), 7);
            refuse(c, name, &with(holds, smallest_input(&[1, 1], &row, separators, room)), 8);
            if name == "halving" {
                refuse(c, name, &with(holds, smallest_input(&[1, 2], &[5], separators, room)), 14);
            }
        }
    }
    // Two machines and two tiles, as many places as tiles and one fewer; entries behind the second must not count.
    for method in 1..=4 {
        for (holds, room) in [(&[1u16, 1][..], true), (&[1, 1, 1], true), (&[1, 1, 0], true), (&[1, 0], true), (&[0, 1], true), (&[0, 0, 1, 1], true)] {
            let i = Input { method, ..with(holds, smallest_input(&[1, 1], &[5, 5], &[0, 1, 2], plenty)) };
            refuse(c, name, &i, of_holds(name, method, holds, room));
            // Of three tiles there is one too many where both are limited.
            let i = Input { method, ..with(holds, smallest_input(&[1, 1], &[5, 5, 0], &[0, 1, 3], plenty)) };
            let room = holds[..2].contains(&0);
            let broken = holds[1] == 1 && ["measure", "plan file"].contains(&name);
            refuse(c, name, &i, if broken { 11 } else { of_holds(name, method, holds, room) });
            if name == "trial" {
                let number = if room { 10 } else { 17 };
                refuse(c, name, &Input { bound: (0, 0), ..i }, number);
            }
        }
    }
    if name == "plan" {
        refuse(c, name, &Input { method: 5, ..with(&[1, 1], smallest_input(&[1, 1], &[5, 5, 0], &[0, 1, 3], plenty)) }, 1);
    }
}

/// What a call gives for the holds of two machines, where all else is right.
fn of_holds(name: &str, method: u32, holds: &[u16], room: bool) -> u32 {
    let any = holds[..2].iter().any(|&h| h > 0);
    match name {
        "quick" | "halving" if any => 18,
        "trial" | "plan" if !room => 17,
        "plan" if any && method == 4 => 18,
        _ => 0,
    }
}

/// The start-up work that causes 16, and what passes beside it: the most, and in the first edition any. It is tested before all speeds,
/// weights and counts.
fn smallest_startups(c: &mut Check, name: &str) {
    let some = |second: bool, startup: u32| Edition { second, startup };
    let many = [0u32; MACHINES + 1];
    for startup in BAD_STARTUP {
        for (speeds, weights) in [(&[1u32][..], &[0u32][..]), (&[], &[]), (&[0], &[]), (&[SPEED + 1], &[WEIGHT + 1]), (&many, &[])] {
            for (separators, room) in [(&[][..], 0), (&[0, 1], PLENTY)] {
                refuse(c, name, &Input { edition: some(true, startup), ..smallest_input(speeds, weights, separators, room) }, 16);
            }
        }
    }
    for startup in BAD_STARTUP.into_iter().chain([0, 1, STARTUP]) {
        refuse(c, name, &Input { edition: some(false, startup), ..smallest_input(&[1], &[0], &[0, 1], PLENTY) }, 0);
        for (speeds, number) in [(&[0u32][..], 5), (&[], 7)] {
            refuse(c, name, &Input { edition: some(false, startup), ..smallest_input(speeds, &[0], &[0, 1], PLENTY) }, number);
        }
    }
    for startup in [0, 1, STARTUP - 1, STARTUP] {
        refuse(c, name, &Input { edition: some(true, startup), ..smallest_input(&[1], &[0], &[0, 1], PLENTY) }, 0);
        refuse(c, name, &Input { edition: some(true, startup), ..smallest_input(&[0], &[0], &[0, 1], PLENTY) }, 5);
    }
    // No method is refused before it.
    if name == "plan" {
        for method in BAD_METHOD {
            refuse(c, name, &Input { method, edition: some(true, u32::MAX), ..smallest_input(&[0], &[0], &[], 0) }, 1);
        }
    }
}

/// The smallest lists that cause 5 to 8, and those beside them that pass.
fn smallest_jobs(c: &mut Check, name: &str) {
    let (many, row) = ([1u32; MACHINES + 1], [0u32; TILES + 1]);
    let none: &[u32] = &[];
    for (speeds, weights, number) in [
        (&[0u32][..], none, 5),
        (&[SPEED + 1], none, 5),
        (&[1], &[WEIGHT + 1], 6),
        (none, &[WEIGHT + 1], 6),
        (none, none, 7),
        (&many, none, 7),
        (&[1], &row, 8),
    ] {
        refuse(c, name, &smallest_input(speeds, weights, &[], 0), number);
    }
    refuse(c, name, &smallest_input(&[SPEED], &[WEIGHT], &[0, 1], PLENTY), 0);
    // The longest row is no power of two.
    let longest = if name == "halving" { 14 } else { 0 };
    refuse(c, name, &smallest_input(&many[1..], none, &[0; MACHINES + 1], PLENTY), longest);
    refuse(c, name, &smallest_input(&[1], &row[1..], &[0, TILES as u32], PLENTY), 0);
}

/// The smallest lists that cause 9, 11 and 14, the nearest bounds that cause 10, and any method for 1.
fn smallest_lists(c: &mut Check, name: &str, numbers: &[u32]) {
    if name != "write" && name != "test" {
        refuse(c, name, &smallest_input(&[1], &[], &[], PLENTY), 9);
        refuse(c, name, &smallest_input(&[1], &[], &[0], PLENTY), 9);
    }
    for edition in [Edition::FIRST, Edition { second: false, startup: u32::MAX }, Edition { second: true, startup: 5 }] {
        let needed = room_needed(name, edition.second, 1, 0);
        for room in 0..=needed {
            let input = Input { edition, ..smallest_input(&[1], &[], &[0, 0], room) };
            refuse(c, name, &input, if room < needed { 9 } else { 0 });
        }
    }
    let out = [(0, 0), (BOUND_LOAD + 1, 1), (0, BOUND_SPEED + 1)];
    let within = [(0, 1), (BOUND_LOAD, BOUND_SPEED)];
    for bound in out.into_iter().chain(within).filter(|_| name == "trial") {
        let number = if within.contains(&bound) { 0 } else { 10 };
        refuse(c, name, &Input { bound, ..smallest_input(&[1], &[], &[7, 7], 0) }, number);
    }
    if numbers.contains(&11) {
        for s in [[0, 1], [1, 0], [1, 1], [u32::MAX, 0], [0, u32::MAX]] {
            refuse(c, name, &smallest_input(&[1], &[], &s, PLENTY), 11);
        }
        for (s, number) in [(&[0, 2, 1][..], 11), (&[0, 1, 0], 11), (&[0, 1, 1, 0], 0)] {
            refuse(c, name, &smallest_input(&[1, 1], &[5], s, PLENTY), number);
        }
    }
    for (speeds, number) in [(&[1, 2][..], 14), (&[2, 1], 14), (&[1, 1, 1], 14), (&[1, 1], 9), (&[SPEED; 4], 9)] {
        for room in (0..=speeds.len()).filter(|_| name == "halving") {
            refuse(c, name, &smallest_input(speeds, &[], &vec![7; room], 0), number);
        }
    }
    for method in BAD_METHOD.into_iter().filter(|_| name == "plan") {
        refuse(c, name, &Input { method, ..smallest_input(&[], &[], &[], 0) }, 1);
    }
}

pub fn run(c: &mut Check, times: usize) {
    for (name, numbers) in CALLS {
        smallest_startups(c, name);
        smallest_holds(c, name);
        smallest_jobs(c, name);
        smallest_lists(c, name, numbers);
    }
    together(c, 24 * times);
}
