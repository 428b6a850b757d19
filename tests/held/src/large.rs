//! Middle-sized and large jobs against the fast reference.

use crate::answers::Solved;
use crate::check::Check;
use crate::job::Job;
use crate::limits::{LONGEST_HALVED, LONGEST_PLAN, MACHINES, SPEED, STARTUP, TILES, WEIGHT};
use crate::planner::{self, Call};
use crate::rng::Rng;
use crate::{every, fast, guard, job, small};

fn one(c: &mut Check, job: &Job) {
    if job.has_room() {
        every::job(c, &Solved::of(job), false);
    } else {
        every::short(c, job);
    }
}

/// A middle size, of machines and of tiles.
pub fn middle_size(r: &mut Rng) -> (usize, usize) {
    (1 + r.below(24), r.below(120))
}

/// Any size up to the limits, often the limits themselves.
pub fn some_size(r: &mut Rng) -> (usize, usize) {
    let machines = if r.once_in(3) { MACHINES } else { 1 + r.below(MACHINES) };
    let tiles = if r.once_in(3) { TILES } else { r.below(TILES + 1) };
    (machines, tiles)
}

pub fn middle(c: &mut Check) {
    let (machines, tiles) = middle_size(&mut c.rng);
    sized(c, machines, tiles);
}

pub fn any_size(c: &mut Check) {
    let (machines, tiles) = some_size(&mut c.rng);
    sized(c, machines, tiles);
}

fn sized(c: &mut Check, machines: usize, tiles: usize) {
    let job = small::any_sized(&mut c.rng, machines, tiles);
    one(c, &job);
}

pub fn run(c: &mut Check, times: usize) {
    for _ in 0..4_000 * times {
        middle(c);
    }
    for _ in 0..1_000 * times {
        any_size(c);
    }
    for _ in 0..200 * times {
        sized(c, MACHINES, TILES);
    }
    // Two machines, bounds as near as they can be.
    for _ in 0..300 * times {
        let sides = 1 + c.rng.below(TILES / 2 - 1);
        let job = small::neighbours(&mut c.rng, sides);
        one(c, &job);
    }
    for job in shapes(c) {
        one(c, &job);
    }
    for _ in 0..2_000 * times {
        row(c);
    }
    for job in row_shapes(c) {
        small::row(c, &job);
    }
    threads(c);
}

/// A row of one speed, of as many machines as can be halved, with any weights: often as many tiles as there may be, or as few as machines.
pub fn row(c: &mut Check) {
    let machines = 1 << c.rng.below(1 + LONGEST_HALVED.ilog2() as usize);
    let tiles = match c.rng.below(4) {
        0 => TILES,
        1 => c.rng.below(TILES + 1),
        2 => c.rng.below(120),
        _ => c.rng.below(machines + 2),
    };
    let speeds = vec![c.rng.range(1, SPEED); machines];
    let weights = small::weights(&mut c.rng, tiles, &speeds);
    let job = small::row_of(&mut c.rng, speeds, weights);
    small::row(c, &job);
}

/// Rows of one speed and each length that can be halved, with weights of a special shape, and with equal weights, one tile more than
/// would go evenly: these have the greatest load that 16.7 allows.
fn row_shapes(c: &mut Check) -> Vec<Job> {
    let mut list = Vec::new();
    let mut machines = 1;
    while machines <= LONGEST_HALVED {
        let mut shapes = weight_shapes(&mut c.rng);
        for each in [0, 1, 2, TILES / machines - 1] {
            let weight = c.rng.pick(&[1, 2, 999_983, WEIGHT]);
            shapes.push(vec![weight; machines * each + 1]);
        }
        for w in shapes {
            let startup = c.rng.pick(&[None, None, Some(0), Some(1), Some(STARTUP)]);
            list.push(Job::of(startup, &vec![c.rng.pick(&[1, 7, SPEED]); machines], &w));
        }
        machines *= 2;
    }
    list
}

/// Rows and machines of a special shape, each with each, half of them with start-up work: the most, as little as can be, or some; and a third
/// with holds.
fn shapes(c: &mut Check) -> Vec<Job> {
    let (speeds, weights) = (speed_shapes(&mut c.rng), weight_shapes(&mut c.rng));
    let mut list = Vec::new();
    for (s, w) in speeds.iter().flat_map(|s| weights.iter().map(move |w| (s, w))) {
        let some = c.rng.range(2, STARTUP);
        let startup = c.rng.pick(&[None, None, None, Some(0), Some(1), Some(some), Some(STARTUP), Some(STARTUP)]);
        let job = Job::of(startup, s, w);
        list.push(if c.rng.once_in(3) { small::held(&mut c.rng, &job) } else { job });
    }
    list
}

/// The same everywhere but at one place.
fn but_one<const LEN: usize>(at: usize, there: u32, elsewhere: u32) -> Vec<u32> {
    (0..LEN).map(|k| if k == at { there } else { elsewhere }).collect()
}

fn speed_shapes(r: &mut Rng) -> Vec<Vec<u32>> {
    vec![
        vec![1; MACHINES],
        vec![SPEED; MACHINES],
        (0..MACHINES).map(|_| r.range(1, SPEED)).collect(),
        (0..MACHINES).map(|p| if p % 2 == 0 { 1 } else { SPEED }).collect(),
        but_one::<MACHINES>(0, SPEED, 1),
        but_one::<MACHINES>(MACHINES - 1, SPEED, 1),
        but_one::<MACHINES>(0, 1, SPEED),
        but_one::<MACHINES>(MACHINES - 1, 1, SPEED),
        vec![1],
        vec![SPEED],
        vec![1, SPEED],
        vec![SPEED, 1],
        (1..=MACHINES).map(|p| SPEED - (MACHINES - p) as u32).collect(),
    ]
}

fn weight_shapes(r: &mut Rng) -> Vec<Vec<u32>> {
    vec![
        vec![0; TILES],
        vec![1; TILES],
        vec![WEIGHT; TILES],
        (0..TILES).map(|_| r.range(0, WEIGHT)).collect(),
        (0..TILES).map(|_| r.range(0, 1)).collect(),
        but_one::<TILES>(0, WEIGHT, 0),
        but_one::<TILES>(TILES - 1, WEIGHT, 0),
        but_one::<TILES>(TILES / 2, WEIGHT, 0),
        but_one::<TILES>(TILES / 2, WEIGHT, 1),
        (0..TILES as u32).collect(),
        (0..TILES as u32).rev().collect(),
        (0..TILES).map(|k| if k % 97 == 0 { WEIGHT } else { 0 }).collect(),
        vec![],
        vec![WEIGHT],
        vec![0],
        (0..MACHINES / 2).map(|_| r.range(0, WEIGHT)).collect(),
        vec![7; MACHINES - 1],
        vec![999_983; MACHINES + 1],
    ]
}

/// Several threads at once, each with a small stack, as the header allows: each plans and grades its plan, every second one with holds.
fn threads(c: &mut Check) {
    let list: Vec<(Vec<u8>, Vec<u8>, u32)> = (0..4)
        .map(|k| {
            let speeds: Vec<u32> = (0..MACHINES).map(|_| c.rng.range(1, SPEED)).collect();
            let weights: Vec<u32> = (0..TILES).map(|_| c.rng.range(0, WEIGHT)).collect();
            let job = small::job_of(&mut c.rng, speeds, weights);
            let job = if k % 2 == 0 { job.unlimited() } else { small::held(&mut c.rng, &job) };
            let (separators, _) = fast::solve(&job);
            (job.file(), job::encode(&job::plan_of(&job, &separators)), if job.has_holds() { 3 } else { 4 })
        })
        .collect();
    c.jobs_seen += list.len() as u64;
    guard::note(Call::Host { method: 1 }, &[(list[0].0.as_ptr() as *mut u8, list[0].0.len()), (std::ptr::null_mut(), 0)]);
    let good = std::thread::scope(|scope| {
        let running: Vec<_> = list
            .iter()
            .map(|(file, wanted, methods)| {
                let work = move || {
                    (0..8u32).all(|k| {
                        let mut plan = vec![0xA5u8; LONGEST_PLAN];
                        let at = [(file.as_ptr() as *mut u8, file.len()), (plan.as_mut_ptr(), plan.len())];
                        let code = unsafe { planner::call(Call::Host { method: 1 + k % methods }, &at) };
                        let mut grade = [0xA5u8; 2];
                        let at = [at[0], at[1], (grade.as_mut_ptr(), grade.len())];
                        code == 0 && &plan == wanted && unsafe { planner::call(Call::HostGrade, &at) } == 0 && grade == [1, 0xA5]
                    })
                };
                std::thread::Builder::new().stack_size(96 << 10).spawn_scoped(scope, work).unwrap()
            })
            .collect();
        running.into_iter().map(|t| t.join().unwrap_or(false)).collect::<Vec<_>>()
    });
    guard::done();
    c.calls += 2 * 8 * list.len() as u64;
    for (k, ok) in good.iter().enumerate() {
        if !ok {
            c.fail("a wrong plan or grade from several threads at once", crate::check::describe(Call::Host { method: 0 }, &[&list[k].0, &[]]));
        }
    }
}
