//! What is measured: the shapes, and the records of each.
use crate::contest::{Contest, CONTESTS};
use crate::jobs::{Family, Holds, Shape, Size};
use crate::plain::{self, Bound, MAX_PROCESSORS, MAX_TASKS};
use crate::records;
use crate::sides::{planner, Job, BEST};

pub const FASTEST: [u32; 3] = [1, 4, 16];
/// The sizes of the ratios: N/P = 8, 32, 128, and few machines. At N/P = 8 the most machines have fewer tiles than a job may have.
pub const SIZES: [Size; 5] = [(8 * MAX_PROCESSORS, MAX_PROCESSORS), (MAX_TASKS, 64), (MAX_TASKS, 16), FEW, (MAX_TASKS / 8, 8)];
/// The sizes of halving's ratios, N/P = 8, 32, 128; the machines are a power of two. The first is one of the rows below.
pub const HALVED_SIZES: [Size; 3] = [(8 * 64, 64), (MAX_TASKS, 64), (MAX_TASKS, 16)];
/// The start-up work of the shapes of the second edition, about what a tile weighs, and their greatest speed.
pub const STARTUP: u32 = 1_000;
pub const SECOND_FASTEST: u32 = 4;
/// The greatest speed of the shapes with holds.
pub const HELD_FASTEST: u32 = 4;
/// How many machines, equal ones, the rows have whose quick plans are set beside the best plan.
pub const ROW_PROCESSORS: [usize; 5] = [4, 8, 16, 32, 64];
/// The contests on these rows: the four methods and both quick plans.
const ROW_CONTESTS: [&str; 7] = ["table", "bidding", "bisection", "Nicol", "quick plan", "halving", "halving by sides"];
/// Short strips on the longest row, by their tiles and the machines that the single trial comes to; the last ones are long.
const SHORT: [(Family, usize, usize); 14] = [
    (Family::Uniform, 1, 1),
    (Family::Uniform, 2, 2),
    (Family::Uniform, 3, 3),
    (Family::Uniform, 8, 8),
    (Family::Uniform, 24, 1),
    (Family::Uniform, 24, 2),
    (Family::Uniform, 24, 3),
    (Family::Uniform, 24, 6),
    (Family::Uniform, 24, 12),
    (Family::Uniform, 24, 24),
    (Family::Uniform, MAX_PROCESSORS, MAX_PROCESSORS),
    (Family::Front, MAX_TASKS, 1),
    (Family::Front, MAX_TASKS, 3),
    (Family::Uniform, MAX_TASKS, MAX_PROCESSORS),
];
/// The contests on those that have a tile for each machine come to, beside the single trial.
const SHORT_CONTESTS: [&str; 2] = ["bidding", "bisection"];
/// The sizes of the page's figures in microseconds: the largest job, and the most tiles on few machines.
pub const LARGEST: Size = (MAX_TASKS, MAX_PROCESSORS);
pub const FEW: Size = (MAX_TASKS, 8);
/// The place of the code of this build, of so many (see build.rs).
const PLACEMENT: &str = env!("PLACE");
pub const PLACEMENTS: [&str; 4] = ["0", "1", "2", "3"];
const GROWTH_TASKS: [usize; 4] = [256, 512, 1024, MAX_TASKS];
const GROWTH_PROCESSORS: [usize; 5] = [16, 32, 48, 64, MAX_PROCESSORS];

/// The shapes of the growth with N, at P = 64: lognormal weights, speeds 1 to 4.
pub fn growth_with_tasks() -> Vec<Shape> {
    GROWTH_TASKS.iter().map(|&tasks| Shape::new(Family::Lognormal, (tasks, 64), 4)).collect()
}

/// The same of the growth with P, at the most tiles.
pub fn growth_with_processors() -> Vec<Shape> {
    GROWTH_PROCESSORS.iter().map(|&processors| Shape::new(Family::Lognormal, (MAX_TASKS, processors), 4)).collect()
}

/// A row of equal machines with as many tiles as a job may have.
pub fn long_row(family: Family, processors: usize) -> Shape {
    Shape::new(family, (MAX_TASKS, processors), 1)
}

/// The same with 8 tiles a machine.
pub fn short_row(family: Family, processors: usize) -> Shape {
    Shape::new(family, (8 * processors, processors), 1)
}

/// Both, of every family and number of machines.
fn rows() -> Vec<Shape> {
    let mut rows = Vec::new();
    for family in Family::ALL {
        for processors in ROW_PROCESSORS {
            rows.extend([long_row(family, processors), short_row(family, processors)]);
        }
    }
    rows
}

/// The shapes of the second edition: the sizes of the ratios, and those of halving's.
pub fn second() -> Vec<Shape> {
    let mut shapes = Vec::new();
    for family in Family::ALL {
        shapes.extend(SIZES.map(|size| Shape::with_startup(family, size, SECOND_FASTEST, STARTUP)));
        shapes.extend(HALVED_SIZES.map(|size| Shape::with_startup(family, size, 1, STARTUP)));
    }
    shapes
}

/// The shapes with holds: the sizes of the ratios.
pub fn held() -> Vec<Shape> {
    let mut shapes = Vec::new();
    for family in Family::ALL {
        for holds in Holds::SET {
            shapes.extend(SIZES.map(|size| Shape::with_holds(family, size, HELD_FASTEST, holds)));
        }
    }
    shapes
}

pub fn short_strips() -> Vec<Shape> {
    SHORT.iter().map(|&(family, tasks, machines)| Shape::short(family, tasks, machines)).collect()
}

/// Those of them that are planned too: a tile for each machine come to.
pub fn planned_strips() -> Vec<Shape> {
    short_strips().into_iter().filter(|shape| shape.tasks == shape.machines).collect()
}

/// The shapes without start-up work and holds: the sizes of the ratios, and the largest job.
pub fn full() -> Vec<Shape> {
    let mut shapes = Vec::new();
    for family in Family::ALL {
        for fastest in FASTEST {
            for size in SIZES.into_iter().chain([LARGEST]) {
                shapes.push(Shape::new(family, size, fastest));
            }
        }
    }
    shapes
}

/// Every shape that is measured in all contests that take it, each once.
fn shapes() -> Vec<Shape> {
    let mut shapes = full();
    for shape in growth_with_tasks().into_iter().chain(growth_with_processors()) {
        if !shapes.contains(&shape) {
            shapes.push(shape);
        }
    }
    shapes
}

/// What is measured: each shape once, with its contests.
fn measured() -> Vec<(Shape, Vec<&'static Contest>)> {
    let full = shapes();
    let mut measured = Vec::new();
    for &shape in &full {
        measured.push((shape, CONTESTS.iter().filter(|contest| contest.takes(shape)).collect()));
    }
    for shape in rows().into_iter().filter(|shape| !full.contains(shape)) {
        measured.push((shape, CONTESTS.iter().filter(|contest| ROW_CONTESTS.contains(&contest.name)).collect()));
    }
    // Rows that can be halved are for halving alone here.
    for shape in second() {
        measured.push((shape, CONTESTS.iter().filter(|contest| contest.halved == shape.halves()).collect()));
    }
    for shape in held() {
        measured.push((shape, CONTESTS.iter().filter(|contest| contest.takes(shape)).collect()));
    }
    let planned = planned_strips();
    for shape in short_strips() {
        let takes = |contest: &&Contest| {
            contest.name == "trial" || (SHORT_CONTESTS.contains(&contest.name) && planned.contains(&shape))
        };
        measured.push((shape, CONTESTS.iter().filter(takes).collect()));
    }
    measured
}

/// The shapes whose instructions are counted: those of the ratios, and short strips.
pub fn print_shapes() {
    for (shape, _) in measured() {
        let halved = shape.halves() && HALVED_SIZES.contains(&shape.size());
        if SIZES.contains(&shape.size()) || halved || shape.machines > 0 {
            let Shape { family, tasks, processors, fastest, startup, holds, machines } = shape;
            println!("{} {tasks} {processors} {fastest} {startup} {} {machines}", family.name(), holds.name());
        }
    }
}

fn total_weight(job: &Job) -> u64 {
    job.weights.iter().map(|&w| w as u64).sum()
}

/// By how much a bottleneck is above the ideal, as a part of the ideal.
fn excess(job: &Job, found: Bound) -> f64 {
    let all: u64 = job.speeds.iter().map(|&e| e as u64).sum();
    (found.load as f64 * all as f64) / (found.speed as f64 * total_weight(job) as f64) - 1.0
}

/// The same in thousandths, rounded up, as a plan's imbalance is.
fn thousandths(job: &Job, found: Bound) -> f64 {
    plain::imbalance(&job.speeds, total_weight(job), found) as f64
}

/// The same of the most that halving may have, Wtot/P + heaviest × (P − 1)/P and the start-up work on a machine; it must not have more.
fn halving_bound(job: &Job, found: Bound) -> f64 {
    let heaviest = job.weights.iter().copied().max().unwrap_or(0) as u64;
    let machines = job.speeds.len() as u64;
    let startups = job.startup as u64 * machines;
    let most = Bound { load: total_weight(job) + heaviest * (machines - 1) + startups, speed: machines * found.speed };
    assert!(found.load * machines <= most.load, "halving: above its bound");
    thousandths(job, most)
}

/// Times of all sides, and what the answers say of counts, allowances and imbalances.
fn measure(shape: Shape, contests: &[&Contest]) {
    for contest in contests {
        let jobs = shape.jobs(contest.jobs);
        let answers = contest.compare(&jobs);
        let times = if shape.machines > 0 { contest.time_rounds(&jobs) } else { contest.time(&jobs) };
        for (side, times) in contest.sides.iter().zip(&times) {
            records::write("time", side.0, shape, times);
        }
        let sums: Vec<f64> = times.iter().map(|times| times.iter().sum()).collect();
        records::write("ratio", contest.sides[1].0, shape, &[sums[0] / sums[1]]);
        records::write(&records::placed(PLACEMENT), contest.sides[1].0, shape, &[sums[0] / sums[1]]);
        let fact = |name: &str, values: Vec<f64>| {
            records::write("fact", &format!("{} {name}", contest.name), shape, &values);
        };
        let bottleneck = match contest.answers {
            5 => 2,
            2 => 0,
            1 => {
                fact("best", answers.iter().map(|a| (a[0] == BEST) as u32 as f64).collect());
                continue;
            }
            0 => continue,
            _ => {
                let meant = |answer: &Vec<u64>| answer[..2] == [1, shape.machines as u64];
                assert!(shape.machines == 0 || answers.iter().all(meant), "trial: another number of machines");
                continue;
            }
        };
        let found = answers.iter().map(|a| Bound { load: a[bottleneck], speed: a[bottleneck + 1] });
        let parts: Vec<(&Job, Bound)> = jobs.iter().zip(found).collect();
        fact("imbalance", parts.iter().map(|&(job, found)| excess(job, found)).collect());
        if shape.halves() {
            fact("thousandths", parts.iter().map(|&(job, found)| thousandths(job, found)).collect());
            fact("load", parts.iter().map(|part| part.1.load as f64).collect());
        }
        if contest.halved {
            fact("bound", parts.iter().map(|&(job, found)| halving_bound(job, found)).collect());
        }
        if contest.answers == 5 {
            fact("count", answers.iter().map(|a| a[0] as f64).collect());
            fact("allowance", answers.iter().map(|a| a[1] as f64).collect());
            fact("most", vec![answers.iter().map(|a| a[0] as f64 / a[1] as f64).fold(0.0, f64::max)]);
        }
    }
}

pub fn all() {
    let measured = measured();
    for (k, (shape, contests)) in measured.iter().enumerate() {
        eprint!("\r  shape {} of {}   ", k + 1, measured.len());
        measure(*shape, contests);
    }
    eprintln!();
}

/// So many jobs of a shape are compared where nothing is timed.
const CHECKED: usize = 12;
/// Sizes that are compared beside those measured: the least ones, and such as are no multiple of a block or of four.
const ODD: [Size; 9] = [(0, 1), (1, 1), (6, 1), (0, MAX_PROCESSORS), (1, MAX_PROCESSORS), (35, 17), (33, 16), (101, 34), (MAX_TASKS - 1, 95)];

/// Compares the answers of both sides on every shape, on odd sizes, and the C call's on changed files.
pub fn check() {
    let mut shapes = measured();
    let kinds = [(0, Holds::None), (STARTUP, Holds::None), (0, Holds::All), (0, Holds::Few), (STARTUP, Holds::All)];
    for size in ODD {
        for (startup, holds) in kinds {
            for family in Family::ALL {
                let shape = Shape { startup, holds, ..Shape::new(family, size, HELD_FASTEST) };
                shapes.push((shape, CONTESTS.iter().filter(|contest| contest.takes(shape)).collect()));
            }
        }
    }
    let mut compared = 0;
    for (shape, contests) in &shapes {
        let jobs = shape.jobs(CHECKED);
        for contest in contests {
            compared += contest.compare(&jobs).len();
        }
    }
    println!("{} shapes, {compared} calls of each side: equal answers", shapes.len());
    println!("{} changed job files: equal answers of the C call", check_files());
}

/// The C call on job files in which a byte is changed, or that have a record more or less, or too short a buffer.
fn check_files() -> usize {
    let mut tried = 0;
    let mut same = |file: &[u8], room: usize| {
        let mut plans = [vec![11; room], vec![11; room]];
        let [first, second] = &mut plans;
        let answers = (planner::call_on(file, first), plain::plan_job(file, second).err().unwrap_or(0));
        assert_eq!(answers.0, answers.1, "C call: another answer");
        assert_eq!(plans[0], plans[1], "C call: another plan");
        tried += 1;
    };
    let most = plain::PLAN_RECORD * MAX_PROCESSORS;
    for (startup, holds) in [(0, Holds::None), (STARTUP, Holds::None), (0, Holds::All), (STARTUP, Holds::Few)] {
        let shape = Shape { startup, holds, ..Shape::new(Family::Lognormal, (21, 9), HELD_FASTEST) };
        for job in shape.jobs(2) {
            let file = &job.file;
            for at in 0..file.len() {
                for byte in [0, 1, 2, 3, 4, 39, 128, 255] {
                    let mut changed = file.clone();
                    changed[at] = byte;
                    same(&changed, most);
                }
                same(&file[..at], most);
                same(&file[at..], most);
            }
            for room in 0..=plain::PLAN_RECORD * shape.processors {
                same(file, room);
            }
            let (front, behind) = file.split_at(plain::RECORD * ((startup > 0) as usize + 1));
            for repeated in [MAX_PROCESSORS - shape.processors, MAX_PROCESSORS - shape.processors + 1] {
                let machines = front[front.len() - plain::RECORD..].repeat(repeated);
                same(&[front, &machines, behind].concat(), most);
            }
            for repeated in [MAX_TASKS - shape.tasks, MAX_TASKS - shape.tasks + 1] {
                let tiles = file[file.len() - plain::RECORD..].repeat(repeated);
                same(&[file, &tiles[..]].concat(), most);
            }
        }
    }
    tried
}
