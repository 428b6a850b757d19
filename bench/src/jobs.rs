//! The jobs that are measured: three families of weights, three ranges of speeds, with start-up work or without, with holds or without, and
//! short strips; from a seed.
use crate::plain::{self, Bound, Method, Outcome, MAX_PROCESSORS, MAX_WEIGHT};
use crate::sides::{Job, Room};

const SEED: u64 = 1;

/// splitmix64.
struct Random(u64);

impl Random {
    fn new(seed: u64) -> Random {
        Random(seed)
    }

    fn next(&mut self) -> u64 {
        self.0 = self.0.wrapping_add(0x9e37_79b9_7f4a_7c15);
        let mut z = self.0;
        z = (z ^ (z >> 30)).wrapping_mul(0xbf58_476d_1ce4_e5b9);
        z = (z ^ (z >> 27)).wrapping_mul(0x94d0_49bb_1331_11eb);
        z ^ (z >> 31)
    }

    /// A whole number from lo to hi.
    fn between(&mut self, lo: u32, hi: u32) -> u32 {
        lo + (self.next() % (hi - lo + 1) as u64) as u32
    }

    /// A number above 0 and at most 1.
    fn unit(&mut self) -> f64 {
        ((self.next() >> 11) + 1) as f64 / (1u64 << 53) as f64
    }

    /// A standard normal number (Box and Muller).
    fn normal(&mut self) -> f64 {
        let radius = (-2.0 * self.unit().ln()).sqrt();
        radius * (std::f64::consts::TAU * self.unit()).cos()
    }
}

/// A family of weights; `Front` is for short strips alone: near-uniform at first, then 0.
#[derive(Clone, Copy, Debug, PartialEq, Eq, Hash)]
pub enum Family {
    Uniform,
    Lognormal,
    Heavy,
    Front,
}

/// How many tiles of `Front` have weight.
pub const FRONT: usize = 3;

impl Family {
    pub const ALL: [Family; 3] = [Family::Uniform, Family::Lognormal, Family::Heavy];

    pub fn name(self) -> &'static str {
        match self {
            Family::Uniform => "near-uniform",
            Family::Lognormal => "lognormal",
            Family::Heavy => "heavy-tailed",
            Family::Front => "front",
        }
    }

    pub fn named(name: &str) -> Option<Family> {
        Family::ALL.into_iter().chain([Family::Front]).find(|family| family.name() == name)
    }

    /// The weight of the tile that has so many before it.
    fn weight(self, tile: usize, random: &mut Random) -> u32 {
        let drawn = match self {
            Family::Front if tile >= FRONT => 0.0,
            Family::Uniform | Family::Front => random.between(900, 1100) as f64,
            Family::Lognormal => 1000.0 * random.normal().exp(),
            Family::Heavy => 100.0 * random.unit().powf(-1.0 / 1.1),
        };
        drawn.min(MAX_WEIGHT as f64) as u32
    }
}

/// What the machines hold: no limit; each half as many tiles more as there are to a machine; or every eighth machine, the last one among
/// them, a quarter of these, and the others no limit.
#[derive(Clone, Copy, Debug, PartialEq, Eq, Hash)]
pub enum Holds {
    None,
    All,
    Few,
}

impl Holds {
    pub const SET: [Holds; 2] = [Holds::All, Holds::Few];

    pub fn name(self) -> &'static str {
        match self {
            Holds::None => "none",
            Holds::All => "all",
            Holds::Few => "few",
        }
    }

    pub fn named(name: &str) -> Option<Holds> {
        [Holds::None, Holds::All, Holds::Few].into_iter().find(|holds| holds.name() == name)
    }

    fn list(self, (tasks, processors): Size) -> Vec<u16> {
        let each = tasks.div_ceil(processors);
        let hold = |p: usize| match self {
            Holds::All => each + each.div_ceil(2),
            Holds::Few if p % 8 == 7 => each.div_ceil(4),
            _ => 0,
        };
        (0..processors).map(|p| hold(p) as u16).collect()
    }
}

/// N and P of a job.
pub type Size = (usize, usize);

/// A shape of job: N tasks, P processors, speeds from 1 to `fastest`. Without start-up work it is of the first edition, with some of
/// the second. Where any hold is set, Nicol's search and the quick plans are not for it. Of a short strip `machines` is how many machines its single trial comes to, else it is 0.
#[derive(Clone, Copy, Debug, PartialEq, Eq, Hash)]
pub struct Shape {
    pub family: Family,
    pub tasks: usize,
    pub processors: usize,
    pub fastest: u32,
    pub startup: u32,
    pub holds: Holds,
    pub machines: usize,
}

impl Shape {
    /// A shape of the first edition.
    pub fn new(family: Family, size: Size, fastest: u32) -> Shape {
        Shape::with_startup(family, size, fastest, 0)
    }

    pub fn with_startup(family: Family, (tasks, processors): Size, fastest: u32, startup: u32) -> Shape {
        Shape { family, tasks, processors, fastest, startup, holds: Holds::None, machines: 0 }
    }

    /// A shape of the first edition with holds.
    pub fn with_holds(family: Family, size: Size, fastest: u32, holds: Holds) -> Shape {
        Shape { holds, ..Shape::new(family, size, fastest) }
    }

    /// A short strip on the longest row, of equal machines.
    pub fn short(family: Family, tasks: usize, machines: usize) -> Shape {
        Shape { machines, ..Shape::new(family, (tasks, MAX_PROCESSORS), 1) }
    }

    pub fn size(&self) -> Size {
        (self.tasks, self.processors)
    }

    pub fn speeds_name(&self) -> String {
        match self.fastest {
            1 => "equal".to_string(),
            fastest => format!("1–{fastest}"),
        }
    }

    /// Whether its rows can be halved: equal machines, a power of two of them.
    pub fn halves(&self) -> bool {
        self.fastest == 1 && self.processors.is_power_of_two()
    }

    /// The first jobs of the shape, always the same ones. By turns the best plan and another one are graded.
    pub fn jobs(&self, count: usize) -> Vec<Job> {
        let mut random = Random::new(SEED);
        (0..count).map(|k| self.job(&mut random, k % 2 == 0)).collect()
    }

    /// A job, with a bound for its trial that lies near the least bottleneck: the ideal, the start-up work of every machine, and a
    /// random part of the heaviest weight, over the mean speed; with holds 90 to 110 hundredths of the least bottleneck. Some trials fit,
    /// some fail. Those of a short strip fit: the bound is the least one at which the machines that are to be come to take all tiles.
    fn job(&self, random: &mut Random, best: bool) -> Job {
        let weights: Vec<u32> = (0..self.tasks).map(|tile| self.family.weight(tile, random)).collect();
        let speeds: Vec<u32> = (0..self.processors).map(|_| random.between(1, self.fastest)).collect();
        let total: u64 = weights.iter().map(|&w| w as u64).sum();
        let heaviest = weights.iter().copied().max().unwrap_or(0) as u64;
        let speed: u64 = speeds.iter().map(|&e| e as u64).sum();
        let part = random.between(0, 100) as u64;
        let extra = heaviest * self.processors as u64 * part / 100;
        let startups = self.startup as u64 * self.processors as u64;
        let holds = self.holds.list(self.size());
        let trial = Bound { load: total + startups + extra, speed };
        let (file, plan) = (Vec::new(), Vec::new());
        let mut job = Job { second: self.startup > 0, startup: self.startup, speeds, holds, weights, file, trial, plan };
        job.file = job_file(&job);
        if self.machines > 0 {
            job.trial = least_bound(&job, self.machines);
        } else if self.holds != Holds::None {
            let least = least_bound(&job, self.processors);
            job.trial = Bound { load: least.load * (450 + part), speed: least.speed * 500 };
        }
        job.plan = plan_file(&job, best);
        job
    }
}

/// The job file.
fn job_file(job: &Job) -> Vec<u8> {
    let record = |kind: u8, hold: u16, value: u32| (value as u64) << 32 | (hold as u64) << 16 | kind as u64;
    let startup = job.second.then(|| record(plain::STARTUP, 0, job.startup));
    let machines = job.speeds.iter().zip(&job.holds).map(|(&speed, &hold)| record(plain::MACHINE, hold, speed));
    let tiles = job.weights.iter().map(|&weight| record(plain::TILE, 0, weight));
    startup.into_iter().chain(machines).chain(tiles).flat_map(u64::to_le_bytes).collect()
}

/// The least bottleneck on the first machines, by plain Rust.
fn least_bound(job: &Job, machines: usize) -> Bound {
    let mut room = Room::new();
    let (separators, scratch) = (&mut room.separators, &mut room.scratch);
    let (speeds, holds) = (&job.speeds[..machines], &job.holds[..machines]);
    let planned = plain::plan(Method::Bisection, job.second, job.startup, speeds, holds, &job.weights, separators, scratch);
    planned.expect("no refusal").bottleneck
}

/// The plan file of the best plan, or of another: the quick plan, with holds what a trial at twice the least bottleneck gives. By plain Rust.
fn plan_file(job: &Job, best: bool) -> Vec<u8> {
    let mut room = Room::new();
    let (separators, scratch) = (&mut room.separators, &mut room.scratch);
    if best {
        let planned = plain::plan(Method::Bisection, job.second, job.startup, &job.speeds, &job.holds, &job.weights, separators, scratch);
        assert!(planned.is_ok(), "refused");
    } else if job.holds.iter().all(|&hold| hold == 0) {
        let quick = plain::heuristic(job.lists(), separators);
        assert!(quick.is_ok(), "refused");
    } else {
        let least = least_bound(job, job.speeds.len());
        let twice = Bound { load: 2 * least.load, ..least };
        let outcome = plain::probe(job.lists(), twice, separators);
        assert!(matches!(outcome, Ok(Outcome::Fits(_))), "no fit");
    }
    plain::plan_file(job.startup, &job.speeds, &job.weights, &room.separators)
}
