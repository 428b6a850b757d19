//! What every call must answer and leave behind, on any input, by the scope (docs/SCOPE.md).

use crate::job::{self, Job};
use crate::limits::{self, BOUND_LOAD, BOUND_SPEED, MACHINES, SPEED, STARTUP, TILES, WEIGHT};
use crate::methods::{self, Search};
use crate::planner::{Call, Edition};
use crate::slow::{self, Bound};
use crate::{damage, fast, grading, halving, listing};

/// What a lent list holds after a call: this in front, then `free` bytes with anything, then what it held.
#[derive(Clone, Debug, Default)]
pub struct After {
    pub front: Vec<u8>,
    pub free: usize,
}

/// A plan as expected, of a job whose holds leave room: separators, bottleneck, counts by method, imbalance; the quick plan of its tiles and
/// speeds, and how the search of method 4 went. With holds there is no such search, its count is 0, and the quick plan may break them.
#[derive(Clone, Debug)]
pub struct Solved {
    pub job: Job,
    pub best: Vec<usize>,
    pub bottleneck: Bound,
    pub counts: [u64; 4],
    pub imbalance: u64,
    pub quick: Vec<usize>,
    pub search: Option<Search>,
}

/// The plan's division and its bottleneck: of tiny jobs by every division, of others by the fast reference.
pub fn best(job: &Job) -> (Vec<usize>, Bound) {
    if damage::is_tiny(job) {
        slow::solve(job)
    } else {
        fast::solve(job)
    }
}

impl Solved {
    /// Tiny jobs by every division, by the table itself and by each j in turn, others by the fast reference.
    pub fn of(job: &Job) -> Solved {
        let tiny = damage::is_tiny(job);
        let (best, bottleneck) = best(job);
        let moves = if tiny { methods::moves_by_table(job) } else { methods::moves_by_walks(job) };
        let search = match job.has_holds() {
            true => None,
            false if tiny => Some(methods::search_in_turn(job)),
            false => Some(methods::search_by_sums(job)),
        };
        let counts = [moves, methods::bids(job), methods::halvings(job), search.as_ref().map_or(0, |s| s.trials)];
        let imbalance = methods::imbalance(job, bottleneck);
        assert!(methods::is_imbalance(job, bottleneck, imbalance), "{} is not the imbalance of {:?}", imbalance, job);
        Solved { job: job.clone(), best, bottleneck, counts, imbalance, quick: methods::quick(job), search }
    }
}

pub fn words(bytes: &[u8]) -> Vec<u32> {
    bytes.chunks_exact(4).map(|b| u32::from_le_bytes(b.try_into().unwrap())).collect()
}

/// Entries of 16 bits.
pub fn halves(bytes: &[u8]) -> Vec<u16> {
    bytes.chunks_exact(2).map(|b| u16::from_le_bytes(b.try_into().unwrap())).collect()
}

pub fn bytes_of_holds(list: &[u16]) -> Vec<u8> {
    list.iter().flat_map(|v| v.to_le_bytes()).collect()
}

pub fn bytes_of(list: &[u32]) -> Vec<u8> {
    list.iter().flat_map(|v| v.to_le_bytes()).collect()
}

fn front(list: &[usize]) -> After {
    After { front: list.iter().flat_map(|&v| (v as u32).to_le_bytes()).collect(), free: 0 }
}

/// The numbers that an answer holds, as far as the lent list goes.
fn answer(lent: &[u8], numbers: &[u128]) -> After {
    let mut bytes: Vec<u8> = numbers.iter().flat_map(|&v| (v as u64).to_le_bytes()).collect();
    bytes.truncate(lent.len());
    After { front: bytes, free: 0 }
}

/// The tests of a job by lists: the start-up work of the second edition before all speeds, that of the first not at all.
pub fn refuse_lists(edition: Edition, speeds: &[u32], weights: &[u32]) -> u32 {
    let found = [
        (edition.second && edition.startup > STARTUP, 16),
        (speeds.iter().any(|&e| e == 0 || e > SPEED), 5),
        (weights.iter().any(|&w| w > WEIGHT), 6),
        (speeds.is_empty() || speeds.len() > MACHINES, 7),
        (weights.len() > TILES, 8),
    ];
    found.iter().find(|(bad, _)| *bad).map_or(0, |(_, number)| *number)
}

/// Whether the separators never fall, from 0 to N, and each share keeps the hold of its machine.
pub fn is_division(job: &Job, separators: &[u32]) -> bool {
    let (last, tiles) = (separators[separators.len() - 1] as usize, job.weights.len());
    let keeps = |p: usize| job.keeps(p, separators[p] as usize, separators[p + 1] as usize);
    let rises = separators[0] == 0 && separators.windows(2).all(|s| s[0] <= s[1]) && last == tiles;
    rises && (0..job.speeds.len()).all(keeps)
}

/// What a call must give: the lists afterwards in the order of its slots, or the number of the refusal.
pub fn expected(call: Call, given: &[&[u8]], solved: Option<&Solved>) -> Result<Vec<After>, u32> {
    match call {
        Call::Read => read(given),
        Call::Host { method } => host(method, given, solved),
        Call::List => listed(given),
        Call::HostGrade => host_graded(given, solved),
        Call::Plan(_, method) if !(1..=4).contains(&method) => Err(1),
        _ => {
            let (edition, speeds, weights) = (call.edition().unwrap(), words(given[0]), words(given[2]));
            match refuse_lists(edition, &speeds, &weights) {
                0 => by_lists(call, edition, speeds, weights, given, solved),
                number => Err(number),
            }
        }
    }
}

/// The next tests of a job by lists: a row to be halved, then the list of holds, of which there is one for each machine, or more.
fn by_lists(
    call: Call,
    edition: Edition,
    speeds: Vec<u32>,
    weights: Vec<u32>,
    given: &[&[u8]],
    solved: Option<&Solved>,
) -> Result<Vec<After>, u32> {
    if matches!(call, Call::Halving(_)) && !halving::can_halve(&speeds) {
        return Err(14);
    }
    let mut holds = halves(given[1]);
    if holds.len() < speeds.len() {
        return Err(9);
    }
    holds.truncate(speeds.len());
    accepted(call, Job { startup: edition.counts(), speeds, holds, weights }, given, solved)
}

fn read(given: &[&[u8]]) -> Result<Vec<After>, u32> {
    let job = job::read(given[0], 1, usize::MAX)?;
    let (speeds, holds, weights) = (bytes_of(&job.speeds), bytes_of_holds(&job.holds), bytes_of(&job.weights));
    if given[1].len() < speeds.len() || given[2].len() < holds.len() || given[3].len() < weights.len() {
        return Err(9);
    }
    let edition = if job.is_second() { 2 } else { 1 };
    let counts = answer(given[4], &[edition, job.c(), job.speeds.len() as u128, job.weights.len() as u128]);
    let list = |front: Vec<u8>| After { front, free: 0 };
    Ok(vec![After::default(), list(speeds), list(holds), list(weights), counts])
}

/// The tests of the holds themselves, past that of their list: 17 where they leave no room for all tiles, then 18 for what is not made with
/// holds.
pub fn refuse_holds(job: &Job, unlimited_only: bool) -> Result<(), u32> {
    if !job.has_room() {
        return Err(17);
    }
    if unlimited_only && job.has_holds() {
        return Err(18);
    }
    Ok(())
}

fn host(method: u32, given: &[&[u8]], solved: Option<&Solved>) -> Result<Vec<After>, u32> {
    let job = job::read(given[0], method, given[1].len())?;
    refuse_holds(&job, method == 4)?;
    let own;
    let best = match solved {
        Some(s) if s.job == job => &s.best,
        _ => {
            own = best(&job).0;
            &own
        }
    };
    let plan = job::encode(&job::plan_of(&job, best));
    Ok(vec![After::default(), After { front: plan, free: 0 }])
}

/// Grading by the C call: the file's tests, then those of the grade buffer, then those of the plan file.
fn host_graded(given: &[&[u8]], solved: Option<&Solved>) -> Result<Vec<After>, u32> {
    let job = job::read(given[0], 1, usize::MAX)?;
    if given[2].is_empty() {
        return Err(9);
    }
    let grade = grading::grade(&job, given[1], solved)?;
    Ok(vec![After::default(), After::default(), After { front: vec![grade.number()], free: 0 }])
}

/// The listing, in a buffer with room for every one.
fn listed(given: &[&[u8]]) -> Result<Vec<After>, u32> {
    if given[1].len() < limits::LISTING {
        return Err(9);
    }
    let text = listing::wanted(given[0]).into_bytes();
    let bytes = text.len() as u128;
    Ok(vec![After::default(), After { front: text, free: 0 }, answer(given[2], &[bytes])])
}

/// The calls on lists, where the job itself is accepted.
fn accepted(call: Call, job: Job, given: &[&[u8]], solved: Option<&Solved>) -> Result<Vec<After>, u32> {
    let stays = After::default;
    let (machines, tiles) = (job.speeds.len(), job.weights.len());
    let file_bytes = limits::job_bytes(job.is_second(), machines, tiles);
    match call {
        Call::Test(_) => return Ok(vec![stays(), stays(), stays()]),
        Call::Write(_) if given[3].len() < file_bytes => return Err(9),
        Call::Write(_) => {
            let file = After { front: job.file(), free: 0 };
            return Ok(vec![stays(), stays(), stays(), file, answer(given[4], &[file_bytes as u128])]);
        }
        Call::Grade(_) => {
            let grade = grading::grade(&job, given[3], solved)?;
            return Ok(vec![stays(), stays(), stays(), stays(), answer(given[4], &[grade.number() as u128])]);
        }
        _ => {}
    }
    let separators = words(given[3]);
    let short = match call {
        Call::Plan(..) => given[4].len() < 4 * limits::work_numbers(tiles),
        Call::PlanFile(_) => given[4].len() < limits::plan_bytes(machines),
        _ => false,
    };
    if separators.len() < machines + 1 || short {
        return Err(9);
    }
    match call {
        Call::Trial(_, load, speed) => tried(&job, load, speed, given),
        Call::Measure(_) | Call::PlanFile(_) => divided(call, &job, &separators[..machines + 1], given),
        // The quick plans make no test of the room.
        Call::Quick(_) | Call::Halving(_) if job.has_holds() => Err(18),
        Call::Halving(_) => Ok(written(&job, &halving::in_turn(&job).separators, given)),
        _ => solved_answer(call, job, given, solved),
    }
}

fn tried(job: &Job, load: u64, speed: u64, given: &[&[u8]]) -> Result<Vec<After>, u32> {
    refuse_holds(job, false)?;
    if load > BOUND_LOAD || speed == 0 || speed > BOUND_SPEED {
        return Err(10);
    }
    let found = methods::trial(job, (load as u128, speed as u128));
    let said = match found.machines {
        Some(machines) => vec![1, machines as u128],
        None => {
            let next = found.next.unwrap_or_else(|| panic!("no bid at {}/{} for {:?}", load, speed, job));
            vec![0, next.0, next.1]
        }
    };
    let stays = After::default;
    Ok(vec![stays(), stays(), stays(), front(&found.separators), answer(given[4], &said)])
}

fn divided(call: Call, job: &Job, separators: &[u32], given: &[&[u8]]) -> Result<Vec<After>, u32> {
    if !is_division(job, separators) {
        return Err(11);
    }
    let stays = After::default;
    let division: Vec<usize> = separators.iter().map(|&s| s as usize).collect();
    if matches!(call, Call::Measure(_)) {
        let found = slow::bottleneck(job, &division);
        return Ok(vec![stays(), stays(), stays(), stays(), answer(given[4], &[found.0, found.1])]);
    }
    let plan = job::encode(&job::plan_of(job, &division));
    let bytes = plan.len() as u128;
    Ok(vec![stays(), stays(), stays(), stays(), After { front: plan, free: 0 }, answer(given[5], &[bytes])])
}

/// The quick plan and halving the row: the separators, and their bottleneck for an answer.
fn written(job: &Job, separators: &[usize], given: &[&[u8]]) -> Vec<After> {
    let (found, stays) = (slow::bottleneck(job, separators), After::default);
    vec![stays(), stays(), stays(), front(separators), answer(given[4], &[found.0, found.1])]
}

/// The quick plan and the plan by a method.
fn solved_answer(call: Call, job: Job, given: &[&[u8]], solved: Option<&Solved>) -> Result<Vec<After>, u32> {
    refuse_holds(&job, matches!(call, Call::Plan(_, 4)))?;
    let own;
    let s = match solved {
        Some(s) if s.job == job => s,
        _ => {
            own = Solved::of(&job);
            &own
        }
    };
    let stays = After::default;
    let Call::Plan(_, method) = call else {
        return Ok(written(&job, &s.quick, given));
    };
    let work = After { front: Vec::new(), free: 4 * limits::work_numbers(job.weights.len()) };
    let figures = [
        s.counts[method as usize - 1] as u128,
        methods::allowance(&job, method) as u128,
        s.bottleneck.0,
        s.bottleneck.1,
        s.imbalance as u128,
    ];
    Ok(vec![stays(), stays(), stays(), front(&s.best), work, answer(given[5], &figures)])
}
