//! A host in Rust: plans job A of the documents by lists, prints what each machine takes and the bottleneck, plans it with start-up work and
//! with a hold, then shows refusals. What the parameters are stands in include/pelshaqu.h.

extern "C" {
    #[rustfmt::skip]
    fn pelshaqu_plan(
        method: u32, second: bool, startup: u32, speeds: *const u32, speeds_len: usize, holds: *const u16, holds_len: usize,
        weights: *const u32, weights_len: usize, separators: *mut u32, separators_len: usize, work: *mut u32, work_len: usize,
        answer: *mut u64, answer_len: usize,
    ) -> u32;
}

/// The methods by their numbers. If unsure: bisection.
const BISECTION: u32 = 3;
const NICOL: u32 = 4;

/// A job. It is of the second edition where it has start-up work; a hold of 0 is no limit.
#[derive(Clone, Copy)]
struct Job<'a> {
    startup: Option<u32>,
    speeds: &'a [u32],
    holds: &'a [u16],
    weights: &'a [u32],
}

/// A best division: machine p, counted from 0, takes the tiles `separators[p] + 1` to `separators[p + 1]`; and the bottleneck.
struct Plan {
    separators: Vec<u32>,
    load: u64,
    speed: u64,
}

/// Plans a job by a method, or gives the number of the refusal.
#[rustfmt::skip]
fn plan(method: u32, job: Job) -> Result<Plan, u32> {
    let Job { startup, speeds, holds, weights } = job;
    let mut separators = vec![0; speeds.len() + 1];
    let mut work = vec![0; 5 * (weights.len() + 1)];
    let mut answer = [0; 5];
    // SAFETY: each pointer comes with the length of its list, and no list that is written overlaps with another.
    let number = unsafe {
        pelshaqu_plan(
            method, startup.is_some(), startup.unwrap_or(0), speeds.as_ptr(), speeds.len(), holds.as_ptr(), holds.len(),
            weights.as_ptr(), weights.len(), separators.as_mut_ptr(), separators.len(), work.as_mut_ptr(), work.len(),
            answer.as_mut_ptr(), answer.len(),
        )
    };
    match number {
        0 => Ok(Plan { separators, load: answer[2], speed: answer[3] }),
        refused => Err(refused),
    }
}

fn print(what: &str, method: u32, job: Job) {
    println!("{what}:");
    match plan(method, job) {
        Err(number) => println!("  refused with {number}"),
        Ok(plan) => {
            for (p, ends) in plan.separators.windows(2).enumerate() {
                match ends[1] - ends[0] {
                    0 => println!("  machine {} takes nothing", p + 1),
                    1 => println!("  machine {} takes tile {}", p + 1, ends[1]),
                    _ => println!("  machine {} takes tiles {} to {}", p + 1, ends[0] + 1, ends[1]),
                }
            }
            println!("  bottleneck {}/{}", plan.load, plan.speed);
        }
    }
}

fn main() {
    let a = Job { startup: None, speeds: &[1, 3], holds: &[0, 0], weights: &[1, 3, 8] };
    let held = Job { holds: &[0, 1], ..a };
    print("job A", BISECTION, a);
    print("with start-up work 5", BISECTION, Job { startup: Some(5), ..a });
    print("where machine 2 holds one tile", BISECTION, held);
    print("that by method 4", NICOL, held);
    print("where both hold one tile", BISECTION, Job { holds: &[1, 1], ..a });
    print("with one hold for two machines", BISECTION, Job { holds: &[0], ..a });
    print("with a machine of speed 0", BISECTION, Job { speeds: &[1, 0], ..a });
    print("without machines", BISECTION, Job { speeds: &[], holds: &[], ..a });
    print("by method 5", 5, a);
}
