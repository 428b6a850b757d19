//! A contest: the calls of both sides that do the same work, compared for equality, then timed in turn on the same jobs.
use crate::jobs::{Holds, Shape};
use crate::sides::{self, planner, Call, Job, Room};
use std::time::{Duration, Instant};

/// How long a contest goes on, and the least and the most repetitions of it.
const BUDGET: Duration = Duration::from_millis(80);
const LEAST: usize = 2;
const MOST: usize = 30;
/// The most rounds of the jobs of a short strip.
const ROUNDS: usize = 1000;

pub struct Contest {
    pub name: &'static str,
    pub sides: [(&'static str, Call); 2],
    /// How many entries of the answer count.
    pub answers: usize,
    /// How many jobs are gone round: many where a call is short, so that no branch is learnt by heart.
    pub jobs: usize,
    /// Whether it is for rows alone that can be halved.
    pub halved: bool,
    /// Whether it is for jobs with holds too.
    pub held: bool,
}

pub const CONTESTS: [Contest; 10] = [
    Contest {
        name: "table",
        sides: [("planner_table", planner::planner_table), ("plain_table", sides::plain_table)],
        answers: 5,
        jobs: 12,
        halved: false,
        held: true,
    },
    Contest {
        name: "bidding",
        sides: [("planner_bidding", planner::planner_bidding), ("plain_bidding", sides::plain_bidding)],
        answers: 5,
        jobs: 12,
        halved: false,
        held: true,
    },
    Contest {
        name: "bisection",
        sides: [
            ("planner_bisection", planner::planner_bisection),
            ("plain_bisection", sides::plain_bisection),
        ],
        answers: 5,
        jobs: 64,
        halved: false,
        held: true,
    },
    Contest {
        name: "Nicol",
        sides: [("planner_nicol", planner::planner_nicol), ("plain_nicol", sides::plain_nicol)],
        answers: 5,
        jobs: 12,
        halved: false,
        held: false,
    },
    Contest {
        name: "quick plan",
        sides: [("planner_quick", planner::planner_quick), ("plain_quick", sides::plain_quick)],
        answers: 2,
        jobs: 64,
        halved: false,
        held: false,
    },
    Contest {
        name: "halving",
        sides: [("planner_halving", planner::planner_halving), ("plain_halving", sides::plain_halving)],
        answers: 2,
        jobs: 64,
        halved: true,
        held: false,
    },
    Contest {
        name: "halving by sides",
        sides: [("planner_halving", planner::planner_halving), ("plain_halvingsides", sides::plain_halvingsides)],
        answers: 2,
        jobs: 64,
        halved: true,
        held: false,
    },
    Contest {
        name: "trial",
        sides: [("planner_trial", planner::planner_trial), ("plain_trial", sides::plain_trial)],
        answers: 3,
        jobs: 64,
        halved: false,
        held: true,
    },
    Contest {
        name: "grading",
        sides: [("planner_grade", planner::planner_grade), ("plain_grade", sides::plain_grade)],
        answers: 1,
        jobs: 64,
        halved: false,
        held: true,
    },
    Contest {
        name: "C call",
        sides: [("planner_call", planner::planner_call), ("plain_call", sides::plain_call)],
        answers: 0,
        jobs: 64,
        halved: false,
        held: true,
    },
];

impl Contest {
    pub fn takes(&self, shape: Shape) -> bool {
        (!self.halved || shape.halves()) && (self.held || shape.holds == Holds::None)
    }

    /// One call of a side on buffers that hold a pattern: what it answers and what it leaves in the separators and the plan's bytes.
    fn ask(&self, call: Call, job: &Job) -> (u32, Vec<u64>, Vec<u32>, Vec<u8>) {
        let mut room = Room::new();
        room.separators.fill(7);
        room.answer.fill(9);
        room.plan.fill(11);
        let refused = call(job, &mut room);
        (refused, room.answer[..self.answers].to_vec(), room.separators, room.plan)
    }

    /// Compares the two sides' answers and separators on every job, and gives the first side's answers.
    pub fn compare(&self, jobs: &[Job]) -> Vec<Vec<u64>> {
        let mut given = Vec::new();
        for job in jobs {
            let first = self.ask(self.sides[0].1, job);
            assert_eq!(first.0, 0, "{}: refused", self.name);
            let (name, call) = self.sides[1];
            assert_eq!(first, self.ask(call, job), "{name}: another answer");
            given.push(first.1);
        }
        given
    }

    /// The nanoseconds of a call of each side on each job, the least of the repetitions. A repetition goes once round all jobs; on
    /// each job the sides take turns, the first one changing with each job and each repetition. Each side has buffers of its own, which hold what
    /// its call on the job before left there.
    pub fn time(&self, jobs: &[Job]) -> Vec<Vec<f64>> {
        self.time_within(jobs, LEAST, BUDGET)
    }

    /// The same for another time and at least so many repetitions.
    pub fn time_within(&self, jobs: &[Job], fewest: usize, budget: Duration) -> Vec<Vec<f64>> {
        let mut rooms = [Room::new(), Room::new()];
        let mut least = vec![vec![f64::INFINITY; jobs.len()]; 2];
        let start = Instant::now();
        for repetition in 0..MOST {
            if repetition >= fewest && start.elapsed() > budget {
                break;
            }
            for (j, job) in jobs.iter().enumerate() {
                for turn in 0..2 {
                    let side = (turn + repetition + j) % 2;
                    let began = Instant::now();
                    let refused = (self.sides[side].1)(job, &mut rooms[side]);
                    let took = began.elapsed().as_nanos() as f64;
                    assert_eq!(std::hint::black_box(refused), 0);
                    least[side][j] = least[side][j].min(took);
                }
            }
        }
        least
    }

    /// The same for short strips, whose calls take little longer than a look at the clock: a side goes once round all jobs, then the
    /// other one; the mean over the jobs, the least of the rounds.
    pub fn time_rounds(&self, jobs: &[Job]) -> Vec<Vec<f64>> {
        let mut rooms = [Room::new(), Room::new()];
        let mut least = vec![vec![f64::INFINITY]; 2];
        let start = Instant::now();
        for round in 0..ROUNDS {
            if round >= LEAST && start.elapsed() > BUDGET {
                break;
            }
            for turn in 0..2 {
                let side = (turn + round) % 2;
                let call = self.sides[side].1;
                let began = Instant::now();
                for job in jobs {
                    assert_eq!(std::hint::black_box(call(job, &mut rooms[side])), 0);
                }
                let took = began.elapsed().as_nanos() as f64 / jobs.len() as f64;
                least[side][0] = least[side][0].min(took);
            }
        }
        least
    }
}

/// Calls each side of all contests that take the shape once on each job, for an instruction count.
pub fn call_all(shape: Shape, jobs: usize) {
    let jobs = &shape.jobs(jobs);
    let mut called = Vec::new();
    let contests = CONTESTS.iter().filter(|contest| contest.takes(shape));
    for (name, call) in contests.flat_map(|contest| contest.sides) {
        if called.contains(&name) {
            continue;
        }
        called.push(name);
        let mut room = Room::new();
        for job in jobs {
            assert_eq!(call(job, &mut room), 0);
        }
    }
}
