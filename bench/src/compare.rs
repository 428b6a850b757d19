//! Two libraries timed in turn on the bench's jobs, for the gain of a change: the first under its own names, the second with its functions' names
//! behind `after_`. `bench/compare` builds it and calls it.
use crate::contest::{Contest, CONTESTS};
use crate::jobs::Shape;
use crate::measure;
use crate::records::{self, Records};
use crate::sides::{after, Call};
use crate::tables::{geometric_mean, micros};
use std::time::Duration;

/// How long a contest goes on, and the least repetitions of it.
const BUDGET: Duration = Duration::from_millis(25);
const LEAST: usize = 6;

/// The second library's calls, by the names of the contests.
const AFTER: [(&str, Call); 9] = [
    ("table", after::planner_table),
    ("bidding", after::planner_bidding),
    ("bisection", after::planner_bisection),
    ("Nicol", after::planner_nicol),
    ("quick plan", after::planner_quick),
    ("halving", after::planner_halving),
    ("trial", after::planner_trial),
    ("grading", after::planner_grade),
    ("C call", after::planner_call),
];

/// The contests of the two libraries whose names have the filter in them, in any letters.
fn contests(filter: &str) -> Vec<Contest> {
    let wanted = AFTER.into_iter().filter(|(name, _)| name.to_lowercase().contains(&filter.to_lowercase()));
    let with = |(name, call): (&str, Call)| {
        let contest = CONTESTS.iter().find(|contest| contest.name == name).expect("a contest");
        Contest { sides: [("before", contest.sides[0].1), ("after", call)], ..*contest }
    };
    wanted.map(with).collect()
}

fn shapes() -> Vec<Shape> {
    [measure::full(), measure::second(), measure::held()].concat()
}

/// Compares every answer and times the two, as records.
pub fn time(filter: &str) {
    let contests = contests(filter);
    assert!(!contests.is_empty(), "no method has {filter} in its name");
    for shape in shapes() {
        for contest in contests.iter().filter(|contest| contest.takes(shape)) {
            let jobs = shape.jobs(contest.jobs);
            contest.compare(&jobs);
            let times = contest.time_within(&jobs, LEAST, BUDGET);
            let [before, after] = [0, 1].map(|side: usize| times[side].iter().sum::<f64>());
            records::write("time", &format!("before {}", contest.name), shape, &times[0]);
            records::write("time", &format!("after {}", contest.name), shape, &times[1]);
            records::write("ratio", contest.name, shape, &[after / before]);
        }
    }
}

/// A row a shape, then the mean and the worst of each method. A shape's ratio is the geometric mean over the programs; the times are the least
/// of all.
pub fn print(files: &[String]) {
    let records = Records::read(files);
    println!("{:<11} {:<13} {:>5} {:>3} {:>6} {:>8} {:<5} {:>9} {:>9} {:>6}", "", "weights", "N", "P", "speeds", "start-up", "holds", "before", "after", "ratio");
    let mut ends = Vec::new();
    for (name, _) in AFTER {
        let mut ratios = Vec::new();
        for shape in shapes() {
            let Some(passes) = records.find("ratio", name, shape) else { continue };
            let ratio = geometric_mean(passes);
            let [before, after] = ["before", "after"].map(|side| micros(records.get("time", &format!("{side} {name}"), shape)));
            let Shape { family, tasks, processors, fastest, startup, holds, .. } = shape;
            let (family, holds) = (family.name(), holds.name());
            println!("{name:<11} {family:<13} {tasks:>5} {processors:>3} {fastest:>6} {startup:>8} {holds:<5} {before:>9} {after:>9} {ratio:>6.3}");
            ratios.push(ratio);
        }
        if !ratios.is_empty() {
            let worst = ratios.iter().copied().fold(f64::MIN, f64::max);
            ends.push(format!("{name:<11} {:>6} {:>6.3} {worst:>6.3}", ratios.len(), geometric_mean(&ratios)));
        }
    }
    println!("\nafter / before\n{:<11} {:>6} {:>6} {:>6}", "", "shapes", "mean", "worst");
    println!("{}", ends.join("\n"));
}
