//! The tables of docs/BENCHMARKS.md and the further ones of target/benchmarks.md, from the records of a run.
use crate::contest::CONTESTS;
use crate::jobs::{Family, Holds, Shape, Size, FRONT};
use crate::measure::{
    growth_with_processors, growth_with_tasks, long_row, planned_strips, short_row, short_strips, FASTEST, FEW, HALVED_SIZES, HELD_FASTEST,
    LARGEST, PLACEMENTS, ROW_PROCESSORS, SECOND_FASTEST, SIZES, STARTUP,
};
use crate::records::{self, Records};

/// The shapes of a ratio: every family with these sizes and ranges of speeds, with this start-up work and these holds.
#[derive(Clone, Copy)]
struct Span {
    sizes: &'static [Size],
    fastest: &'static [u32],
    startup: u32,
    holds: Holds,
}

const ALL: Span = Span { sizes: &SIZES, fastest: &FASTEST, startup: 0, holds: Holds::None };
const HALVED: Span = Span { sizes: &HALVED_SIZES, fastest: &[1], startup: 0, holds: Holds::None };

impl Span {
    fn shapes(self) -> impl Iterator<Item = Shape> {
        let shapes = self.sizes.iter().flat_map(move |&size| shapes(size, self.fastest));
        shapes.map(move |shape| Shape { startup: self.startup, holds: self.holds, ..shape })
    }

    /// The shapes of the second edition beside these.
    fn second(self) -> Span {
        let fastest: &'static [u32] = if self.fastest == [1] { &[1] } else { &[SECOND_FASTEST] };
        Span { fastest, startup: STARTUP, ..self }
    }

    /// The shapes with these holds beside them.
    fn held(self, holds: Holds) -> Span {
        Span { fastest: &[HELD_FASTEST], holds, ..self }
    }
}

/// The kinds of jobs that have ratios of their own.
const KINDS_OF_JOBS: [(&str, fn(Span) -> Span); 4] = [
    ("without either", |span| span),
    ("with start-up work", Span::second),
    ("holds on every machine", |span| span.held(Holds::All)),
    ("holds on every eighth", |span| span.held(Holds::Few)),
];

/// The ratios of the page: title, the two sides.
const PAIRS: [(&str, &str, &str); 8] = [
    ("Table", "planner_table", "plain_table"),
    ("Bidding", "planner_bidding", "plain_bidding"),
    ("Bisection", "planner_bisection", "plain_bisection"),
    ("Nicol's search", "planner_nicol", "plain_nicol"),
    ("Quick plan", "planner_quick", "plain_quick"),
    ("Single trial", "planner_trial", "plain_trial"),
    ("Grading", "planner_grade", "plain_grade"),
    ("C call", "planner_call", "plain_call"),
];

/// The further ones, of halving.
const HALVINGS: [(&str, &str, &str); 2] = [
    ("Halving, plain Rust level by level without branches", "planner_halving", "plain_halving"),
    ("Halving, plain Rust one side after the other", "planner_halving", "plain_halvingsides"),
];

/// Both, each with its shapes.
fn all_pairs() -> impl Iterator<Item = (&'static str, &'static str, &'static str, Span)> {
    let pairs = PAIRS.into_iter().map(|(title, planner, plain)| (title, planner, plain, ALL));
    pairs.chain(HALVINGS.into_iter().map(|(title, planner, plain)| (title, planner, plain, HALVED)))
}

fn head(columns: &[String]) {
    println!("| {} |", columns.join(" | "));
    println!("|{}", "---|".repeat(columns.len()));
}

fn row(cells: &[String]) {
    println!("| {} |", cells.join(" | "));
}

fn texts(words: &[&str]) -> Vec<String> {
    words.iter().map(|word| word.to_string()).collect()
}

/// The shapes of a size: every family with each range of speeds.
fn shapes(size: Size, speeds: &[u32]) -> Vec<Shape> {
    let mut shapes = Vec::new();
    for family in Family::ALL {
        for &fastest in speeds {
            shapes.push(Shape::new(family, size, fastest));
        }
    }
    shapes
}

/// A table's rows where each size has columns of its own: the shapes of a row differ in their size alone.
fn rows(sizes: &[Size], speeds: &[u32]) -> Vec<Vec<Shape>> {
    let kinds = shapes(sizes[0], speeds);
    kinds.iter().map(|kind| sizes.iter().map(|&size| Shape::new(kind.family, size, kind.fastest)).collect()).collect()
}

fn label(shape: Shape) -> Vec<String> {
    vec![shape.family.name().to_string(), shape.speeds_name()]
}

/// A size as the head of its columns.
fn size_name((tasks, processors): Size) -> String {
    format!("N = {tasks}, P = {processors}")
}

/// A time in microseconds, with three figures or so.
pub fn micros(nanoseconds: f64) -> String {
    let value = nanoseconds / 1000.0;
    match value {
        v if v < 10.0 => format!("{v:.2}"),
        v if v < 100.0 => format!("{v:.1}"),
        v => format!("{v:.0}"),
    }
}

const KINDS: [&str; 2] = ["ratio", "count"];

/// A ratio planner / plain Rust: of times, which were taken in turn, or of instruction counts.
fn ratio(records: &Records, kind: &str, planner: &str, plain: &str, shape: Shape) -> f64 {
    match kind {
        "ratio" => records.median(kind, plain, shape),
        _ => records.get(kind, planner, shape) / records.get(kind, plain, shape),
    }
}

fn ratios(records: &Records) {
    println!("## Planner against plain Rust: time and instructions\n");
    println!("Each pair is the ratio of times, then the ratio of instructions, planner / plain Rust.\n");
    for (title, planner, plain, span) in all_pairs() {
        println!("### {title}\n");
        let mut columns = texts(&["weights", "speeds"]);
        for &size in span.sizes {
            columns.push(format!("{}: time", size_name(size)));
            columns.push("instructions".to_string());
        }
        head(&columns);
        for shapes in rows(span.sizes, span.fastest) {
            let mut cells = label(shapes[0]);
            for shape in shapes {
                for kind in KINDS {
                    cells.push(format!("{:.2}", ratio(records, kind, planner, plain, shape)));
                }
            }
            row(&cells);
        }
        println!();
    }
}

pub fn geometric_mean(values: &[f64]) -> f64 {
    (values.iter().map(|value| value.ln()).sum::<f64>() / values.len() as f64).exp()
}

fn greatest(values: &[f64]) -> f64 {
    values.iter().copied().fold(f64::MIN, f64::max)
}

fn least(values: &[f64]) -> f64 {
    values.iter().copied().fold(f64::MAX, f64::min)
}

/// Whether a ratio is of jobs with holds too.
fn is_held(planner: &str) -> bool {
    CONTESTS.iter().any(|contest| contest.held && contest.sides[0].0 == planner)
}

/// The page's ratios of times: by kind of job the geometric mean over the shapes and the worst of them.
fn page_ratios(records: &Records) {
    let mut columns = vec![String::new()];
    for (kind, _) in KINDS_OF_JOBS {
        columns.extend([format!("{kind}: mean"), "worst".to_string()]);
    }
    head(&columns);
    for (title, planner, plain) in PAIRS {
        let mut cells = vec![title.to_string()];
        for (_, of) in KINDS_OF_JOBS {
            let span = of(ALL);
            if span.holds != Holds::None && !is_held(planner) {
                cells.extend(texts(&["–", "–"]));
                continue;
            }
            let all: Vec<f64> = span.shapes().map(|shape| ratio(records, "ratio", planner, plain, shape)).collect();
            cells.extend([geometric_mean(&all), greatest(&all)].map(|value| format!("{value:.2}")));
        }
        row(&cells);
    }
    println!();
}

/// The page's times in microseconds, planner / plain Rust: two sizes, every kind of weights.
fn page_micros(records: &Records) {
    let sizes = [LARGEST, FEW];
    let shapes: Vec<Shape> = sizes.iter().flat_map(|&size| shapes(size, &[SECOND_FASTEST])).collect();
    let mut columns = vec![String::new()];
    columns.extend(shapes.iter().map(|shape| match shape.family {
        Family::Uniform => format!("{}: near-uniform", size_name(shape.size())),
        family => family.name().to_string(),
    }));
    head(&columns);
    for (title, planner, plain) in PAIRS {
        let mut cells = vec![title.to_string()];
        cells.extend(shapes.iter().map(|&shape| {
            let time = |side: &str| micros(records.get("time", side, shape));
            format!("{} / {}", time(planner), time(plain))
        }));
        row(&cells);
    }
    println!();
}

/// Of a kind of job: the geometric mean, the least and the greatest over the shapes of each ratio, and the greatest single pass.
fn summary(records: &Records, of: fn(Span) -> Span) {
    head(&texts(&["", "time: mean", "least", "greatest", "greatest single pass", "instructions: mean", "least", "greatest"]));
    for (title, planner, plain, span) in all_pairs() {
        let mut cells = vec![title.to_string()];
        let span = of(span);
        if span.holds != Holds::None && !is_held(planner) {
            continue;
        }
        for kind in KINDS {
            let all: Vec<f64> = span.shapes().map(|shape| ratio(records, kind, planner, plain, shape)).collect();
            cells.extend([geometric_mean(&all), least(&all), greatest(&all)].map(|value| format!("{value:.2}")));
            if kind == "ratio" {
                cells.push(format!("{:.2}", greatest(&every_pass(records, plain, span))));
            }
        }
        row(&cells);
    }
    println!();
}

/// The ratios of times of all single passes.
fn every_pass(records: &Records, plain: &str, span: Span) -> Vec<f64> {
    span.shapes().flat_map(|shape| records.values("ratio", plain, shape).to_vec()).collect()
}

/// Each ratio in other ways than the median of the passes: by place, by pass, and of the least times of all passes.
fn passes(records: &Records) {
    println!("## Every pass, and every place of the code\n");
    println!("The ratios of times without start-up work and holds, taken in other ways: mean and greatest shape in each of the four places of the");
    println!("code (a shape's mean of two passes); the greatest of all single passes, and how many are above 1.2; and the ratio of the least times");
    println!("that each side had anywhere.\n");
    let mut columns = vec![String::new()];
    columns.extend(PLACEMENTS.map(|place| format!("place {place}")));
    columns.extend(texts(&["passes", "greatest pass", "above 1.2", "least times: mean", "greatest"]));
    head(&columns);
    for (title, planner, plain, span) in all_pairs() {
        let mut cells = vec![title.to_string()];
        cells.extend(PLACEMENTS.map(|place| {
            let kind = records::placed(place);
            let shapes: Vec<f64> = span.shapes().map(|shape| records.get(&kind, plain, shape)).collect();
            format!("{:.2}, {:.2}", geometric_mean(&shapes), greatest(&shapes))
        }));
        let all = every_pass(records, plain, span);
        cells.push(all.len().to_string());
        cells.push(format!("{:.2}", greatest(&all)));
        cells.push(all.iter().filter(|&&value| value > 1.2).count().to_string());
        let time = |side: &str, shape: Shape| records.get("time", side, shape);
        let of_least: Vec<f64> = span.shapes().map(|shape| time(planner, shape) / time(plain, shape)).collect();
        cells.push(format!("{:.2}", geometric_mean(&of_least)));
        cells.push(format!("{:.2}", greatest(&of_least)));
        row(&cells);
    }
    println!();
}

fn single(records: &Records) {
    println!("## A plan at {}, in microseconds\n", size_name(LARGEST));
    println!("Planner, and plain Rust behind the stroke.\n");
    let mut columns = texts(&["weights", "speeds"]);
    columns.extend(PAIRS.iter().map(|pair| pair.0.to_string()));
    head(&columns);
    for shape in shapes(LARGEST, &FASTEST) {
        let mut cells = label(shape);
        for (_, planner, plain) in PAIRS {
            let time = |side: &str| micros(records.get("time", side, shape));
            cells.push(format!("{} / {}", time(planner), time(plain)));
        }
        row(&cells);
    }
    println!();
}

fn counts(records: &Records) {
    println!("## Moves and trials against allowances\n");
    println!("Speeds 1–4: the mean count, the mean allowance, and the greatest part of its allowance that a job took.\n");
    let mut columns = texts(&["weights", "N", "P"]);
    for method in ["table: moves", "bidding: trials", "bisection: trials", "Nicol: trials"] {
        columns.extend([method.to_string(), "allowance".to_string(), "most".to_string()]);
    }
    head(&columns);
    for family in Family::ALL {
        for size in SIZES {
            let shape = Shape::new(family, size, 4);
            let mut cells = vec![family.name().to_string(), size.0.to_string(), size.1.to_string()];
            for method in ["table", "bidding", "bisection", "Nicol"] {
                let fact = |name: &str| records.get("fact", &format!("{method} {name}"), shape);
                cells.push(format!("{:.1}", fact("count")));
                cells.push(format!("{:.1}", fact("allowance")));
                cells.push(format!("{:.2} %", 100.0 * fact("most")));
            }
            row(&cells);
        }
    }
    println!();
}

fn imbalances(records: &Records) {
    println!("## Imbalance: the quick plan against the best plan\n");
    println!("Mean of (bottleneck − ideal) / ideal in per cent; the factor is quick plan's over best plan's; the time is bisection's");
    println!("over quick plan's (source: Pinar, Tabak, Aykanat 2008, who give factors of 4.9 and 8.7 and a time of 2.20 for P = 128). A job has");
    println!("at most {} machines: that is as near to the source's 128 as these figures go.\n", LARGEST.1);
    let mut columns = texts(&["weights", "speeds"]);
    let sizes = [SIZES[0], LARGEST, SIZES[1], SIZES[2]];
    for size in sizes {
        columns.push(format!("{}: quick", size_name(size)));
        columns.extend(texts(&["best", "factor", "time"]));
    }
    head(&columns);
    for shapes in rows(&sizes, &FASTEST) {
        let mut cells = label(shapes[0]);
        for shape in shapes {
            let quick = records.get("fact", "quick plan imbalance", shape);
            let best = records.get("fact", "bisection imbalance", shape);
            let time = |side: &str| records.get("time", side, shape);
            cells.push(format!("{:.2}", 100.0 * quick));
            cells.push(format!("{:.2}", 100.0 * best));
            cells.push(format!("{:.1}", quick / best));
            cells.push(format!("{:.1}", time("planner_bisection") / time("planner_quick")));
        }
        row(&cells);
    }
    println!();
}

/// The methods, by the planner's sides.
const METHODS: [(&str, &str); 4] =
    [("table", "planner_table"), ("bidding", "planner_bidding"), ("bisection", "planner_bisection"), ("Nicol", "planner_nicol")];

/// How many jobs each of these contests has gone round; the times beside each other are of these.
const TIMED: usize = 12;

/// The quick plans beside the best plan on rows of equal machines, and the times of each.
fn equal_rows(records: &Records, row_of: fn(Family, usize) -> Shape) {
    let mut columns = texts(&["weights", "N", "P", "imbalance: best plan", "quick plan", "halving", "halving's bound"]);
    columns.extend(texts(&["meets the best: quick plan", "halving", "smaller: quick plan", "halving"]));
    columns.extend(texts(&["µs: quick plan", "halving", "fastest method"]));
    head(&columns);
    for family in Family::ALL {
        for processors in ROW_PROCESSORS {
            let shape = row_of(family, processors);
            let mut cells = vec![family.name().to_string(), shape.tasks.to_string(), processors.to_string()];
            let names = ["bisection thousandths", "quick plan thousandths", "halving thousandths", "halving bound"];
            cells.extend(names.map(|name| format!("{:.1}", records.get("fact", name, shape))));
            let load = |name: &str| records.values("fact", &format!("{name} load"), shape);
            let (best, quick, halving) = (load("bisection"), load("quick plan"), load("halving"));
            assert_eq!((best.len(), quick.len()), (halving.len(), halving.len()), "other jobs");
            cells.extend([quick, halving].map(|plan| count_of(plan, best, |plan, best| plan == best)));
            cells.push(count_of(quick, halving, |quick, halving| quick < halving));
            cells.push(count_of(quick, halving, |quick, halving| halving < quick));
            let time = |side: &str| records.values("time", side, shape)[..TIMED].iter().sum::<f64>() / TIMED as f64;
            cells.extend(["planner_quick", "planner_halving"].map(|side| micros(time(side))));
            let methods = METHODS.map(|(name, side)| (name, time(side)));
            let (name, fastest) = methods.into_iter().min_by(|a, b| a.1.total_cmp(&b.1)).expect("a method");
            cells.push(format!("{} ({name})", micros(fastest)));
            row(&cells);
        }
    }
    println!();
}

/// A contest on a short strip: times in microseconds, planner and plain Rust, and their ratio; the same of the instructions.
fn short_cells(records: &Records, planner: &str, plain: &str, shape: Shape) -> Vec<String> {
    let mut cells: Vec<String> = [planner, plain].map(|side| format!("{:.3}", records.get("time", side, shape) / 1000.0)).to_vec();
    cells.push(format!("{:.2}", ratio(records, "ratio", planner, plain, shape)));
    cells.extend([planner, plain].map(|side| format!("{:.0}", records.get("count", side, shape))));
    cells.push(format!("{:.2}", ratio(records, "count", planner, plain, shape)));
    cells
}

/// Single trials of short strips, then their plans.
fn short(records: &Records) {
    let cells = ["µs: planner", "plain Rust", "ratio", "instructions: planner", "plain Rust", "ratio"];
    head(&texts(&[&["tiles", "machines come to"], &cells[..]].concat()));
    for shape in short_strips() {
        let tiles = match shape.family {
            Family::Front => format!("{}, weight on the first {FRONT}", shape.tasks),
            _ => shape.tasks.to_string(),
        };
        let mut line = vec![tiles, shape.machines.to_string()];
        line.extend(short_cells(records, "planner_trial", "plain_trial", shape));
        row(&line);
    }
    println!();
    println!("Plans of those that have a tile for each machine come to.\n");
    head(&texts(&[&["", "tiles"], &cells[..]].concat()));
    for (title, planner, plain) in [("Bidding", "planner_bidding", "plain_bidding"), ("Bisection", "planner_bisection", "plain_bisection")] {
        for shape in planned_strips() {
            let mut line = vec![title.to_string(), shape.tasks.to_string()];
            line.extend(short_cells(records, planner, plain, shape));
            row(&line);
        }
    }
    println!();
}

/// On how many jobs it holds.
fn count_of(these: &[f64], those: &[f64], holds: fn(f64, f64) -> bool) -> String {
    these.iter().zip(those).filter(|&(&a, &b)| holds(a, b)).count().to_string()
}

/// Grading beside planning by bisection: the planner alone.
fn gradings(records: &Records) {
    println!("## Grading against planning by bisection\n");
    println!("The planner's time for grading over its time for a plan by bisection, on the same jobs (the least times of each; half of the plan");
    println!("files are of the best plan, half of the quick plan), and how many of a hundred plan files are graded best.\n");
    let time = |side: &str, shape: Shape| records.get("time", side, shape);
    let of_plan = |shape: Shape| time("planner_grade", shape) / time("planner_bisection", shape);
    let mut columns = texts(&["weights", "speeds"]);
    for size in SIZES {
        columns.push(format!("{}: time", size_name(size)));
        columns.push("best".to_string());
    }
    head(&columns);
    for shapes in rows(&SIZES, &FASTEST) {
        let mut cells = label(shapes[0]);
        for shape in shapes {
            cells.push(format!("{:.2}", of_plan(shape)));
            cells.push(format!("{:.0}", 100.0 * records.get("fact", "grading best", shape)));
        }
        row(&cells);
    }
    let all: Vec<f64> = ALL.shapes().map(of_plan).collect();
    let (mean, low, high) = (geometric_mean(&all), least(&all), greatest(&all));
    println!("\nOver these shapes: mean {mean:.2} (the geometric one), least {low:.2}, greatest {high:.2}.\n");
}

fn growth_table(records: &Records, shapes: &[Shape]) {
    let mut columns = texts(&["N", "P"]);
    columns.extend(PAIRS.iter().map(|pair| pair.0.to_string()));
    columns.extend(texts(&["table, ns an entry", "a bisection's trial", "a trial of Nicol's"]));
    head(&columns);
    for &shape in shapes {
        let mut cells = vec![shape.tasks.to_string(), shape.processors.to_string()];
        let time = |side: &str| records.get("time", side, shape);
        cells.extend(PAIRS.iter().map(|pair| micros(time(pair.1))));
        let entries = (shape.tasks + 1) * shape.processors;
        cells.push(format!("{:.1}", time("planner_table") / entries as f64));
        let trials = |method: &str| records.get("fact", &format!("{method} count"), shape);
        cells.push(micros(time("planner_bisection") / trials("bisection")));
        cells.push(micros(time("planner_nicol") / (trials("Nicol") + 1.0)));
        row(&cells);
    }
    println!();
}

/// The tables of the page.
pub fn print_summary(files: &[String]) {
    let records = Records::read(files);
    let counts = [ALL, ALL.second()].map(|span| span.shapes().count());
    println!("Time, planner / plain Rust: the geometric mean over the shapes, and the worst of them; {} shapes without start-up work and", counts[0]);
    println!("holds, {} of each other kind of job. Nicol's search and the quick plan are refused for jobs with holds.\n", counts[1]);
    page_ratios(&records);
    println!("Microseconds, planner / plain Rust: the largest job, and as many tiles on few machines; speeds 1–{SECOND_FASTEST}, without start-up work and holds.\n");
    page_micros(&records);
}

/// All the others.
pub fn print(files: &[String]) {
    let records = Records::read(files);
    println!("## Times and instructions by kind of job\n");
    println!("Planner / plain Rust over the shapes; the mean is the geometric one. Start-up work is {STARTUP}, with speeds 1–{SECOND_FASTEST}, of halving equal");
    println!("ones; jobs with holds have speeds 1–{HELD_FASTEST}.\n");
    for (kind, of) in KINDS_OF_JOBS {
        println!("### Jobs: {kind}\n");
        summary(&records, of);
    }
    passes(&records);
    single(&records);
    ratios(&records);
    counts(&records);
    imbalances(&records);
    println!("## Quick plan, halving and best plan on rows of equal machines\n");
    println!("Imbalance in thousandths, rounded up, the mean of 64 jobs; on how many of the 64 a quick plan's bottleneck is the best plan's, and on");
    println!("how many it is smaller than the other one's; the planner's time in microseconds, the mean of the first {TIMED} jobs. First with the");
    println!("most tiles, then with 8 tiles a machine.\n");
    equal_rows(&records, long_row);
    equal_rows(&records, short_row);
    println!("## Short strips on long rows\n");
    println!("Single trials that fit, on {} equal machines, near-uniform weights; the last three strips are long. The times are the least ones of", LARGEST.1);
    println!("the run, the mean of 64 jobs; the ratio is the median of the passes.\n");
    short(&records);
    gradings(&records);
    println!("## Growth with N and with P, in microseconds\n");
    println!("The planner; lognormal weights, speeds 1–4. The last columns are the time of bisection over its trials, and of Nicol's search over its");
    println!("trials and the closing walk.\n");
    growth_table(&records, &growth_with_tasks());
    growth_table(&records, &growth_with_processors());
}
