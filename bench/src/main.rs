//! The benchmark of the planner against plain Rust. `run` calls it:
//!     bench check                           compares the answers of both sides, and times nothing
//!     bench measure                         times, counts and imbalances as records, to standard output
//!     bench count FAMILY N P FASTEST STARTUP HOLDS MACHINES JOBS
//!                                           calls each side once a job, for callgrind
//!     bench shapes                          the shapes that are to be counted, one to a line
//!     bench summary FILE...                 the tables of docs/BENCHMARKS.md, from records
//!     bench tables FILE...                  the further tables
//! With the feature `compare`, for `bench/compare`:
//!     bench compare FILTER                  times of two libraries as records
//!     bench gains FILE...                   what the second one gains, from records
#[cfg(feature = "compare")]
mod compare;
mod contest;
mod jobs;
mod measure;
mod plain;
mod records;
mod sides;
mod tables;

use jobs::{Family, Holds, Shape};

// Moves what is linked behind it (see build.rs). Of two libraries it is in front of both, put there by bench/compare.
#[cfg(not(feature = "compare"))]
std::arch::global_asm!(
    ".section .text.bench_padding,\"ax\",@progbits",
    ".p2align 6",
    ".globl bench_padding",
    "bench_padding:",
    concat!(".skip 16 + ", env!("PADDING")),
    ".text"
);

extern "C" {
    fn bench_padding();
}

fn count(args: &[String]) {
    let number = |i: usize| args[i].parse::<usize>().expect("a number");
    let shape = Shape {
        family: Family::named(&args[0]).expect("a family"),
        tasks: number(1),
        processors: number(2),
        fastest: number(3) as u32,
        startup: number(4) as u32,
        holds: Holds::named(&args[5]).expect("what the machines hold"),
        machines: number(6),
    };
    contest::call_all(shape, number(7));
}

fn main() {
    std::hint::black_box(bench_padding as *const ()); // so that the linker keeps it
    let args: Vec<String> = std::env::args().skip(1).collect();
    match args.first().map(String::as_str) {
        Some("check") if args.len() == 1 => measure::check(),
        Some("measure") if args.len() == 1 => measure::all(),
        Some("count") if args.len() == 9 => count(&args[1..]),
        Some("shapes") if args.len() == 1 => measure::print_shapes(),
        Some("summary") if args.len() > 1 => tables::print_summary(&args[1..]),
        Some("tables") if args.len() > 1 => tables::print(&args[1..]),
        #[cfg(feature = "compare")]
        Some("compare") if args.len() == 2 => compare::time(&args[1]),
        #[cfg(feature = "compare")]
        Some("gains") if args.len() > 1 => compare::print(&args[1..]),
        _ => {
            eprintln!("usage: bench check | measure | count FAMILY N P FASTEST STARTUP HOLDS MACHINES JOBS | shapes | summary FILE... | tables FILE...");
            std::process::exit(2);
        }
    }
}
