//! An independent test of every call of the planner. HELD_SEED sets the seed, HELD_TIMES multiplies the random part,
//! HELD_LONG asks for so many random jobs in place of the whole test.

mod answers;
mod check;
mod counts;
mod damage;
mod every;
#[cfg(feature = "faults")]
mod faults;
mod fast;
mod grades;
mod grading;
mod guard;
mod halving;
mod job;
mod known;
mod large;
mod lent;
mod limits;
mod listing;
mod lists;
mod long;
mod methods;
mod planner;
mod refusals;
mod rng;
mod slow;
mod small;
mod trials;

use std::time::Instant;

use check::Check;

fn number(name: &str, otherwise: u64) -> u64 {
    match std::env::var(name) {
        Ok(text) => text.trim().parse().unwrap_or_else(|_| {
            println!("tests/held: FAILED, {} is not a number: {}", name, text);
            std::process::exit(1)
        }),
        Err(_) => otherwise,
    }
}

/// The whole test, part by part.
fn whole(c: &mut Check) {
    let times = number("HELD_TIMES", 1) as usize;
    let talk = number("HELD_TALK", 0) != 0;
    let parts: [(&'static str, &dyn Fn(&mut Check)); 11] = [
        ("known jobs", &known::run),
        ("refusals", &refusals::run),
        ("counts", &counts::run),
        ("lists", &|c| lists::run(c, times)),
        ("damaged files", &|c| damage::run(c, times)),
        ("listings", &|c| listing::run(c, times)),
        ("plan files", &|c| grades::run(c, times)),
        ("trials", &|c| trials::run(c, times)),
        ("short strips", &|c| trials::strips(c, times)),
        ("small jobs", &|c| small::run(c, times)),
        ("large jobs", &|c| large::run(c, times)),
    ];
    for (name, part) in parts {
        let (calls, jobs, failures, from) = (c.calls, c.jobs_seen, c.failures, Instant::now());
        c.part = name;
        part(c);
        if talk || c.failures > failures {
            let took = from.elapsed().as_secs_f64();
            eprintln!("{}: {} jobs, {} calls, {} failures, {:.1} s", name, c.jobs_seen - jobs, c.calls - calls, c.failures - failures, took);
        }
    }
    // A run in which some answer never came up would be no test of it.
    let unseen = c.unseen();
    let mut never = c.searches.contains(&0) || c.noughts.contains(&0) || c.others.contains(&0) || c.editions.contains(&0);
    never |= c.splits.contains(&0) || c.halved.contains(&0) || c.fits.contains(&0) || c.failed.contains(&0);
    never |= c.kinds_of_holds.contains(&0) || c.changed_by_holds.contains(&0) || c.short_holds.contains(&0);
    never |= c.held_trials.contains(&0) || c.held_files.contains(&0);
    let mut seen = format!("fits {:?}, failed trials {:?}, searches {:?}", c.fits, c.failed, c.searches);
    seen += &format!(", plans at and off the ideal {:?}, editions {:?}", c.noughts, c.editions);
    seen += &format!(", kinds of holds {:?}, changed by holds {:?}", c.kinds_of_holds, c.changed_by_holds);
    seen += &format!(", too few places {:?}, trials with holds {:?}, files with holds {:?}", c.short_holds, c.held_trials, c.held_files);
    seen += &format!(", best plans of other separators {:?}, splits {:?}, halved rows {:?}", c.others, c.splits, c.halved);
    if talk {
        eprintln!("{}", seen);
    }
    if !unseen.is_empty() || never {
        c.fail(&format!("answers never seen: {:?}; {}", unseen, seen), String::new());
    }
}

fn main() {
    #[cfg(feature = "faults")]
    if std::env::var("HELD_FAULT").as_deref() == Ok("list") {
        return faults::list();
    }
    let seed = number("HELD_SEED", 1);
    let start = Instant::now();
    guard::watch(seed);
    let mut c = Check::new(seed);
    c.hasty = number("HELD_HASTY", 0) != 0;
    match number("HELD_LONG", 0) {
        0 => whole(&mut c),
        count => long::run(&mut c, count),
    }
    let word = if c.failures == 0 { "passed" } else { "FAILED" };
    let took = start.elapsed().as_secs_f64();
    println!("tests/held: {}, {} jobs, {} calls, {} failures, seed {}, {:.0} s", word, c.jobs_seen, c.calls, c.failures, seed, took);
    std::process::exit((c.failures != 0) as i32);
}
