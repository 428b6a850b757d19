//! The long run: random jobs of every kind, as many as asked, with a line of progress.

use std::time::{Duration, Instant};

use crate::check::Check;
use crate::{damage, large, small, trials};

/// Seconds as h:mm:ss.
fn clock(t: Duration) -> String {
    let s = t.as_secs();
    format!("{}:{:02}:{:02}", s / 3600, s / 60 % 60, s % 60)
}

pub fn run(c: &mut Check, count: u64) {
    let start = Instant::now();
    let mut shown = start;
    for k in 0..count {
        match c.rng.below(1_000) {
            0 => large::any_size(c),
            1..=9 => large::middle(c),
            10..=29 => small::near(c),
            30..=199 => damage::one(c),
            200..=204 => large::row(c),
            205..=299 => small::random_row(c),
            300..=302 => trials::middle(c),
            303..=349 => trials::random(c),
            350..=352 => trials::random_short(c),
            _ => small::random(c),
        }
        if shown.elapsed() >= Duration::from_secs(1) || k + 1 == count {
            shown = Instant::now();
            let gone = start.elapsed();
            let left = gone.mul_f64((count - k - 1) as f64 / (k + 1) as f64);
            eprint!("\r{} of {} jobs, {} calls, {} failures, {} gone, {} left ", k + 1, count, c.calls, c.failures, clock(gone), clock(left));
        }
    }
    eprintln!();
}
