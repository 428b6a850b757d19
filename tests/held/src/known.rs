//! The jobs A to E, the edge lines of the scope, section 11, the rows F to L of section 16, the jobs M, N, O and Q of section 17 and R to Y of section 18, with the values
//! written there, and more jobs, of both editions, with holds and without, worked by hand.

use crate::answers::{bytes_of, bytes_of_holds, After, Solved};
use crate::check::Check;
use crate::damage::is_tiny;
use crate::job::{self, head, machine, tile, Job, Record};
use crate::limits::{BOUND_LOAD, BOUND_SPEED, LISTING, LONGEST_HALVED, LONGEST_JOB, LONGEST_PLAN, MACHINES, PLAN_INTAKE};
use crate::limits::{SPEED, STARTUP, TILES, TOO_MANY, WEIGHT};
use crate::methods::{self, Trial};
use crate::planner::{Call, Edition};
use crate::slow::{self, Bound};
use crate::trials::{self, Case};
use crate::{every, fast, halving};

/// A job with all that is known of it, of each method count and allowance.
struct Known<const METHODS: usize = 4> {
    name: &'static str,
    weights: &'static [u32],
    speeds: &'static [u32],
    separators: &'static [usize],
    bottleneck: Bound,
    counts: [u64; METHODS],
    allowances: [u64; METHODS],
    imbalance: u64,
}

#[rustfmt::skip]
const JOBS: [Known; 5] = [
    Known { name: "A", weights: &[1, 3, 8], speeds: &[1, 3], separators: &[0, 1, 3], bottleneck: (11, 3), counts: [2, 2, 2, 2], allowances: [3, 4, 8, 2], imbalance: 223 },
    Known { name: "B", weights: &[4, 3, 2, 6, 1], speeds: &[1, 2], separators: &[0, 1, 5], bottleneck: (12, 2), counts: [2, 2, 1, 2], allowances: [5, 6, 6, 3], imbalance: 125 },
    Known { name: "C", weights: &[], speeds: &[7, 2], separators: &[0, 0, 0], bottleneck: (0, 7), counts: [0, 1, 1, 0], allowances: [0, 1, 1, 0], imbalance: 0 },
    Known { name: "D", weights: &[0, 0], speeds: &[1, 1], separators: &[0, 2, 2], bottleneck: (0, 1), counts: [0, 1, 1, 2], allowances: [2, 3, 1, 2], imbalance: 0 },
    Known { name: "E", weights: &[6], speeds: &[1, 1], separators: &[0, 1, 1], bottleneck: (6, 1), counts: [1, 2, 1, 1], allowances: [1, 2, 4, 1], imbalance: 1000 },
];

/// Worked by hand, for the search of method 4: it ends early, or the first machine, one between or the last has the least candidate.
#[rustfmt::skip]
const MORE: [Known; 7] = [
    Known { name: "one machine", weights: &[4, 0, 3], speeds: &[5], separators: &[0, 3], bottleneck: (7, 5), counts: [0, 1, 1, 0], allowances: [0, 1, 6, 0], imbalance: 0 },
    Known { name: "one machine, nothing weighs", weights: &[0, 0, 0], speeds: &[5], separators: &[0, 3], bottleneck: (0, 5), counts: [0, 1, 1, 0], allowances: [0, 1, 1, 0], imbalance: 0 },
    Known { name: "no tiles", weights: &[], speeds: &[4, 1, 2], separators: &[0, 0, 0, 0], bottleneck: (0, 4), counts: [0, 1, 1, 0], allowances: [0, 1, 1, 0], imbalance: 0 },
    Known { name: "nothing weighs", weights: &[0; 5], speeds: &[2, 1, 3], separators: &[0, 5, 5, 5], bottleneck: (0, 2), counts: [0, 1, 1, 3], allowances: [10, 11, 1, 6], imbalance: 0 },
    Known { name: "the first candidate", weights: &[2, 2, 2], speeds: &[1, 1, 1], separators: &[0, 1, 2, 3], bottleneck: (2, 1), counts: [4, 1, 1, 4], allowances: [6, 7, 3, 4], imbalance: 0 },
    Known { name: "a candidate between", weights: &[3, 2, 3, 1, 2], speeds: &[1, 2, 3], separators: &[0, 0, 2, 5], bottleneck: (5, 2), counts: [4, 2, 2, 5], allowances: [10, 11, 6, 6], imbalance: 364 },
    Known { name: "the last candidate", weights: &[2, 2, 5], speeds: &[1, 1, 2], separators: &[0, 1, 2, 3], bottleneck: (5, 2), counts: [6, 2, 1, 3], allowances: [6, 7, 6, 4], imbalance: 112 },
];

/// Worked by hand, for the rounding of the imbalance: true ones of 1000/2001, exactly 1, 1 and 999/1998001, nought with the ideal as
/// another pair, and 1000/2047999999, where shares of 1,024,000,000 are one unit apart.
#[rustfmt::skip]
const ROUNDED: [Known; 5] = [
    Known { name: "less than a thousandth", weights: &[1000, 1001], speeds: &[1, 1], separators: &[0, 1, 2], bottleneck: (1001, 1), counts: [2, 2, 1, 1], allowances: [2, 3, 11, 2], imbalance: 1 },
    Known { name: "one thousandth", weights: &[91, 9], speeds: &[10, 1], separators: &[0, 1, 2], bottleneck: (91, 10), counts: [1, 2, 1, 2], allowances: [2, 3, 15, 2], imbalance: 1 },
    Known { name: "more than a thousandth", weights: &[1_000_000, 998_001], speeds: &[1, 1], separators: &[0, 1, 2], bottleneck: (1_000_000, 1), counts: [1, 2, 1, 2], allowances: [2, 3, 21, 2], imbalance: 2 },
    Known { name: "the ideal 6/3 met by 4/2", weights: &[4, 2], speeds: &[2, 1], separators: &[0, 1, 2], bottleneck: (4, 2), counts: [1, 1, 1, 2], allowances: [2, 3, 6, 2], imbalance: 0 },
    Known { name: "a long row, one unit from even", weights: &ONE_LIGHTER, speeds: &[1, 1], separators: &[0, 1024, 2048], bottleneck: (1_024_000_000, 1), counts: [1025, 2, 1, 11], allowances: [2048, 2049, 21, 12], imbalance: 1 },
];

/// The jobs of the second edition of the scope, section 17, each with its start-up work.
#[rustfmt::skip]
const STARTED: [(u32, Known); 4] = [
    (2, Known { name: "M", weights: &[1, 3, 8], speeds: &[1, 3], separators: &[0, 1, 3], bottleneck: (13, 3), counts: [2, 2, 2, 2], allowances: [3, 4, 8, 2], imbalance: 445 }),
    (3, Known { name: "N", weights: &[1, 4, 4], speeds: &[1, 4], separators: &[0, 0, 3], bottleneck: (12, 4), counts: [1, 2, 2, 2], allowances: [3, 4, 8, 2], imbalance: 667 }),
    (5, Known { name: "O", weights: &[0, 0], speeds: &[1, 1], separators: &[0, 2, 2], bottleneck: (5, 1), counts: [1, 2, 1, 2], allowances: [2, 3, 4, 2], imbalance: 0 }),
    (4, Known { name: "Q", weights: &[5, 2], speeds: &[3], separators: &[0, 2], bottleneck: (11, 3), counts: [0, 2, 1, 0], allowances: [0, 2, 6, 0], imbalance: 572 }),
];

/// Of the second edition, worked by hand, each with its start-up work: A, which one machine does alone; one machine, without start-up work,
/// with some, without tiles, and with the most of everything; tiles of weight 0; no tiles; a second machine left out, where bidding
/// makes as many trials as it may; three machines; and E.
#[rustfmt::skip]
const SECOND: [(u32, Known); 13] = [
    (5, Known { name: "A with start-up work", weights: &[1, 3, 8], speeds: &[1, 3], separators: &[0, 0, 3], bottleneck: (17, 3), counts: [1, 2, 3, 2], allowances: [3, 4, 8, 2], imbalance: 889 }),
    (0, Known { name: "A in the second edition", weights: &[1, 3, 8], speeds: &[1, 3], separators: &[0, 1, 3], bottleneck: (11, 3), counts: [2, 2, 2, 2], allowances: [3, 4, 8, 2], imbalance: 223 }),
    (0, Known { name: "one machine in the second edition", weights: &[4, 0, 3], speeds: &[5], separators: &[0, 3], bottleneck: (7, 5), counts: [0, 1, 1, 0], allowances: [0, 2, 6, 0], imbalance: 0 }),
    (2, Known { name: "one machine with start-up work", weights: &[4, 0, 3], speeds: &[5], separators: &[0, 3], bottleneck: (9, 5), counts: [0, 2, 1, 0], allowances: [0, 2, 6, 0], imbalance: 286 }),
    (9, Known { name: "one machine with start-up work and no tiles", weights: &[], speeds: &[5], separators: &[0, 0], bottleneck: (0, 5), counts: [0, 1, 1, 0], allowances: [0, 2, 7, 0], imbalance: 0 }),
    (1_000_000, Known { name: "one machine, the most of everything", weights: &[WEIGHT; TILES], speeds: &[1], separators: &[0, 2048], bottleneck: (2_049_000_000, 1), counts: [0, 2, 1, 0], allowances: [0, 2, 22, 0], imbalance: 1 }),
    (3, Known { name: "start-up work for tiles of weight 0", weights: &[0, 0], speeds: &[2, 1], separators: &[0, 2, 2], bottleneck: (3, 2), counts: [2, 2, 2, 2], allowances: [2, 3, 5, 2], imbalance: 0 }),
    (1_000_000, Known { name: "start-up work and no tiles", weights: &[], speeds: &[7, 2], separators: &[0, 0, 0], bottleneck: (0, 7), counts: [0, 1, 1, 0], allowances: [0, 1, 26, 0], imbalance: 0 }),
    (2, Known { name: "a machine left out", weights: &[6, 1], speeds: &[4, 1], separators: &[0, 2, 2], bottleneck: (9, 4), counts: [2, 3, 3, 1], allowances: [2, 3, 9, 2], imbalance: 608 }),
    (1, Known { name: "a candidate between, with start-up work", weights: &[3, 2, 3, 1, 2], speeds: &[1, 2, 3], separators: &[0, 0, 2, 5], bottleneck: (6, 2), counts: [4, 3, 3, 5], allowances: [10, 11, 7, 6], imbalance: 637 }),
    (4, Known { name: "the first candidate, with start-up work", weights: &[2, 2, 2], speeds: &[1, 1, 1], separators: &[0, 1, 2, 3], bottleneck: (6, 1), counts: [4, 2, 1, 4], allowances: [6, 7, 4, 4], imbalance: 2000 }),
    (2, Known { name: "three machines with start-up work", weights: &[2, 2, 5], speeds: &[1, 1, 2], separators: &[0, 1, 2, 3], bottleneck: (4, 1), counts: [5, 2, 1, 4], allowances: [6, 7, 6, 4], imbalance: 778 }),
    (1, Known { name: "E with start-up work", weights: &[6], speeds: &[1, 1], separators: &[0, 1, 1], bottleneck: (7, 1), counts: [1, 2, 1, 1], allowances: [1, 2, 4, 1], imbalance: 1334 }),
];

/// A job with holds, for methods 1 to 3.
struct Held {
    startup: Option<u32>,
    holds: &'static [u16],
    known: Known<3>,
}

impl Held {
    fn job(&self) -> Job {
        Job::held(self.startup, self.known.speeds, self.holds, self.known.weights)
    }
}

/// The jobs of the scope, section 18.
#[rustfmt::skip]
const LIMITED: [Held; 8] = [
    Held { startup: None, holds: &[1, 2, 2], known: Known { name: "R", weights: &[1, 1, 1, 1, 1], speeds: &[1, 1, 5], separators: &[0, 1, 3, 5], bottleneck: (2, 1), counts: [6, 3, 3], allowances: [10, 11, 8], imbalance: 1800 } },
    Held { startup: None, holds: &[0, 1], known: Known { name: "S", weights: &[1, 3, 8], speeds: &[1, 3], separators: &[0, 2, 3], bottleneck: (4, 1), counts: [2, 2, 2], allowances: [3, 4, 8], imbalance: 334 } },
    Held { startup: None, holds: &[1, 0, 1], known: Known { name: "T", weights: &[2, 1, 3, 1, 2, 4], speeds: &[1, 2, 1], separators: &[0, 1, 5, 6], bottleneck: (4, 1), counts: [8, 3, 4], allowances: [12, 13, 7], imbalance: 231 } },
    Held { startup: None, holds: &[1, 2], known: Known { name: "U", weights: &[2, 9, 4], speeds: &[3, 1], separators: &[0, 1, 3], bottleneck: (13, 1), counts: [2, 2, 2], allowances: [3, 4, 9], imbalance: 2467 } },
    Held { startup: Some(3), holds: &[0, 2], known: Known { name: "V", weights: &[1, 4, 4], speeds: &[1, 4], separators: &[0, 1, 3], bottleneck: (4, 1), counts: [1, 2, 3], allowances: [3, 4, 9], imbalance: 1223 } },
    Held { startup: None, holds: &[1, 2, 0], known: Known { name: "W", weights: &[0, 0, 0, 0], speeds: &[1, 1, 1], separators: &[0, 1, 3, 4], bottleneck: (0, 1), counts: [2, 1, 1], allowances: [8, 9, 1], imbalance: 0 } },
    Held { startup: None, holds: &[3, 3], known: Known { name: "X", weights: &[1, 3, 8], speeds: &[1, 3], separators: &[0, 1, 3], bottleneck: (11, 3), counts: [2, 2, 3], allowances: [3, 4, 8], imbalance: 223 } },
    Held { startup: None, holds: &[1, 1], known: Known { name: "Y", weights: &[], speeds: &[7, 2], separators: &[0, 0, 0], bottleneck: (0, 7), counts: [0, 1, 1], allowances: [0, 1, 1], imbalance: 0 } },
];

/// Worked by hand: A with a hold on machine 1, which does not make it worse, with holds that leave one division, and with some that limit
/// nothing, so that bisection alone begins elsewhere; B with as many places as tiles; nothing that weighs; one machine; the second edition, on
/// one machine, on two, and without tiles; one machine without a limit between two that hold a tile; and a fast machine that holds one.
#[rustfmt::skip]
const HELD: [Held; 11] = [
    Held { startup: None, holds: &[1, 0], known: Known { name: "A, machine 1 holds a tile", weights: &[1, 3, 8], speeds: &[1, 3], separators: &[0, 1, 3], bottleneck: (11, 3), counts: [2, 2, 2], allowances: [3, 4, 8], imbalance: 223 } },
    Held { startup: None, holds: &[2, 1], known: Known { name: "A, as many places as tiles", weights: &[1, 3, 8], speeds: &[1, 3], separators: &[0, 2, 3], bottleneck: (4, 1), counts: [2, 2, 2], allowances: [3, 4, 8], imbalance: 334 } },
    Held { startup: None, holds: &[4, 65_535], known: Known { name: "A, holds that limit nothing", weights: &[1, 3, 8], speeds: &[1, 3], separators: &[0, 1, 3], bottleneck: (11, 3), counts: [2, 2, 3], allowances: [3, 4, 8], imbalance: 223 } },
    Held { startup: None, holds: &[3, 2], known: Known { name: "B, as many places as tiles", weights: &[4, 3, 2, 6, 1], speeds: &[1, 2], separators: &[0, 3, 5], bottleneck: (9, 1), counts: [3, 3, 3], allowances: [5, 6, 8], imbalance: 688 } },
    Held { startup: None, holds: &[1, 1], known: Known { name: "nothing weighs, one tile a machine", weights: &[0, 0], speeds: &[1, 1], separators: &[0, 1, 2], bottleneck: (0, 1), counts: [1, 1, 1], allowances: [2, 3, 1], imbalance: 0 } },
    Held { startup: None, holds: &[3], known: Known { name: "one machine that holds all tiles", weights: &[4, 0, 3], speeds: &[5], separators: &[0, 3], bottleneck: (7, 5), counts: [0, 1, 1], allowances: [0, 1, 7], imbalance: 0 } },
    Held { startup: Some(2), holds: &[65_535], known: Known { name: "one machine with start-up work that holds the most", weights: &[4, 0, 3], speeds: &[5], separators: &[0, 3], bottleneck: (9, 5), counts: [0, 2, 1], allowances: [0, 2, 7], imbalance: 286 } },
    Held { startup: Some(2), holds: &[1, 0], known: Known { name: "a machine that would be left out but for the holds", weights: &[6, 1], speeds: &[4, 1], separators: &[0, 1, 2], bottleneck: (3, 1), counts: [2, 3, 3], allowances: [2, 3, 9], imbalance: 1143 } },
    Held { startup: None, holds: &[1, 0, 1], known: Known { name: "no limit between two machines that hold a tile", weights: &[2, 2, 2, 2, 2, 2], speeds: &[1, 1, 1], separators: &[0, 1, 5, 6], bottleneck: (8, 1), counts: [7, 3, 3], allowances: [12, 13, 5], imbalance: 1000 } },
    Held { startup: Some(9), holds: &[1], known: Known { name: "holds and no tiles in the second edition", weights: &[], speeds: &[5], separators: &[0, 0], bottleneck: (0, 5), counts: [0, 1, 1], allowances: [0, 2, 7], imbalance: 0 } },
    Held { startup: None, holds: &[0, 1], known: Known { name: "a fast machine that holds a tile", weights: &[3, 3, 3], speeds: &[1, 9], separators: &[0, 2, 3], bottleneck: (6, 1), counts: [2, 3, 3], allowances: [3, 4, 11], imbalance: 5667 } },
];

/// As many and as heavy tiles as there can be, but the first one unit lighter.
const ONE_LIGHTER: [u32; TILES] = {
    let mut weights = [WEIGHT; TILES];
    weights[0] = WEIGHT - 1;
    weights
};

/// A row that is halved.
struct Row {
    name: &'static str,
    weights: &'static [u32],
    speeds: &'static [u32],
    separators: &'static [u32],
    bottleneck: (u64, u64),
    /// The splits with two nearest weights on the left, and those with tiles of weight 0 behind the separator.
    splits: [u64; 2],
    /// Whether the greatest load is the most that 16.7 allows.
    meets: bool,
}

/// The rows of the scope.
#[rustfmt::skip]
const ROWS: [Row; 7] = [
    Row { name: "F", weights: &[4, 3, 2, 6, 1], speeds: &[7], separators: &[0, 5], bottleneck: (16, 7), splits: [0, 0], meets: true },
    Row { name: "G", weights: &[1, 2, 1], speeds: &[1, 1], separators: &[0, 1, 3], bottleneck: (3, 1), splits: [1, 0], meets: true },
    Row { name: "H", weights: &[2, 0, 0, 2], speeds: &[1, 1], separators: &[0, 1, 4], bottleneck: (2, 1), splits: [0, 1], meets: false },
    Row { name: "I", weights: &[5, 1, 1, 1, 4, 2, 2, 2], speeds: &[3, 3, 3, 3], separators: &[0, 1, 4, 5, 8], bottleneck: (6, 3), splits: [1, 0], meets: false },
    Row { name: "J", weights: &[1, 3, 1, 2, 3], speeds: &[1, 1, 1, 1], separators: &[0, 1, 3, 4, 5], bottleneck: (4, 1), splits: [1, 0], meets: false },
    Row { name: "K", weights: &[], speeds: &[3, 3], separators: &[0, 0, 0], bottleneck: (0, 3), splits: [0, 0], meets: true },
    Row { name: "L", weights: &[6], speeds: &[1, 1, 1, 1], separators: &[0, 0, 0, 0, 1], bottleneck: (6, 1), splits: [2, 0], meets: true },
];

/// Worked by hand: halves that are no whole numbers, tiles of weight 0 in front, behind and at two nearest, nothing that weighs, a heavy
/// tile, the greatest load on two machines, equal tiles on four machines and on eight, and one each that is better and worse than the quick plan.
#[rustfmt::skip]
const MORE_ROWS: [Row; 11] = [
    Row { name: "a half of 5, the greater nearer", weights: &[1, 2, 2], speeds: &[1, 1], separators: &[0, 2, 3], bottleneck: (3, 1), splits: [0, 0], meets: false },
    Row { name: "a half of 5, both as near", weights: &[2, 1, 2], speeds: &[1, 1], separators: &[0, 1, 3], bottleneck: (3, 1), splits: [1, 0], meets: false },
    Row { name: "0 in front and behind", weights: &[0, 0, 2, 2, 0, 0], speeds: &[1, 1], separators: &[0, 3, 6], bottleneck: (2, 1), splits: [0, 0], meets: false },
    Row { name: "0 in front of two nearest", weights: &[0, 0, 6, 0], speeds: &[1, 1], separators: &[0, 0, 4], bottleneck: (6, 1), splits: [1, 1], meets: true },
    Row { name: "nothing weighs", weights: &[0, 0, 0], speeds: &[2, 2, 2, 2], separators: &[0, 0, 0, 0, 3], bottleneck: (0, 2), splits: [0, 0], meets: true },
    Row { name: "a heavy tile", weights: &[1, 1, 7, 0], speeds: &[4, 4], separators: &[0, 2, 4], bottleneck: (7, 4), splits: [0, 0], meets: false },
    Row { name: "the greatest load twice", weights: &[3, 1, 2, 0, 0, 3], speeds: &[2, 2, 2, 2], separators: &[0, 1, 2, 3, 6], bottleneck: (3, 2), splits: [0, 1], meets: false },
    Row { name: "five equal tiles", weights: &[2, 2, 2, 2, 2], speeds: &[1, 1, 1, 1], separators: &[0, 1, 2, 3, 5], bottleneck: (4, 1), splits: [2, 0], meets: true },
    Row { name: "eight machines", weights: &[1, 1, 1, 1, 1, 1, 1, 1, 1], speeds: &[1; 8], separators: &[0, 1, 2, 3, 4, 5, 6, 7, 9], bottleneck: (2, 1), splits: [3, 0], meets: true },
    Row { name: "better than the quick plan, 0 1 1 3 4", weights: &[3, 3, 1, 2], speeds: &[1; 4], separators: &[0, 0, 1, 2, 4], bottleneck: (3, 1), splits: [2, 0], meets: false },
    Row { name: "worse than the quick plan, 0 1 2 3 3 4 6 7 8", weights: &[1, 2, 2, 2, 1, 1, 2, 1], speeds: &[1; 8], separators: &[0, 1, 2, 2, 3, 4, 5, 6, 8], bottleneck: (3, 1), splits: [4, 0], meets: false },
];

/// Of the second edition, worked by hand, each with its start-up work: it changes no separator, and each machine with a tile has it.
#[rustfmt::skip]
const SECOND_ROWS: [(u32, Row); 7] = [
    (2, Row { name: "G with start-up work", weights: &[1, 2, 1], speeds: &[1, 1], separators: &[0, 1, 3], bottleneck: (5, 1), splits: [1, 0], meets: true }),
    (9, Row { name: "F with start-up work", weights: &[4, 3, 2, 6, 1], speeds: &[7], separators: &[0, 5], bottleneck: (25, 7), splits: [0, 0], meets: true }),
    (4, Row { name: "I with start-up work", weights: &[5, 1, 1, 1, 4, 2, 2, 2], speeds: &[3, 3, 3, 3], separators: &[0, 1, 4, 5, 8], bottleneck: (10, 3), splits: [1, 0], meets: false }),
    (5, Row { name: "K with start-up work", weights: &[], speeds: &[3, 3], separators: &[0, 0, 0], bottleneck: (0, 3), splits: [0, 0], meets: false }),
    (3, Row { name: "L with start-up work", weights: &[6], speeds: &[1, 1, 1, 1], separators: &[0, 0, 0, 0, 1], bottleneck: (9, 1), splits: [2, 0], meets: true }),
    (7, Row { name: "nothing weighs, with start-up work", weights: &[0, 0, 0], speeds: &[2, 2, 2, 2], separators: &[0, 0, 0, 0, 3], bottleneck: (7, 2), splits: [0, 0], meets: true }),
    (0, Row { name: "J in the second edition", weights: &[1, 3, 1, 2, 3], speeds: &[1, 1, 1, 1], separators: &[0, 1, 3, 4, 5], bottleneck: (4, 1), splits: [1, 0], meets: false }),
];

/// The solver must give what is known of a row, then the planner; then with lists of every length.
fn halved(c: &mut Check, startup: Option<u32>, row: &Row) {
    let job = Job::of(startup, row.speeds, row.weights);
    let found = halving::in_turn(&job);
    let separators: Vec<usize> = row.separators.iter().map(|&s| s as usize).collect();
    let mut good = found.separators == separators && halving::by_sums(&job) == separators;
    let (load, speed) = (row.bottleneck.0 as u128, row.bottleneck.1 as u128);
    good &= [found.ties, found.noughts] == row.splits && slow::bottleneck(&job, &separators) == (load, speed);
    good &= (job.speeds.len() as u128 * load == halving::most(&job)) == row.meets;
    if !good {
        c.fail(&format!("the solver gives {:?} for row {}", found, row.name), String::new());
    }
    halved_as(c, &job, row.separators, row.bottleneck);
    c.jobs_seen += 1;
    every::halve(c, &job, &methods::quick(&job), fast::solve(&job).1, true);
}

/// The planner must give these separators and this bottleneck, in lists that are longer.
fn halved_as(c: &mut Check, job: &Job, separators: &[u32], (load, speed): (u64, u64)) {
    let (lent, edition) = (c.rng.pattern(4 * separators.len() + 12), c.edition(job));
    on_lists(c, job, Call::Halving(edition), &lent, Ok((separators, &[load, speed])));
}

/// A call on lists must leave these separators and say these numbers, or be refused.
fn on_lists(c: &mut Check, job: &Job, call: Call, lent: &[u8], wanted: Result<(&[u32], &[u64]), u32>) {
    let (e, w, answer) = (bytes_of(&job.speeds), bytes_of(&job.weights), c.rng.pattern(8 * 4));
    let (h, stays) = (c.holds(job), After::default);
    assert_eq!(call.edition().and_then(Edition::counts), job.startup);
    let wanted = wanted.map(|(separators, numbers)| {
        let said = numbers.iter().flat_map(|n| n.to_le_bytes()).collect();
        let list = |front: Vec<u8>| After { front, free: 0 };
        vec![stays(), stays(), stays(), list(bytes_of(separators)), list(said)]
    });
    c.ask(call, &[&e, &h, &w, lent, &answer], &wanted);
}

/// The rows as the scope writes them, and what it says of I and J beside them; then 16.10, and the longest row at the limits.
fn rows(c: &mut Check) {
    for row in ROWS.iter().chain(&MORE_ROWS) {
        halved(c, None, row);
    }
    for (startup, row) in &SECOND_ROWS {
        halved(c, Some(*startup), row);
    }
    let quick = methods::quick(&Job::new(ROWS[3].speeds, ROWS[3].weights));
    let best = fast::solve(&Job::new(ROWS[4].speeds, ROWS[4].weights)).1;
    let said = format!("the quick plan is {} |", text(&quick));
    in_scope(c, &format!("{} half of the part, not of the whole; {}", cells(&ROWS[3]), said));
    in_scope(c, &format!("{} it is not the plan, whose bottleneck is {}/{} |", cells(&ROWS[4]), best.0, best.1));
    for row in &ROWS {
        in_scope(c, &cells(row));
    }
    for (speeds, room) in [(&[1, 2][..], 0), (&[1, 2], 3), (&[5, 5, 5], 0), (&[5, 5, 5], 4)] {
        let (e, lent) = (bytes_of(speeds), c.rng.pattern(4 * room));
        for edition in [Edition::FIRST, Edition { second: true, startup: 1 }] {
            for holds in [0, speeds.len()] {
                let h = c.rng.pattern(2 * holds);
                c.refuse(Call::Halving(edition), &[&e, &h, &[], &lent, &[]], 14);
            }
        }
    }
    // As many and as heavy tiles as there can be; then as many as leave one more than goes evenly, which the last machine takes.
    let each = TILES / LONGEST_HALVED;
    for (tiles, share) in [(TILES, each), (TILES - LONGEST_HALVED + 1, each - 1)] {
        let mut separators: Vec<u32> = (0..=LONGEST_HALVED).map(|p| (p * share) as u32).collect();
        separators[LONGEST_HALVED] = tiles as u32;
        for startup in [None, Some(0), Some(STARTUP)] {
            let job = Job::of(startup, &[SPEED; LONGEST_HALVED], &vec![WEIGHT; tiles]);
            halved_as(c, &job, &separators, (startup.unwrap_or(0) as u64 + each as u64 * WEIGHT as u64, SPEED as u64));
        }
    }
}

/// Numbers as the scope's tables write them.
fn text(list: &[impl ToString]) -> String {
    let words: Vec<String> = list.iter().map(|n| n.to_string()).collect();
    match words.len() {
        0 => "none".to_string(),
        _ => words.join(" "),
    }
}

/// A row of the scope's table up to its last cell.
fn cells(row: &Row) -> String {
    let (load, speed) = row.bottleneck;
    format!("| {} | {} | {} | {} | {}/{} |", row.name, text(row.weights), text(row.speeds), text(row.separators), load, speed)
}

/// A row of the scope's tables of jobs, with what stands between speeds and separators.
fn cells_of_job<const METHODS: usize>(k: &Known<METHODS>, between: &str) -> String {
    let list = |numbers: [u64; METHODS]| numbers.map(|n| n.to_string()).join(", ");
    let front = format!("| {} | {} | {} | {} |", k.name, text(k.weights), text(k.speeds), between);
    let ((load, speed), counts, allowances) = (k.bottleneck, list(k.counts), list(k.allowances));
    format!("{} {} | {}/{} | {} | {} | {} |", front, text(k.separators), load, speed, k.imbalance, counts, allowances)
}

const SCOPE: &str = include_str!("../../../docs/SCOPE.md");

fn in_scope(c: &mut Check, words: &str) {
    if !SCOPE.contains(words) {
        c.fail(&format!("docs/SCOPE.md does not say: {}", words), String::new());
    }
}

/// The same, and the sentence, or its part, ends there.
fn sentence(c: &mut Check, words: &str) {
    if !SCOPE.match_indices(words).any(|(at, _)| SCOPE[at + words.len()..].starts_with(['.', ':', ';'])) {
        c.fail(&format!("docs/SCOPE.md does not say: {}", words), String::new());
    }
}

/// The solver must give what is known.
fn solved<const METHODS: usize>(c: &mut Check, job: &Job, k: &Known<METHODS>) -> Solved {
    let solved = Solved::of(job);
    let mut good = solved.best == k.separators && solved.bottleneck == k.bottleneck && solved.counts[..METHODS] == k.counts;
    good &= solved.imbalance == k.imbalance;
    good &= fast::solve(job) == (k.separators.to_vec(), k.bottleneck) && methods::moves_by_walks(job) == k.counts[0];
    good &= k.counts.get(3).is_none_or(|&trials| methods::search_by_sums(job).trials == trials);
    good &= (1..).zip(k.allowances).all(|(m, allowance)| methods::allowance(job, m) == allowance);
    if !good {
        c.fail(&format!("the solver gives {:?} for job {}", solved, k.name), String::new());
    }
    solved
}

/// The solver must give what is known, then the planner what the solver gives: of a tiny job with lists of all lengths together.
fn marked(c: &mut Check, startup: Option<u32>, k: &Known) {
    let job = Job::of(startup, k.speeds, k.weights);
    let solved = solved(c, &job, k);
    let tiny = is_tiny(&job);
    let rounds = if tiny { 20 } else { 1 };
    for _ in 0..rounds {
        every::job(c, &solved, tiny);
    }
}

/// The quick plan of A, and two measurings: in the first edition with any start-up work beside them, in the second with 0, and with 5.
fn lines_of_a(c: &mut Check) {
    let lines = |c: &mut Check, n: Edition, quick: [u64; 2], all_on_first: [u64; 2]| {
        let a = Job::of(n.counts(), JOBS[0].speeds, JOBS[0].weights);
        on_lists(c, &a, Call::Quick(n), &bytes_of(&[9, 8, 7]), Ok((&[0, 2, 3], &quick)));
        on_lists(c, &a, Call::Measure(n), &bytes_of(&[0, 3, 3]), Ok((&[0, 3, 3], &all_on_first)));
        on_lists(c, &a, Call::Measure(n), &bytes_of(&[0, 2, 2]), Err(11));
    };
    for startup in [0, 5, STARTUP, STARTUP + 1, u32::MAX] {
        lines(c, Edition { second: false, startup }, [4, 1], [12, 1]);
    }
    lines(c, Edition { second: true, startup: 0 }, [4, 1], [12, 1]);
    lines(c, Edition { second: true, startup: 5 }, [9, 1], [17, 1]);
    // All on machine 2: its load has the start-up work, the first machine's is 0.
    let a = Job::of(Some(5), JOBS[0].speeds, JOBS[0].weights);
    on_lists(c, &a, Call::Measure(Edition { second: true, startup: 5 }), &bytes_of(&[0, 0, 3]), Ok((&[0, 0, 3], &[17, 3])));
}

/// The rows of section 17 and the sentences beside them: the quick plan of M, N without its start-up work, and no tiles.
fn lines_of_section_17(c: &mut Check) {
    for (startup, k) in &STARTED {
        in_scope(c, &cells_of_job(k, &startup.to_string()));
    }
    let (startup, m) = &STARTED[0];
    let n = Edition { second: true, startup: *startup };
    let m = Job::of(n.counts(), m.speeds, m.weights);
    on_lists(c, &m, Call::Quick(n), &bytes_of(&[9, 8, 7]), Ok((&[0, 2, 3], &[6, 1])));
    in_scope(c, "The quick plan of M is 0 2 3 with bottleneck 6/1.");
    let without = Job::new(STARTED[1].1.speeds, STARTED[1].1.weights);
    let good = slow::solve(&without).0 == [0, 1, 3] && slow::less((8, 4), slow::bottleneck(&without, &[0, 0, 3]));
    if !good {
        c.fail("the solver's plan of N without start-up work is another", String::new());
    }
    every::job(c, &Solved::of(&without), true);
    in_scope(c, "Of N only machine 2 has tiles; without c both have: the plan is 0 1 3 then, and 0 0 3 is not best.");
    let none = Job::of(Some(9), &[7, 2], &[]);
    on_lists(c, &none, Call::Measure(Edition { second: true, startup: 9 }), &bytes_of(&[0, 0, 0]), Ok((&[0, 0, 0], &[0, 7])));
    every::job(c, &Solved::of(&none), true);
    in_scope(c, "on speeds 7 2 with c = 9 the bottleneck is 0/7.");
}

/// The rows of section 18 and the sentences beside them: measuring and grading of S, what is refused, and the listing of S.
fn lines_of_section_18(c: &mut Check) {
    for k in &LIMITED {
        let startup = k.startup.map_or("none".to_string(), |c| c.to_string());
        in_scope(c, &cells_of_job(&k.known, &format!("{} | {}", text(k.holds), startup)));
    }
    let (n, lent) = (Edition::FIRST, bytes_of(&[9, 8, 7, 6]));
    let [r, s, _, u, _, _, x, _] = &LIMITED;
    let of_s = s.job();
    on_lists(c, &of_s, Call::Measure(n), &bytes_of(&[0, 1, 3]), Err(11));
    on_lists(c, &of_s, Call::Measure(n), &bytes_of(&[0, 2, 3]), Ok((&[0, 2, 3], &[4, 1])));
    if of_s.unlimited() != Job::new(JOBS[0].speeds, JOBS[0].weights) || JOBS[0].separators != [0, 1, 3] {
        c.fail("S is not A with holds", String::new());
    }
    in_scope(c, "Measuring 0 1 3 of S is refused with 11, and it is the plan of A, which is S without holds; measuring 0 2 3 gives 4/1.");
    for (division, grade) in [([0, 2, 3], 1u64), ([0, 3, 3], 2)] {
        let plan = crate::grading::file(&of_s, &division);
        let (e, h, w, answer) = (bytes_of(&of_s.speeds), c.holds(&of_s), bytes_of(&of_s.weights), c.rng.pattern(8));
        let said = After { front: grade.to_le_bytes().to_vec(), free: 0 };
        let stays = After::default;
        c.ask(Call::Grade(n), &[&e, &h, &w, &plan, &answer], &Ok(vec![stays(), stays(), stays(), stays(), said]));
    }
    in_scope(c, "Of S the division 0 2 3 is best and 0 3 3 is valid.");
    let mut plans = |k: &Held, holds: &[u16], numbers: [u32; 4], quick: u32| {
        let job = k.job().holding(holds.to_vec());
        let (e, w, h) = (bytes_of(&job.speeds), bytes_of(&job.weights), c.holds(&job));
        let (work, plan) = (c.rng.pattern(4 * 30), c.rng.pattern(48));
        for (method, number) in (1..).zip(numbers) {
            c.refuse(Call::Plan(n, method), &[&e, &h, &w, &lent, &work, &[]], number);
            c.refuse(Call::Host { method }, &[&job.file(), &plan], number);
        }
        c.refuse(Call::Quick(n), &[&e, &h, &w, &lent, &[]], quick);
    };
    plans(u, &[1, 1], [17; 4], 18);
    plans(u, &[1, 0], [0, 0, 0, 18], 18);
    plans(r, r.holds, [0, 0, 0, 18], 18);
    in_scope(c, "With holds 1 1 in place of 1 2 job U is refused with 17, by method 4 too; with holds 1 0 it is planned.");
    in_scope(c, "Method 4 and the quick plan of R are refused with 18; so is the quick plan of U with holds 1 1.");
    for (speeds, number) in [(x.known.speeds, 14), (&[1, 1][..], 18)] {
        let (e, h, w) = (bytes_of(speeds), bytes_of_holds(x.holds), bytes_of(x.known.weights));
        c.refuse(Call::Halving(n), &[&e, &h, &w, &lent, &[]], number);
    }
    in_scope(c, "The halved row of X is refused with 14; on speeds 1 1 it is refused with 18.");
    let listing = crate::listing::wanted(&of_s.file());
    let lines: Vec<String> = listing.lines().map(|line| format!("       {}\n", line)).collect();
    in_scope(c, &format!("`strips` writes for S:\n\n{}", lines.concat()));
}

/// A trial with its answer: 1 and the number of machines that its walk came to, or 0 and the next bid.
struct Tried {
    name: &'static str,
    weights: &'static [u32],
    speeds: &'static [u32],
    bound: (u64, u64),
    said: &'static [u64],
    separators: &'static [u32],
}

/// The trials of the scope, all but the one called A with the words that it begins with.
#[rustfmt::skip]
const TRIALS: [Tried; 11] = [
    Tried { name: "A trial of A", weights: JOBS[0].weights, speeds: JOBS[0].speeds, bound: (3, 1), said: &[0, 11, 3], separators: &[0, 1, 2] },
    Tried { name: "A trial of A", weights: JOBS[0].weights, speeds: JOBS[0].speeds, bound: (11, 3), said: &[1, 2], separators: &[0, 1, 3] },
    Tried { name: "A", weights: JOBS[0].weights, speeds: JOBS[0].speeds, bound: (23, 6), said: &[1, 2], separators: &[0, 1, 3] },
    Tried { name: "A trial of B", weights: JOBS[1].weights, speeds: JOBS[1].speeds, bound: (4, 1), said: &[0, 12, 2], separators: &[0, 1, 3] },
    Tried { name: "A trial of E", weights: JOBS[4].weights, speeds: JOBS[4].speeds, bound: (5, 1), said: &[0, 6, 1], separators: &[0, 0, 0] },
    Tried { name: "Of weights 2 0 3 on one machine of speed 1 a trial", weights: &[2, 0, 3], speeds: &[1], bound: (2, 1), said: &[0, 5, 1], separators: &[0, 2] },
    Tried { name: "A trial of A", weights: JOBS[0].weights, speeds: JOBS[0].speeds, bound: (12, 1), said: &[1, 1], separators: &[0, 3, 3] },
    Tried { name: "A trial of D", weights: JOBS[3].weights, speeds: JOBS[3].speeds, bound: (0, 1), said: &[1, 1], separators: &[0, 2, 2] },
    Tried { name: "A trial of C", weights: JOBS[2].weights, speeds: JOBS[2].speeds, bound: (0, 1), said: &[1, 0], separators: &[0, 0, 0] },
    Tried { name: "Of weights 2 3 0 0 on speeds 1 1 1 a trial", weights: &[2, 3, 0, 0], speeds: &[1, 1, 1], bound: (3, 1), said: &[1, 2], separators: &[0, 1, 4, 4] },
    Tried { name: "Of weights 6 on speeds 1 2 1 a trial", weights: &[6], speeds: &[1, 2, 1], bound: (3, 1), said: &[1, 2], separators: &[0, 0, 1, 1] },
];

/// Worked by hand.
#[rustfmt::skip]
const MORE_TRIALS: [Tried; 14] = [
    Tried { name: "nought", weights: JOBS[1].weights, speeds: JOBS[1].speeds, bound: (0, 1), said: &[0, 4, 1], separators: &[0, 0, 0] },
    Tried { name: "no tiles", weights: &[], speeds: &[7, 2], bound: (0, 1), said: &[1, 0], separators: &[0, 0, 0] },
    Tried { name: "none reached, 0 in front of it and behind", weights: &[0, 5, 0, 0, 7, 0], speeds: &[1, 1], bound: (5, 1), said: &[0, 7, 1], separators: &[0, 4, 4] },
    Tried { name: "some reached, a machine without a tile", weights: &[3, 0, 2, 4, 0], speeds: &[1, 2, 1], bound: (2, 1), said: &[0, 5, 2], separators: &[0, 0, 2, 3] },
    Tried { name: "0 taken along by the last", weights: &[2, 2, 0, 0, 9], speeds: &[1, 1], bound: (2, 1), said: &[0, 4, 1], separators: &[0, 1, 4] },
    Tried { name: "0 at the end not reached", weights: &[1, 1, 1, 0], speeds: &[1, 1], bound: (1, 1), said: &[0, 2, 1], separators: &[0, 1, 2] },
    Tried { name: "the last alone reaches any", weights: &[5, 1, 1, 9, 1], speeds: &[1, 1, 10], bound: (1, 1), said: &[0, 17, 10], separators: &[0, 0, 0, 3] },
    Tried { name: "between two bids of the last", weights: &[1, 2, 2, 2], speeds: &[2, 3], bound: (4, 3), said: &[0, 3, 2], separators: &[0, 1, 3] },
    Tried { name: "one machine, none reached", weights: &[3], speeds: &[2], bound: (1, 1), said: &[0, 3, 2], separators: &[0, 0] },
    Tried { name: "one machine, 0 reached", weights: &[0, 0, 4, 1], speeds: &[1], bound: (0, 1), said: &[0, 5, 1], separators: &[0, 2] },
    Tried { name: "the most and heaviest tiles, shares of just the bound", weights: &[WEIGHT; TILES], speeds: &[SPEED; 2], bound: (BOUND_LOAD, BOUND_SPEED), said: &[0, 1_001_000_000, 10_000], separators: &[0, 1000, 2000] },
    Tried { name: "the same, as little below it as can be", weights: &[WEIGHT; TILES], speeds: &[SPEED; 2], bound: (BOUND_LOAD - 1, BOUND_SPEED), said: &[0, 1_000_000_000, 10_000], separators: &[0, 999, 1998] },
    Tried { name: "a last share of more than 30 bits", weights: &[WEIGHT; TILES], speeds: &[1, SPEED], bound: (150_000, 1), said: &[0, 2_048_000_000, 10_000], separators: &[0, 0, 1500] },
    Tried { name: "the greatest bound", weights: &[WEIGHT; TILES], speeds: &[1, 1], bound: (BOUND_LOAD, 1), said: &[1, 1], separators: &[0, 2048, 2048] },
];

/// The separators of the longest row.
const ENTRIES: usize = MACHINES + 1;

/// So many numbers: some in front, some at the end, and the same between.
const fn list<const LEN: usize>(front: &[u32], between: u32, end: &[u32]) -> [u32; LEN] {
    let mut list = [between; LEN];
    let mut k = 0;
    while k < front.len() {
        list[k] = front[k];
        k += 1;
    }
    k = 0;
    while k < end.len() {
        list[LEN - end.len() + k] = end[k];
        k += 1;
    }
    list
}

/// The separators of the longest row where each machine takes so many tiles as long as there are any.
const fn steps(each: usize, tiles: usize) -> [u32; ENTRIES] {
    let mut list = [0; ENTRIES];
    let mut p = 0;
    while p < ENTRIES {
        list[p] = if each * p < tiles { each * p } else { tiles } as u32;
        p += 1;
    }
    list
}

/// Short strips, and what a walk that ends early leaves, worked by hand: the longest row with one, two and three tiles, one to a machine, several
/// on the first, on the second since the first is too slow, on the last but one, on the last alone; as many tiles as machines, and one fewer; a few tiles that
/// weigh in front of as many as there can be; weights 0 at the end; machines between without a tile; no tiles; one machine; the last machine needed or not.
#[rustfmt::skip]
const SHORT: [Tried; 38] = [
    Tried { name: "one tile on the longest row", weights: &[5], speeds: &[1; MACHINES], bound: (5, 1), said: &[1, 1], separators: &list::<ENTRIES>(&[0], 1, &[]) },
    Tried { name: "one tile that is too heavy for the longest row", weights: &[5], speeds: &[1; MACHINES], bound: (4, 1), said: &[0, 5, 1], separators: &[0; ENTRIES] },
    Tried { name: "two tiles, one a machine", weights: &[5, 5], speeds: &[1; MACHINES], bound: (5, 1), said: &[1, 2], separators: &list::<ENTRIES>(&[0, 1], 2, &[]) },
    Tried { name: "two tiles on the first machine", weights: &[5, 5], speeds: &[1; MACHINES], bound: (10, 1), said: &[1, 1], separators: &list::<ENTRIES>(&[0], 2, &[]) },
    Tried { name: "three tiles, one a machine", weights: &[5, 5, 5], speeds: &[1; MACHINES], bound: (5, 1), said: &[1, 3], separators: &list::<ENTRIES>(&[0, 1, 2], 3, &[]) },
    Tried { name: "three tiles, two on the first machine", weights: &[5, 5, 5], speeds: &[1; MACHINES], bound: (10, 1), said: &[1, 2], separators: &list::<ENTRIES>(&[0, 2], 3, &[]) },
    Tried { name: "three tiles on the first machine", weights: &[5, 5, 5], speeds: &[1; MACHINES], bound: (15, 1), said: &[1, 1], separators: &list::<ENTRIES>(&[0], 3, &[]) },
    Tried { name: "three tiles, as little below that as can be", weights: &[5, 5, 5], speeds: &[1; MACHINES], bound: (14_999_999_999, 1_000_000_000), said: &[1, 2], separators: &list::<ENTRIES>(&[0, 2], 3, &[]) },
    Tried { name: "one tile, the first machine too slow", weights: &[5], speeds: &list::<MACHINES>(&[1, 5], 1, &[]), bound: (1, 1), said: &[1, 2], separators: &list::<ENTRIES>(&[0, 0], 1, &[]) },
    Tried { name: "two tiles, the first machine too slow", weights: &[5, 5], speeds: &list::<MACHINES>(&[1, 10], 1, &[]), bound: (1, 1), said: &[1, 2], separators: &list::<ENTRIES>(&[0, 0], 2, &[]) },
    Tried { name: "three tiles, the first machine too slow", weights: &[5, 5, 5], speeds: &list::<MACHINES>(&[1, 15], 1, &[]), bound: (1, 1), said: &[1, 2], separators: &list::<ENTRIES>(&[0, 0], 3, &[]) },
    Tried { name: "one tile for the last machine but one alone", weights: &[5], speeds: &list::<MACHINES>(&[], 1, &[5, 1]), bound: (1, 1), said: &[1, 95], separators: &list::<ENTRIES>(&[], 0, &[1, 1]) },
    Tried { name: "one tile for the last machine alone", weights: &[5], speeds: &list::<MACHINES>(&[], 1, &[5]), bound: (1, 1), said: &[1, 96], separators: &list::<ENTRIES>(&[], 0, &[1]) },
    Tried { name: "two tiles for the last machine alone", weights: &[5, 5], speeds: &list::<MACHINES>(&[], 1, &[10]), bound: (1, 1), said: &[1, 96], separators: &list::<ENTRIES>(&[], 0, &[2]) },
    Tried { name: "three tiles for the last machine alone", weights: &[5, 5, 5], speeds: &list::<MACHINES>(&[], 1, &[15]), bound: (1, 1), said: &[1, 96], separators: &list::<ENTRIES>(&[], 0, &[3]) },
    Tried { name: "one tile for the first machine, one for the last", weights: &[1, 5], speeds: &list::<MACHINES>(&[], 1, &[5]), bound: (1, 1), said: &[1, 96], separators: &list::<ENTRIES>(&[0], 1, &[2]) },
    Tried { name: "as many tiles as machines", weights: &[5; MACHINES], speeds: &[1; MACHINES], bound: (5, 1), said: &[1, 96], separators: &steps(1, MACHINES) },
    Tried { name: "one tile fewer than machines", weights: &[5; MACHINES - 1], speeds: &[1; MACHINES], bound: (5, 1), said: &[1, 95], separators: &steps(1, MACHINES - 1) },
    Tried { name: "the most and heaviest tiles, 22 a machine", weights: &[WEIGHT; TILES], speeds: &[1; MACHINES], bound: (22_000_000, 1), said: &[1, 94], separators: &steps(22, TILES) },
    Tried { name: "the most tiles, all weight at the front", weights: &list::<TILES>(&[WEIGHT], 0, &[]), speeds: &[1; MACHINES], bound: (1_000_000, 1), said: &[1, 1], separators: &list::<ENTRIES>(&[0], 2048, &[]) },
    Tried { name: "the same, as little below that as can be", weights: &list::<TILES>(&[WEIGHT], 0, &[]), speeds: &[1; MACHINES], bound: (99_999_999_999_999, 100_000_000), said: &[0, 1_000_000, 1], separators: &[0; ENTRIES] },
    Tried { name: "the most tiles, two that weigh at the front", weights: &list::<TILES>(&[WEIGHT, WEIGHT], 0, &[]), speeds: &[1; MACHINES], bound: (1_000_000, 1), said: &[1, 2], separators: &list::<ENTRIES>(&[0, 1], 2048, &[]) },
    Tried { name: "the most tiles, all weight at the end, for the last machine alone", weights: &list::<TILES>(&[], 0, &[5]), speeds: &list::<MACHINES>(&[], 1, &[5]), bound: (1, 1), said: &[1, 96], separators: &list::<ENTRIES>(&[0], 2047, &[2048]) },
    Tried { name: "the most tiles, nothing weighs", weights: &[0; TILES], speeds: &[1; MACHINES], bound: (0, 1), said: &[1, 1], separators: &list::<ENTRIES>(&[0], 2048, &[]) },
    Tried { name: "0 at the end", weights: &[2, 2, 0, 0], speeds: &[1, 1, 1], bound: (2, 1), said: &[1, 2], separators: &[0, 1, 4, 4] },
    Tried { name: "0 at the end, on the last machine", weights: &[2, 2, 0], speeds: &[1, 1], bound: (2, 1), said: &[1, 2], separators: &[0, 1, 3] },
    Tried { name: "0 behind a tile for the last machine alone", weights: &[1, 9, 0, 0], speeds: &[1, 1, 9], bound: (1, 1), said: &[1, 3], separators: &[0, 1, 1, 4] },
    Tried { name: "a machine between without a tile", weights: &[0, 9], speeds: &[1, 1, 9, 1], bound: (1, 1), said: &[1, 3], separators: &[0, 1, 1, 2, 2] },
    Tried { name: "only 0 for the first machine", weights: &[0, 0, 9, 0], speeds: &[1, 9, 1], bound: (1, 1), said: &[1, 2], separators: &[0, 2, 4, 4] },
    Tried { name: "no tiles on one machine", weights: &[], speeds: &[3], bound: (0, 1), said: &[1, 0], separators: &[0, 0] },
    Tried { name: "no tiles on the longest row", weights: &[], speeds: &[1; MACHINES], bound: (0, 1), said: &[1, 0], separators: &[0; ENTRIES] },
    Tried { name: "no tiles, at the greatest bound", weights: &[], speeds: &[SPEED; MACHINES], bound: (BOUND_LOAD, 1), said: &[1, 0], separators: &[0; ENTRIES] },
    Tried { name: "one machine", weights: &[4, 0, 3], speeds: &[5], bound: (7, 5), said: &[1, 1], separators: &[0, 3] },
    Tried { name: "one machine, a tile of weight 0", weights: &[0], speeds: &[5], bound: (0, 1), said: &[1, 1], separators: &[0, 1] },
    Tried { name: "one machine, the most and heaviest tiles", weights: &[WEIGHT; TILES], speeds: &[SPEED], bound: (BOUND_LOAD, 1), said: &[1, 1], separators: &[0, 2048] },
    Tried { name: "the last of three machines needed", weights: &[2, 2, 2], speeds: &[1, 1, 1], bound: (3, 1), said: &[1, 3], separators: &[0, 1, 2, 3] },
    Tried { name: "the last of three machines not needed", weights: &[2, 2, 2], speeds: &[1, 1, 1], bound: (4, 1), said: &[1, 2], separators: &[0, 2, 3, 3] },
    Tried { name: "the greatest bound on the longest row", weights: &[WEIGHT; TILES], speeds: &[1; MACHINES], bound: (BOUND_LOAD, 1), said: &[1, 1], separators: &list::<ENTRIES>(&[0], 2048, &[]) },
];

/// Of the second edition, each with its start-up work: the two of the scope, the others worked by hand.
#[rustfmt::skip]
const SECOND_TRIALS: [(u32, Tried); 27] = [
    (2, Tried { name: "A trial of M", weights: STARTED[0].1.weights, speeds: STARTED[0].1.speeds, bound: (1, 1), said: &[0, 3, 1], separators: &[0, 0, 1] }),
    (2, Tried { name: "A trial of M", weights: STARTED[0].1.weights, speeds: STARTED[0].1.speeds, bound: (14, 1), said: &[1, 1], separators: &[0, 3, 3] }),
    (5, Tried { name: "A with start-up work, at the ideal", weights: JOBS[0].weights, speeds: JOBS[0].speeds, bound: (3, 1), said: &[0, 17, 3], separators: &[0, 0, 2] }),
    (5, Tried { name: "A with start-up work, at its bottleneck", weights: JOBS[0].weights, speeds: JOBS[0].speeds, bound: (17, 3), said: &[1, 2], separators: &[0, 0, 3] }),
    (5, Tried { name: "A with start-up work, at 6/1", weights: JOBS[0].weights, speeds: JOBS[0].speeds, bound: (6, 1), said: &[1, 2], separators: &[0, 1, 3] }),
    (0, Tried { name: "A in the second edition", weights: JOBS[0].weights, speeds: JOBS[0].speeds, bound: (3, 1), said: &[0, 11, 3], separators: &[0, 1, 2] }),
    (3, Tried { name: "just the start-up work", weights: &[0, 4], speeds: &[1, 1], bound: (3, 1), said: &[0, 7, 1], separators: &[0, 1, 1] }),
    (3, Tried { name: "less than the start-up work", weights: &[0, 4], speeds: &[1, 1], bound: (2, 1), said: &[0, 3, 1], separators: &[0, 0, 0] }),
    (9, Tried { name: "start-up work and no tiles, at nought", weights: &[], speeds: &[7, 2], bound: (0, 1), said: &[1, 0], separators: &[0, 0, 0] }),
    (4, Tried { name: "one machine with start-up work", weights: &[3], speeds: &[2], bound: (3, 1), said: &[0, 7, 2], separators: &[0, 0] }),
    (4, Tried { name: "the first machine cannot start", weights: &[1, 1, 1, 4], speeds: &[1, 2, 3], bound: (5, 2), said: &[0, 6, 2], separators: &[0, 0, 1, 3] }),
    (1_000_000, Tried { name: "the most of everything, at 100,000/1", weights: &[WEIGHT; TILES], speeds: &[SPEED; 2], bound: (BOUND_LOAD, BOUND_SPEED), said: &[0, 1_001_000_000, 10_000], separators: &[0, 999, 1998] }),
    (1_000_000, Tried { name: "the most of everything, at the greatest bound", weights: &[WEIGHT; TILES], speeds: &[1, 1], bound: (BOUND_LOAD, 1), said: &[1, 1], separators: &[0, 2048, 2048] }),
    (4, Tried { name: "two machines cannot start, and count", weights: &[1], speeds: &[1, 1, 5, 1], bound: (1, 1), said: &[1, 3], separators: &[0, 0, 0, 1, 1] }),
    (3, Tried { name: "the last machine alone can start, 0 in front and behind", weights: &[0, 0, 4, 0], speeds: &[1, 1, 7], bound: (1, 1), said: &[1, 3], separators: &[0, 0, 0, 4] }),
    (1_000_000, Tried { name: "the last of the longest row alone can start", weights: &[0], speeds: &list::<MACHINES>(&[], 9_999, &[SPEED]), bound: (100, 1), said: &[1, 96], separators: &list::<ENTRIES>(&[], 0, &[1]) }),
    (9, Tried { name: "start-up work and no tiles, on the longest row", weights: &[], speeds: &[1; MACHINES], bound: (0, 1), said: &[1, 0], separators: &[0; ENTRIES] }),
    (9, Tried { name: "start-up work and no tiles, on one machine", weights: &[], speeds: &[1], bound: (0, 1), said: &[1, 0], separators: &[0, 0] }),
    (5, Tried { name: "O at its bottleneck", weights: STARTED[2].1.weights, speeds: STARTED[2].1.speeds, bound: (5, 1), said: &[1, 1], separators: &[0, 2, 2] }),
    (4, Tried { name: "Q at its bottleneck", weights: STARTED[3].1.weights, speeds: STARTED[3].1.speeds, bound: (11, 3), said: &[1, 1], separators: &[0, 2] }),
    (2, Tried { name: "start-up work, one tile a machine", weights: &[1, 1, 1], speeds: &[1, 1, 1, 1], bound: (3, 1), said: &[1, 3], separators: &[0, 1, 2, 3, 3] }),
    (2, Tried { name: "start-up work, two tiles on the first machine", weights: &[1, 1, 1], speeds: &[1, 1, 1, 1], bound: (4, 1), said: &[1, 2], separators: &[0, 2, 3, 3, 3] }),
    (0, Tried { name: "three tiles on the longest row in the second edition", weights: &[5, 5, 5], speeds: &[1; MACHINES], bound: (5, 1), said: &[1, 3], separators: &list::<ENTRIES>(&[0, 1, 2], 3, &[]) }),
    (1, Tried { name: "three tiles on the longest row with start-up work, one a machine", weights: &[5, 5, 5], speeds: &[1; MACHINES], bound: (6, 1), said: &[1, 3], separators: &list::<ENTRIES>(&[0, 1, 2], 3, &[]) }),
    (1, Tried { name: "the same, two on the first machine", weights: &[5, 5, 5], speeds: &[1; MACHINES], bound: (11, 1), said: &[1, 2], separators: &list::<ENTRIES>(&[0, 2], 3, &[]) }),
    (1_000_000, Tried { name: "the most tiles of weight 0, just the start-up work", weights: &[0; TILES], speeds: &[1; MACHINES], bound: (1_000_000, 1), said: &[1, 1], separators: &list::<ENTRIES>(&[0], 2048, &[]) }),
    (1_000_000, Tried { name: "the most tiles of weight 0, less than the start-up work", weights: &[0; TILES], speeds: &[1; MACHINES], bound: (999_999, 1), said: &[0, 1_000_000, 1], separators: &[0; ENTRIES] }),
];

/// The trials of the scope with holds, with the words that they begin with.
#[rustfmt::skip]
const LIMITED_TRIALS: [(&Held, Tried); 8] = [
    (&LIMITED[0], Tried { name: "A trial of R", weights: LIMITED[0].known.weights, speeds: LIMITED[0].known.speeds, bound: (1, 1), said: &[0, 2, 1], separators: &[0, 1, 2, 4] }),
    (&LIMITED[0], Tried { name: "A trial of R", weights: LIMITED[0].known.weights, speeds: LIMITED[0].known.speeds, bound: (100, 1), said: &[1, 3], separators: &[0, 1, 3, 5] }),
    (&LIMITED[1], Tried { name: "A trial of S", weights: LIMITED[1].known.weights, speeds: LIMITED[1].known.speeds, bound: (11, 3), said: &[0, 4, 1], separators: &[0, 1, 2] }),
    (&LIMITED[1], Tried { name: "A trial of S", weights: LIMITED[1].known.weights, speeds: LIMITED[1].known.speeds, bound: (12, 1), said: &[1, 1], separators: &[0, 3, 3] }),
    (&LIMITED[2], Tried { name: "A trial of T", weights: LIMITED[2].known.weights, speeds: LIMITED[2].known.speeds, bound: (13, 4), said: &[0, 7, 2], separators: &[0, 1, 4, 5] }),
    (&LIMITED[3], Tried { name: "A trial of U", weights: LIMITED[3].known.weights, speeds: LIMITED[3].known.speeds, bound: (11, 1), said: &[0, 13, 1], separators: &[0, 1, 2] }),
    (&LIMITED[4], Tried { name: "A trial of V", weights: LIMITED[4].known.weights, speeds: LIMITED[4].known.speeds, bound: (3, 1), said: &[0, 4, 1], separators: &[0, 0, 2] }),
    (&LIMITED[5], Tried { name: "A trial of W", weights: LIMITED[5].known.weights, speeds: LIMITED[5].known.speeds, bound: (0, 1), said: &[1, 3], separators: &[0, 1, 3, 4] }),
];

/// With holds, worked by hand, each with its start-up work and its holds: jobs at the bounds that bidding and bisection try; a
/// machine at its hold, whose bid would have been the least; a last machine that reaches as far as it holds, and that holds just the rest;
/// weights 0; no tiles; start-up work; the longest row.
#[rustfmt::skip]
const HELD_TRIALS: [(Option<u32>, &[u16], Tried); 25] = [
    (None, &[1, 2, 2], Tried { name: "three machines at the ideal", weights: &[1; 5], speeds: &[1, 1, 5], bound: (5, 7), said: &[0, 1, 1], separators: &[0, 0, 0, 2] }),
    (None, &[1, 2, 2], Tried { name: "three machines, the first at its hold", weights: &[1; 5], speeds: &[1, 1, 5], bound: (1, 1), said: &[0, 2, 1], separators: &[0, 1, 2, 4] }),
    (None, &[1, 2, 2], Tried { name: "three machines, all at their holds", weights: &[1; 5], speeds: &[1, 1, 5], bound: (2, 1), said: &[1, 3], separators: &[0, 1, 3, 5] }),
    (None, &[1, 2, 2], Tried { name: "three machines at the greatest bound", weights: &[1; 5], speeds: &[1, 1, 5], bound: (BOUND_LOAD, 1), said: &[1, 3], separators: &[0, 1, 3, 5] }),
    (None, &[0, 1], Tried { name: "A, machine 2 holds a tile, at the ideal", weights: JOBS[0].weights, speeds: JOBS[0].speeds, bound: (3, 1), said: &[0, 4, 1], separators: &[0, 1, 2] }),
    (None, &[0, 1], Tried { name: "A, machine 2 holds a tile, at 11/3", weights: JOBS[0].weights, speeds: JOBS[0].speeds, bound: (11, 3), said: &[0, 4, 1], separators: &[0, 1, 2] }),
    (None, &[0, 1], Tried { name: "A, machine 2 holds a tile, at its bottleneck", weights: JOBS[0].weights, speeds: JOBS[0].speeds, bound: (4, 1), said: &[1, 2], separators: &[0, 2, 3] }),
    (None, &[0, 1], Tried { name: "A, machine 2 holds a tile and is not needed", weights: JOBS[0].weights, speeds: JOBS[0].speeds, bound: (12, 1), said: &[1, 1], separators: &[0, 3, 3] }),
    (None, &[2, 1], Tried { name: "A, as many places as tiles, at 100/1", weights: JOBS[0].weights, speeds: JOBS[0].speeds, bound: (100, 1), said: &[1, 2], separators: &[0, 2, 3] }),
    (None, &[3, 2], Tried { name: "B, as many places as tiles, at the ideal", weights: JOBS[1].weights, speeds: JOBS[1].speeds, bound: (16, 3), said: &[0, 7, 1], separators: &[0, 1, 3] }),
    (None, &[3, 2], Tried { name: "B, as many places as tiles, at 7/1", weights: JOBS[1].weights, speeds: JOBS[1].speeds, bound: (7, 1), said: &[0, 9, 1], separators: &[0, 2, 4] }),
    (None, &[1, 0, 0], Tried { name: "a machine at its hold has the least bid", weights: &[1, 1, 9], speeds: &[1, 1, 1], bound: (1, 1), said: &[0, 9, 1], separators: &[0, 1, 2, 2] }),
    (None, &[2, 0, 0], Tried { name: "the same, not at its hold", weights: &[1, 1, 9], speeds: &[1, 1, 1], bound: (1, 1), said: &[0, 2, 1], separators: &[0, 1, 2, 2] }),
    (None, &[0, 2], Tried { name: "the last reaches as far as it holds", weights: &[1; 4], speeds: &[1, 9], bound: (1, 3), said: &[0, 1, 1], separators: &[0, 0, 2] }),
    (None, &[0, 3], Tried { name: "the last could hold what it carries, not the rest", weights: &[1; 4], speeds: &[1, 9], bound: (1, 3), said: &[0, 1, 1], separators: &[0, 0, 3] }),
    (None, &[0, 4], Tried { name: "the last holds the rest and bids", weights: &[1; 4], speeds: &[1, 9], bound: (1, 3), said: &[0, 4, 9], separators: &[0, 0, 3] }),
    (None, &[0, 3], Tried { name: "the last holds just the rest", weights: &[1; 4], speeds: &[1, 9], bound: (1, 1), said: &[1, 2], separators: &[0, 1, 4] }),
    (None, &[1, 1, 1], Tried { name: "tiles of weight 0, one a machine", weights: &[0; 3], speeds: &[1, 1, 1], bound: (0, 1), said: &[1, 3], separators: &[0, 1, 2, 3] }),
    (None, &[1, 1], Tried { name: "holds and no tiles", weights: &[], speeds: &[7, 2], bound: (0, 1), said: &[1, 0], separators: &[0, 0, 0] }),
    (Some(3), &[1, 1], Tried { name: "start-up work, the first at its hold", weights: &[0, 4], speeds: &[1, 1], bound: (3, 1), said: &[0, 7, 1], separators: &[0, 1, 1] }),
    (Some(2), &[1, 0], Tried { name: "start-up work, no room for it and a hold", weights: &[6, 1], speeds: &[4, 1], bound: (7, 5), said: &[0, 8, 4], separators: &[0, 0, 0] }),
    (None, &[22; MACHINES], Tried { name: "the longest row, 22 tiles a machine by holds", weights: &[WEIGHT; TILES], speeds: &[1; MACHINES], bound: (BOUND_LOAD, 1), said: &[1, 94], separators: &steps(22, TILES) }),
    (None, &[22; MACHINES], Tried { name: "the longest row, 22 tiles a machine by holds and bound", weights: &[WEIGHT; TILES], speeds: &[1; MACHINES], bound: (22_000_000, 1), said: &[1, 94], separators: &steps(22, TILES) }),
    (None, &[65_535; MACHINES], Tried { name: "the longest row, the most that 16 bits have", weights: &[WEIGHT; TILES], speeds: &[1; MACHINES], bound: (BOUND_LOAD, 1), said: &[1, 1], separators: &list::<ENTRIES>(&[0], 2048, &[]) }),
    (None, &list_of_holds(1, 0), Tried { name: "the longest row, all but the last hold a tile", weights: &[5; 100], speeds: &[1; MACHINES], bound: (24, 1), said: &[0, 25, 1], separators: &held_steps(99) }),
];

/// The same hold for all machines of the longest row but the last.
const fn list_of_holds(hold: u16, last: u16) -> [u16; MACHINES] {
    let mut list = [hold; MACHINES];
    list[MACHINES - 1] = last;
    list
}

/// The separators of the longest row where each machine takes a tile, and the last one what is left up to an index.
const fn held_steps(end: usize) -> [u32; ENTRIES] {
    let mut list = steps(1, MACHINES);
    list[ENTRIES - 1] = end as u32;
    list
}

/// The solver must give what is known of a job with holds, then the planner, with lists of all lengths together; then with one place too few
/// where all machines are limited.
fn held(c: &mut Check, k: &Held) {
    let job = k.job();
    let solved = solved(c, &job, &k.known);
    for _ in 0..10 {
        every::job(c, &solved, true);
    }
    let places: usize = k.holds.iter().map(|&h| h as usize).sum();
    for (p, &hold) in k.holds.iter().enumerate() {
        let Some(less) = (places + 1).checked_sub(job.weights.len()).filter(|&less| less < hold as usize) else { continue };
        let mut holds = k.holds.to_vec();
        holds[p] -= less as u16;
        let other = job.holding(holds);
        if !other.has_room() {
            every::short(c, &other);
        }
    }
}

/// The table of R, entry by entry; from 0 on the crossing at i = 5 in row 2 would come earlier.
fn table_of_r(c: &mut Check) {
    let k = &LIMITED[0];
    let t = methods::table(&k.job());
    const NONE: Bound = (1, 0);
    let mut good = t.rows[0] == [(0, 1), (1, 1), NONE, NONE, NONE, NONE];
    good &= t.rows[1] == [(0, 1), (1, 1), (1, 1), (2, 1), NONE, NONE] && t.crossings[0] == [0, 1, 1, 2, 2, 3];
    good &= t.crossings[1] == [0, 1, 1, 1, 2, 3] && t.rows[2][5] == (2, 1);
    good &= (0..=5).find(|&j| !slow::less(t.rows[0][j], (5 - j as u128, 1))) == Some(2);
    in_scope(c, "In row 2 of R the crossing at i = 5 is 3, where j begins; from 0 on the smallest such j would be 2.");
    if !good {
        c.fail(&format!("the solver's table of {} is {:?}, {:?}", k.known.name, t.rows, t.crossings), String::new());
    }
}

/// What is refused for holds, on A: one place too few is 17, by the fourth method too; one just right is not, but for the fourth method. The
/// quick plans give 18 either way. And a division that breaks a hold is none.
fn refused_for_holds(c: &mut Check) {
    let a = &JOBS[0];
    let n = Edition::FIRST;
    let lent = bytes_of(&[9, 8, 7]);
    for (holds, number) in [(&[1u16, 1][..], 17), (&[2, 1], 0), (&[1, 2], 0), (&[0, 1], 0), (&[65_535, 65_535], 0)] {
        let job = Job::held(None, a.speeds, holds, a.weights);
        let (e, w, h) = (bytes_of(&job.speeds), bytes_of(&job.weights), c.holds(&job));
        let (work, plan) = (c.rng.pattern(4 * 20), c.rng.pattern(32));
        for method in 1..=4 {
            let number = if number == 0 && method == 4 { 18 } else { number };
            c.refuse(Call::Plan(n, method), &[&e, &h, &w, &lent, &work, &[]], number);
            c.refuse(Call::Host { method }, &[&job.file(), &plan], number);
        }
        c.refuse(Call::Trial(n, 100, 1), &[&e, &h, &w, &lent, &[]], number);
        c.refuse(Call::Trial(n, 0, 0), &[&e, &h, &w, &lent, &[]], if number == 0 { 10 } else { number });
        c.refuse(Call::Quick(n), &[&e, &h, &w, &lent, &[]], 18);
        c.refuse(Call::Halving(n), &[&e, &h, &w, &lent, &[]], 14);
        let equal = bytes_of(&[3, 3]);
        c.refuse(Call::Halving(n), &[&equal, &h, &w, &lent, &[]], 18);
        c.refuse(Call::Halving(n), &[&equal, &h, &w, &lent[..8], &[]], 9);
    }
    // Of the division 0 1 3 the shares have one tile and two, of 0 3 3 three and none.
    for (separators, holds, said) in [
        ([0, 1, 3], [1, 2], Ok([11u64, 3])),
        ([0, 1, 3], [0, 2], Ok([11, 3])),
        ([0, 1, 3], [1, 0], Ok([11, 3])),
        ([0, 1, 3], [1, 1], Err(11)),
        ([0, 1, 3], [0, 1], Err(11)),
        ([0, 3, 3], [3, 1], Ok([12, 1])),
        ([0, 3, 3], [2, 1], Err(11)),
        ([0, 3, 3], [2, 0], Err(11)),
        ([0, 3, 3], [0, 1], Ok([12, 1])),
    ] {
        let job = Job::held(None, a.speeds, &holds, a.weights);
        let wanted = said.as_ref().map(|said| (&separators[..], &said[..])).map_err(|&number| number);
        on_lists(c, &job, Call::Measure(n), &bytes_of(&separators), wanted);
    }
}

/// The solver must give what is known of a trial, then the planner, whatever the list held.
fn tried(c: &mut Check, startup: Option<u32>, k: &Tried) {
    tried_with(c, Job::of(startup, k.speeds, k.weights), k);
}

fn tried_with(c: &mut Check, job: Job, k: &Tried) {
    let bound = (k.bound.0 as u128, k.bound.1 as u128);
    let separators: Vec<usize> = k.separators.iter().map(|&s| s as usize).collect();
    let found = methods::trial(&job, bound);
    let (next, machines) = match *k.said {
        [0, load, speed] => (Some((load as u128, speed as u128)), None),
        [1, many] => (None, Some(many as usize)),
        _ => unreachable!(),
    };
    let mut good = found == Trial { separators, next, machines };
    good &= !is_tiny(&job) || slow::furthest(&job, bound) == found.separators;
    if !good {
        c.fail(&format!("the solver gives {:?} for trial {}", found, k.name), String::new());
    }
    let lent = c.rng.pattern(4 * k.separators.len() + 12);
    for len in [k.separators.len(), k.separators.len() + 3] {
        let edition = c.edition(&job);
        on_lists(c, &job, Call::Trial(edition, k.bound.0, k.bound.1), &lent[..4 * len], Ok((k.separators, k.said)));
    }
    trials::refilled(c, &Case::of(&job), bound);
}

/// The trials as the scope writes them, those worked by hand, and the longest row with the most and heaviest tiles, each machine with none
/// and with one.
fn all_tried(c: &mut Check) {
    for k in TRIALS.iter().chain(&MORE_TRIALS).chain(&SHORT) {
        tried(c, None, k);
    }
    for (startup, k) in &SECOND_TRIALS {
        tried(c, Some(*startup), k);
    }
    for (startup, holds, k) in &HELD_TRIALS {
        tried_with(c, Job::held(*startup, k.speeds, holds, k.weights), k);
    }
    for (k, trial) in &LIMITED_TRIALS {
        tried_with(c, k.job(), trial);
    }
    let held = LIMITED_TRIALS.iter().map(|k| &k.1);
    for k in TRIALS.iter().filter(|k| k.name != "A").chain([&SECOND_TRIALS[0].1, &SECOND_TRIALS[1].1]).chain(held) {
        let ends = match *k.said {
            [0, load, speed] => format!("fails with next bid {}/{}", load, speed),
            [_, 1] => "fits, comes to 1 machine".to_string(),
            [_, many] => format!("fits, comes to {} machines", many),
            _ => unreachable!(),
        };
        let (at, over) = k.bound;
        sentence(c, &format!("{} at {}/{} {} and writes {}", k.name, at, over, ends, text(k.separators)));
    }
    let [(a, b), (d, e)] = [TRIALS[1].bound, TRIALS[2].bound];
    in_scope(c, &format!("; at {}/{} it fits; at {}/{} it fits with {}.", a, b, d, e, text(TRIALS[2].separators)));
    let job = Job::new(&[1; MACHINES], &[WEIGHT; TILES]);
    let (weight, lent) = (WEIGHT as u64, c.rng.pattern(4 * (MACHINES + 1)));
    let ones: Vec<u32> = (0..=MACHINES as u32).collect();
    on_lists(c, &job, Call::Trial(Edition::FIRST, weight - 1, 1), &lent, Ok((&[0; MACHINES + 1], &[0, weight, 1])));
    on_lists(c, &job, Call::Trial(Edition::FIRST, weight, 1), &lent, Ok((&ones, &[0, 2 * weight, 1])));
    // The same with start-up work of just so much.
    let (job, n) = (Job { startup: Some(STARTUP), ..job }, Edition { second: true, startup: STARTUP });
    let each = weight + STARTUP as u64;
    on_lists(c, &job, Call::Trial(n, each - 1, 1), &lent, Ok((&[0; MACHINES + 1], &[0, each, 1])));
    on_lists(c, &job, Call::Trial(n, each, 1), &lent, Ok((&ones, &[0, each + weight, 1])));
}

pub fn run(c: &mut Check) {
    for k in JOBS.iter().chain(&MORE).chain(&ROUNDED) {
        marked(c, None, k);
    }
    for (startup, k) in STARTED.iter().chain(&SECOND) {
        marked(c, Some(*startup), k);
    }
    for k in LIMITED.iter().chain(&HELD) {
        held(c, k);
    }
    table_of_r(c);
    refused_for_holds(c);
    lines_of_a(c);
    lines_of_section_17(c);
    lines_of_section_18(c);
    all_tried(c);
    rows(c);
    files_of_a_and_d(c);
    sentences(c);
    edges(c);
}

/// A number as the scope writes it.
fn figure(number: u64) -> String {
    match number {
        0..=999 => number.to_string(),
        _ => format!("{},{:03}", figure(number / 1000), number % 1000),
    }
}

/// The limits of this test stand in the scope's sentences.
fn sentences(c: &mut Check) {
    let (machines, tiles) = (MACHINES as u64, TILES as u64);
    for words in [
        format!("A job has N tiles, 0 to {},", figure(tiles)),
        format!("Each tile has a weight w, 0 to {}.", figure(WEIGHT as u64)),
        format!("A job has P machines, 1 to {},", figure(machines)),
        format!("Each machine has a speed e, 1 to {}.", figure(SPEED as u64)),
        format!("which has start-up work c, 0 to {}.", figure(STARTUP as u64)),
        format!("c = {} is taken; {} is refused with 16,", figure(STARTUP as u64), figure(STARTUP as u64 + 1)),
        format!("The longest job file has {} records.", figure(LONGEST_JOB as u64 / 8)),
        format!("has a load of 0 to {} and a speed of 1 to {}.", figure(BOUND_LOAD), figure(BOUND_SPEED)),
        format!("; {} bytes for a listing;", figure(LISTING as u64)),
        format!("{} machines are taken; none and {} are refused with 7, with {} tiles too.", figure(machines), figure(machines + 1), figure(tiles + 1)),
        format!("{} tiles are taken; {} are refused with 8.", figure(tiles), figure(tiles + 1)),
    ] {
        in_scope(c, &words);
    }
}

/// A and D byte by byte, A in the second edition, and A with holds.
fn files_of_a_and_d(c: &mut Check) {
    let a: [u8; 32] = [
        0, 0, 0, 0, 1, 0, 0, 0, 1, 0, 0, 0, 1, 0, 0, 0, //
        1, 0, 0, 0, 3, 0, 0, 0, 11, 0, 0, 0, 3, 0, 0, 0,
    ];
    let d: [u8; 32] = [
        0, 0, 0, 0, 2, 0, 0, 0, 0, 0, 0, 0, 1, 0, 0, 0, //
        2, 0, 0, 0, 2, 0, 0, 0, 0, 0, 0, 0, 1, 0, 0, 0,
    ];
    let a_file: [u8; 40] = [
        1, 0, 0, 0, 1, 0, 0, 0, 1, 0, 0, 0, 3, 0, 0, 0, //
        2, 0, 0, 0, 1, 0, 0, 0, 2, 0, 0, 0, 3, 0, 0, 0, 2, 0, 0, 0, 8, 0, 0, 0,
    ];
    let d_file: [u8; 32] = [
        1, 0, 0, 0, 1, 0, 0, 0, 1, 0, 0, 0, 1, 0, 0, 0, //
        2, 0, 0, 0, 0, 0, 0, 0, 2, 0, 0, 0, 0, 0, 0, 0,
    ];
    // A with start-up work 5: its file begins with a record of kind 3, and machine 2 has all tiles.
    let second: [u8; 32] = [
        0, 0, 0, 0, 0, 0, 0, 0, 0, 0, 0, 0, 1, 0, 0, 0, //
        0, 0, 0, 0, 3, 0, 0, 0, 17, 0, 0, 0, 3, 0, 0, 0,
    ];
    let second_file = [&[3, 0, 0, 0, 5, 0, 0, 0], &a_file[..]].concat();
    // A whose machines hold 258 and 1: bytes 2 and 3 of their records, the lower one first; machine 1 has two tiles then.
    let mut held_file = a_file;
    (held_file[2], held_file[3], held_file[10]) = (2, 1, 1);
    let held: [u8; 32] = [
        0, 0, 0, 0, 2, 0, 0, 0, 4, 0, 0, 0, 1, 0, 0, 0, //
        2, 0, 0, 0, 3, 0, 0, 0, 8, 0, 0, 0, 3, 0, 0, 0,
    ];
    for method in 1..=3 {
        c.call(&held_file, method, 32, Ok(&job::decode(&held)));
    }
    c.call(&held_file, 4, 32, Err(18));
    for method in 1..=4 {
        c.call(&a_file, method, 32, Ok(&job::decode(&a)));
        c.call(&d_file, method, 32, Ok(&job::decode(&d)));
        c.call(&second_file, method, 32, Ok(&job::decode(&second)));
    }
    // What reading gives of these: edition, start-up work, P, N, and the lists; and the bytes that writing gives back.
    for (file, numbers, holds) in [(&a_file[..], [1u64, 0, 2, 3], [0, 0]), (&second_file, [2, 5, 2, 3], [0, 0]), (&held_file, [1, 0, 2, 3], [258, 1])] {
        let list = |front: Vec<u8>| After { front, free: 0 };
        let (said, e, w) = (numbers.iter().flat_map(|n| n.to_le_bytes()).collect(), bytes_of(&[1, 3]), bytes_of(&[1, 3, 8]));
        let (lent_e, lent_h, lent_w, answer) = (c.rng.pattern(12), c.rng.pattern(6), c.rng.pattern(16), c.rng.pattern(8 * 5));
        let h = bytes_of_holds(&holds);
        let wanted = vec![After::default(), list(e.clone()), list(h.clone()), list(w.clone()), list(said)];
        c.ask(Call::Read, &[file, &lent_e, &lent_h, &lent_w, &answer], &Ok(wanted));
        let edition = Edition { second: numbers[0] == 2, startup: numbers[1] as u32 };
        let (room, answer) = (c.rng.pattern(file.len() + 3), c.rng.pattern(8));
        let bytes = list((file.len() as u64).to_le_bytes().to_vec());
        let wanted = vec![After::default(), After::default(), After::default(), list(file.to_vec()), bytes];
        c.ask(Call::Write(edition), &[&e, &h, &w, &room, &answer], &Ok(wanted));
        c.refuse(Call::Write(edition), &[&e, &h, &w, &room[..file.len() - 1], &answer], 9);
    }
}

/// The limits, and what lies just past them.
fn edges(c: &mut Check) {
    // Speeds: the greatest passes; 0 and one more give 5. Weights: the greatest passes, one more gives 6.
    c.accepted(&Job::new(&[SPEED], &[5]), &[0, 1]);
    c.accepted(&Job::new(&[1], &[5]), &[0, 1]);
    c.accepted(&Job::new(&[1], &[WEIGHT]), &[0, 1]);
    c.accepted(&Job::new(&[1], &[0]), &[0, 1]);
    for speed in [0, SPEED + 1, 65_536, 65_537, 65_536 + SPEED, 0x0100_0001, 0x7FFF_FFFF, 0x8000_0001, u32::MAX] {
        single(c, &[machine(speed), tile(5)], 5);
        single(c, &[machine(1), machine(speed)], 5);
    }
    for weight in [WEIGHT + 1, 0x0010_0000, 0x0100_0000, 0x0100_0001, 0x7FFF_FFFF, 0x8000_0000, u32::MAX] {
        single(c, &[machine(1), tile(weight)], 6);
        single(c, &[machine(1), tile(0), tile(weight), tile(0)], 6);
    }
    // Start-up work: none and the most pass, one more gives 16; kind 3 beyond the first record gives 15.
    for startup in [0, 1, STARTUP] {
        c.accepted(&Job::of(Some(startup), &[1], &[5]), &[0, 1]);
        c.accepted(&Job::of(Some(startup), &[1, 1], &[]), &[0, 0, 0]);
        single(c, &[machine(1), head(startup)], 15);
        single(c, &[head(startup), head(startup), machine(1)], 15);
        single(c, &[head(startup), machine(1), tile(1), head(startup)], 15);
        single(c, &[head(startup)], 7);
    }
    for startup in [STARTUP + 1, 0x0010_0000, 0x0100_0000, 0x0100_0001, 0x7FFF_FFFF, 0x8000_0000, u32::MAX] {
        single(c, &[head(startup), machine(1), tile(0)], 16);
        single(c, &[head(startup), machine(0)], 16);
        single(c, &[machine(1), head(startup)], 15);
    }

    // Machines: none and more than the most give 7, the most pass; counts that look like a good one when cut to 8 or 16 bits, too.
    // Tiles: more than the most give 8, the most pass. A 7-byte file gives 2.
    single(c, &[], 7);
    single(c, &[tile(1)], 7);
    let cut = [1 << 8, (1 << 8) + 1, (1 << 8) + MACHINES, 1 << 9, 1 << 16, (1 << 16) + 1, (1 << 16) + MACHINES];
    for many in TOO_MANY.into_iter().chain(cut) {
        single(c, &vec![machine(1); many], 7);
        single(c, &[vec![head(1)], vec![machine(1); many]].concat(), 7);
    }
    for many in [TILES + 1, TILES + 2, 2 * TILES, 65_536, 65_537, 65_536 + TILES] {
        let mut records = vec![machine(1)];
        records.extend(vec![tile(0); many]);
        single(c, &records, 8);
        records.insert(0, head(STARTUP));
        single(c, &records, 8);
    }
    let full = Job::new(&[1; MACHINES], &[]);
    c.accepted(&full, &[0; MACHINES + 1]);
    let full = Job::new(&[1], &[1; TILES]);
    c.accepted(&full, &[0, TILES]);
    let mut first = vec![0; MACHINES + 1];
    first[1..].fill(TILES);
    c.accepted(&Job::new(&[SPEED; MACHINES], &[0; TILES]), &first);
    c.accepted(&Job::of(Some(STARTUP), &[SPEED; MACHINES], &[0; TILES]), &first);
    c.accepted(&Job::of(Some(STARTUP), &[1; MACHINES], &[]), &[0; MACHINES + 1]);
    c.accepted(&Job::of(Some(STARTUP), &[1], &[1; TILES]), &[0, TILES]);
    for method in 1..=4 {
        for plan_len in [0, 16, 33] {
            c.call(&[1, 0, 0, 0, 1, 0, 0], method, plan_len, Err(2));
        }
    }
}

fn single(c: &mut Check, records: &[Record], number: u32) {
    let file = records.concat();
    for method in 1..=4 {
        for plan_len in [0, 16, LONGEST_PLAN, PLAN_INTAKE] {
            c.call(&file, method, plan_len, Err(number));
        }
    }
    let (e, w, answer) = (c.rng.pattern(4 * records.len()), c.rng.pattern(4 * records.len()), c.rng.pattern(8 * 4));
    let h = c.rng.pattern(2 * records.len());
    c.refuse(Call::Read, &[&file, &e, &h, &w, &answer], number);
}
