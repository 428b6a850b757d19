//! The planner under test: the calls of the library. Planning and grading by file are called by their names without the prefix. With the feature
//! `exports` these two are those of libplanner.a, and every other call is that of libtest_exports.a, by its name there.

/// How a job's edition comes beside its lists: whether it is the second, and the start-up work, which counts only there.
#[derive(Clone, Copy, Debug, PartialEq)]
pub struct Edition {
    pub second: bool,
    pub startup: u32,
}

impl Edition {
    /// The first one, with no start-up work beside it.
    pub const FIRST: Edition = Edition { second: false, startup: 0 };

    /// The start-up work as a job has it.
    pub fn counts(self) -> Option<u32> {
        self.second.then_some(self.startup)
    }
}

/// A call with its plain numbers; its lists come beside it, in the order of `slots`.
#[derive(Clone, Copy, Debug, PartialEq)]
pub enum Call {
    Test(Edition),
    Read,
    Write(Edition),
    Measure(Edition),
    Trial(Edition, u64, u64),
    Quick(Edition),
    Halving(Edition),
    Plan(Edition, u32),
    PlanFile(Edition),
    List,
    Host { method: u32 },
    Grade(Edition),
    HostGrade,
}

/// What a list or buffer of a call is.
#[derive(Clone, Copy, Debug, PartialEq)]
pub enum Slot {
    Speeds,
    Holds,
    Weights,
    Separators,
    Work,
    File,
    Plan,
    Text,
    Grade,
    Answer,
}

impl Slot {
    /// The bytes of an entry.
    pub fn width(self) -> usize {
        match self {
            Slot::File | Slot::Plan | Slot::Text | Slot::Grade => 1,
            Slot::Holds => 2,
            Slot::Answer => 8,
            _ => 4,
        }
    }
}

/// The most lists that a call takes.
pub const LISTS: usize = 6;

impl Call {
    /// The lists of the call, in the order of its arguments.
    pub fn slots(self) -> &'static [Slot] {
        use Slot::*;
        match self {
            Call::Test(_) => &[Speeds, Holds, Weights],
            Call::Read => &[File, Speeds, Holds, Weights, Answer],
            Call::Write(_) => &[Speeds, Holds, Weights, File, Answer],
            Call::Measure(_) | Call::Trial(..) | Call::Quick(_) | Call::Halving(_) => &[Speeds, Holds, Weights, Separators, Answer],
            Call::Plan(..) => &[Speeds, Holds, Weights, Separators, Work, Answer],
            Call::PlanFile(_) => &[Speeds, Holds, Weights, Separators, Plan, Answer],
            Call::List => &[File, Text, Answer],
            Call::Host { .. } => &[File, Plan],
            Call::Grade(_) => &[Speeds, Holds, Weights, Plan, Answer],
            Call::HostGrade => &[File, Plan, Grade],
        }
    }

    /// The edition that comes beside its lists; none where the job comes as a file.
    pub fn edition(self) -> Option<Edition> {
        match self {
            Call::Test(n) | Call::Write(n) | Call::Measure(n) | Call::Trial(n, ..) | Call::Quick(n) | Call::Halving(n) => Some(n),
            Call::Plan(n, _) | Call::PlanFile(n) | Call::Grade(n) => Some(n),
            Call::Read | Call::List | Call::Host { .. } | Call::HostGrade => None,
        }
    }

    /// The same call with this edition beside its lists.
    #[cfg(feature = "faults")]
    pub fn beside(self, n: Edition) -> Call {
        match self {
            Call::Test(_) => Call::Test(n),
            Call::Write(_) => Call::Write(n),
            Call::Measure(_) => Call::Measure(n),
            Call::Trial(_, load, speed) => Call::Trial(n, load, speed),
            Call::Quick(_) => Call::Quick(n),
            Call::Halving(_) => Call::Halving(n),
            Call::Plan(_, method) => Call::Plan(n, method),
            Call::PlanFile(_) => Call::PlanFile(n),
            Call::Grade(_) => Call::Grade(n),
            Call::Read | Call::List | Call::Host { .. } | Call::HostGrade => self,
        }
    }
}

/// Where a list is and how many entries it has.
pub type At = (*mut u8, usize);

type Bytes = *mut u8;
type Halves = *mut u16;
type Words = *mut u32;
type Longs = *mut u64;

extern "C" {
    fn plan_job(job: Bytes, job_len: usize, method: u32, plan: Bytes, plan_len: usize) -> u32;
    fn grade_plan(job: Bytes, job_len: usize, plan: Bytes, plan_len: usize, grade: Bytes, grade_len: usize) -> u32;
    #[cfg_attr(feature = "exports", link_name = "exported_test_job")]
    #[rustfmt::skip]
    fn pelshaqu_test_job(second: bool, c: u32, e: Words, e_len: usize, h: Halves, h_len: usize, w: Words, w_len: usize) -> u32;
    #[cfg_attr(feature = "exports", link_name = "exported_read_job")]
    #[rustfmt::skip]
    fn pelshaqu_read_job(f: Bytes, f_len: usize, e: Words, e_len: usize, h: Halves, h_len: usize, w: Words, w_len: usize, a: Longs, a_len: usize) -> u32;
    #[cfg_attr(feature = "exports", link_name = "exported_list")]
    fn pelshaqu_list_job(f: Bytes, f_len: usize, t: Bytes, t_len: usize, a: Longs, a_len: usize) -> u32;
    #[cfg_attr(feature = "exports", link_name = "exported_write_job")]
    #[rustfmt::skip]
    fn pelshaqu_write_job(second: bool, c: u32, e: Words, e_len: usize, h: Halves, h_len: usize, w: Words, w_len: usize, f: Bytes, f_len: usize, a: Longs, a_len: usize) -> u32;
    #[cfg_attr(feature = "exports", link_name = "exported_grade")]
    #[rustfmt::skip]
    fn pelshaqu_grade(second: bool, c: u32, e: Words, e_len: usize, h: Halves, h_len: usize, w: Words, w_len: usize, f: Bytes, f_len: usize, a: Longs, a_len: usize) -> u32;
    #[cfg_attr(feature = "exports", link_name = "exported_measure")]
    #[rustfmt::skip]
    fn pelshaqu_measure(second: bool, c: u32, e: Words, e_len: usize, h: Halves, h_len: usize, w: Words, w_len: usize, s: Words, s_len: usize, a: Longs, a_len: usize) -> u32;
    #[cfg_attr(feature = "exports", link_name = "exported_heuristic")]
    #[rustfmt::skip]
    fn pelshaqu_quick_plan(second: bool, c: u32, e: Words, e_len: usize, h: Halves, h_len: usize, w: Words, w_len: usize, s: Words, s_len: usize, a: Longs, a_len: usize) -> u32;
    #[cfg_attr(feature = "exports", link_name = "exported_halving")]
    #[rustfmt::skip]
    fn pelshaqu_halve_row(second: bool, c: u32, e: Words, e_len: usize, h: Halves, h_len: usize, w: Words, w_len: usize, s: Words, s_len: usize, a: Longs, a_len: usize) -> u32;
    #[cfg_attr(feature = "exports", link_name = "exported_probe")]
    #[rustfmt::skip]
    fn pelshaqu_trial(second: bool, c: u32, e: Words, e_len: usize, h: Halves, h_len: usize, w: Words, w_len: usize, load: u64, speed: u64, s: Words, s_len: usize, a: Longs, a_len: usize) -> u32;
    #[cfg_attr(feature = "exports", link_name = "exported_plan")]
    #[rustfmt::skip]
    fn pelshaqu_plan(m: u32, second: bool, c: u32, e: Words, e_len: usize, h: Halves, h_len: usize, w: Words, w_len: usize, s: Words, s_len: usize, k: Words, k_len: usize, a: Longs, a_len: usize) -> u32;
    #[cfg_attr(feature = "exports", link_name = "exported_write_plan")]
    #[rustfmt::skip]
    fn pelshaqu_write_plan(second: bool, c: u32, e: Words, e_len: usize, h: Halves, h_len: usize, w: Words, w_len: usize, s: Words, s_len: usize, f: Bytes, f_len: usize, a: Longs, a_len: usize) -> u32;
}

/// # Safety
/// Each list is good for its length, or null with length 0.
pub unsafe fn real(call: Call, at: &[At]) -> u32 {
    let b = |k: usize| at[k].0;
    let h = |k: usize| at[k].0 as Halves;
    let w = |k: usize| at[k].0 as Words;
    let a = |k: usize| at[k].0 as Longs;
    let n = |k: usize| at[k].1;
    let Edition { second, startup: c } = call.edition().unwrap_or(Edition::FIRST);
    match call {
        Call::Test(_) => pelshaqu_test_job(second, c, w(0), n(0), h(1), n(1), w(2), n(2)),
        Call::Read => pelshaqu_read_job(b(0), n(0), w(1), n(1), h(2), n(2), w(3), n(3), a(4), n(4)),
        Call::Write(_) => pelshaqu_write_job(second, c, w(0), n(0), h(1), n(1), w(2), n(2), b(3), n(3), a(4), n(4)),
        Call::Measure(_) => pelshaqu_measure(second, c, w(0), n(0), h(1), n(1), w(2), n(2), w(3), n(3), a(4), n(4)),
        Call::Trial(_, load, speed) => pelshaqu_trial(second, c, w(0), n(0), h(1), n(1), w(2), n(2), load, speed, w(3), n(3), a(4), n(4)),
        Call::Quick(_) => pelshaqu_quick_plan(second, c, w(0), n(0), h(1), n(1), w(2), n(2), w(3), n(3), a(4), n(4)),
        Call::Halving(_) => pelshaqu_halve_row(second, c, w(0), n(0), h(1), n(1), w(2), n(2), w(3), n(3), a(4), n(4)),
        Call::Plan(_, m) => pelshaqu_plan(m, second, c, w(0), n(0), h(1), n(1), w(2), n(2), w(3), n(3), w(4), n(4), a(5), n(5)),
        Call::PlanFile(_) => pelshaqu_write_plan(second, c, w(0), n(0), h(1), n(1), w(2), n(2), w(3), n(3), b(4), n(4), a(5), n(5)),
        Call::List => pelshaqu_list_job(b(0), n(0), b(1), n(1), a(2), n(2)),
        Call::Host { method } => plan_job(b(0), n(0), method, b(1), n(1)),
        Call::Grade(_) => pelshaqu_grade(second, c, w(0), n(0), h(1), n(1), w(2), n(2), b(3), n(3), a(4), n(4)),
        Call::HostGrade => grade_plan(b(0), n(0), b(1), n(1), b(2), n(2)),
    }
}

/// # Safety
/// Each list is good for its length, or null with length 0.
#[cfg(not(feature = "faults"))]
pub unsafe fn call(call: Call, at: &[At]) -> u32 {
    real(call, at)
}

#[cfg(feature = "faults")]
pub use crate::faults::call;
