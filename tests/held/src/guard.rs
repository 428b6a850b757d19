//! Memory between two forbidden pages, and what is said when a call dies or hangs.

use std::ffi::c_void;
use std::sync::atomic::{AtomicU64, Ordering::Relaxed};
use std::sync::Mutex;

use crate::planner::{At, Call, LISTS};

extern "C" {
    fn mmap(at: *mut c_void, len: usize, prot: i32, flags: i32, fd: i32, offset: i64) -> *mut c_void;
    fn mprotect(at: *mut c_void, len: usize, prot: i32) -> i32;
    fn signal(number: i32, handler: extern "C" fn(i32)) -> usize;
    fn alarm(seconds: u32) -> u32;
    fn _exit(code: i32) -> !;
}

const PAGE: usize = 4096;

pub struct Arena {
    pub start: *mut u8,
    pub len: usize,
}

impl Arena {
    /// `len` bytes, a multiple of the page; a touch before or after them ends the run.
    pub fn new(len: usize) -> Arena {
        assert_eq!(len % PAGE, 0);
        // No access; private and anonymous.
        let all = unsafe { mmap(std::ptr::null_mut(), len + 2 * PAGE, 0, 0x22, -1, 0) };
        assert!(all as isize != -1, "no memory");
        let start = (all as usize + PAGE) as *mut u8;
        // Read and write.
        assert_eq!(unsafe { mprotect(start as *mut c_void, len, 3) }, 0);
        Arena { start, len }
    }

    pub fn bytes(&mut self) -> &mut [u8] {
        unsafe { std::slice::from_raw_parts_mut(self.start, self.len) }
    }
}

/// The last call: its lists as addresses and entries.
struct Last {
    call: Call,
    lists: [(usize, usize); LISTS],
}

static LAST: Mutex<Option<Last>> = Mutex::new(None);
static SEED: AtomicU64 = AtomicU64::new(0);

extern "C" fn on_signal(number: i32) {
    let name = match number {
        4 => "an illegal instruction",
        6 => "an abort",
        7 | 11 => "a touch of forbidden memory",
        8 => "an arithmetic fault",
        14 => "a call without end",
        _ => "a signal",
    };
    end(name, &format!("{} (signal {})", name, number))
}

/// Prints the last call and ends the run.
fn end(name: &str, what: &str) -> ! {
    eprintln!("FAILED: {}, the last call was:", what);
    if let Ok(Some(last)) = LAST.try_lock().as_deref() {
        let slots = last.call.slots();
        let lists: Vec<&[u8]> = slots.iter().zip(last.lists).map(|(s, (at, n))| list_at(at, n * s.width())).collect();
        eprintln!("{}", crate::check::describe(last.call, &lists));
    }
    println!("tests/held: FAILED, {}, seed {}", name, SEED.load(Relaxed));
    unsafe { _exit(1) }
}

fn list_at(at: usize, bytes: usize) -> &'static [u8] {
    if at == 0 {
        return &[];
    }
    unsafe { std::slice::from_raw_parts(at as *const u8, bytes) }
}

/// Ends a run that is to stop at its first failure.
pub fn end_early(part: &str) -> ! {
    println!("tests/held: FAILED, at its first failure, among {}, seed {}", part, SEED.load(Relaxed));
    unsafe { _exit(1) }
}

pub fn watch(seed: u64) {
    SEED.store(seed, Relaxed);
    std::panic::set_hook(Box::new(|info| end("a fault of the test itself", &info.to_string())));
    for number in [4, 6, 7, 8, 11, 14] {
        unsafe { signal(number, on_signal) };
    }
}

/// Notes the call about to be made, and gives it a minute.
pub fn note(call: Call, at: &[At]) {
    let mut lists = [(0, 0); LISTS];
    for (to, from) in lists.iter_mut().zip(at) {
        *to = (from.0 as usize, from.1);
    }
    *LAST.lock().unwrap() = Some(Last { call, lists });
    unsafe { alarm(60) };
}

pub fn done() {
    unsafe { alarm(0) };
}
