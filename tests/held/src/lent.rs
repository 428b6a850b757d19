//! A list or buffer lent to a call: between forbidden pages, with watched bytes on both sides.

use crate::guard::Arena;
use crate::rng::Rng;

/// Bytes watched on each side, besides the forbidden pages.
const MARGIN: usize = 96;

pub struct Lent {
    arena: Arena,
    at: usize,
    from: usize,
    len: usize,
    null: bool,
    before: Vec<u8>,
}

impl Lent {
    pub fn new(room: usize) -> Lent {
        Lent { arena: Arena::new(room), at: 0, from: 0, len: 0, null: false, before: Vec::new() }
    }

    /// Lends these bytes at a place for entries of this width: against the end, against the start, or at any place.
    pub fn lend(&mut self, r: &mut Rng, bytes: &[u8], width: usize) {
        let room = self.arena.len;
        assert!(bytes.len() + 2 * MARGIN <= room && bytes.len() % width == 0);
        self.len = bytes.len();
        self.null = bytes.is_empty() && r.once_in(2);
        self.at = match r.below(4) {
            0 => 0,
            1 => width * (1 + r.below(MARGIN / width)),
            _ => room - bytes.len(),
        };
        self.from = self.at.saturating_sub(MARGIN);
        let to = (self.at + self.len + MARGIN).min(room);
        self.before.clear();
        self.before.extend(r.pattern(self.at - self.from));
        self.before.extend(bytes);
        self.before.extend(r.pattern(to - self.at - self.len));
        self.arena.bytes()[self.from..to].copy_from_slice(&self.before);
    }

    /// The place, now and then null where there are no entries.
    pub fn place(&self) -> *mut u8 {
        if self.null {
            std::ptr::null_mut()
        } else {
            unsafe { self.arena.start.add(self.at) }
        }
    }


    pub fn now(&mut self) -> &[u8] {
        let (at, len) = (self.at, self.len);
        &self.arena.bytes()[at..at + len]
    }

    /// The first byte that is not as it must be, counted from the list's start: it begins with `front`, then come `free` bytes
    /// that may hold anything, and all else is as it was, around the list too.
    pub fn wrong(&mut self, front: &[u8], free: usize) -> Option<i64> {
        assert!(front.len() + free <= self.len);
        let start = self.at - self.from;
        self.before[start..start + front.len()].copy_from_slice(front);
        let (from, to) = (self.from, self.from + self.before.len());
        let after = &self.arena.bytes()[from..to];
        let open = start + front.len()..start + front.len() + free;
        let same = |a: usize, b: usize| after[a..b] == self.before[a..b];
        if same(0, open.start) && same(open.end, self.before.len()) {
            return None;
        }
        let k = (0..after.len()).find(|k| !open.contains(k) && after[*k] != self.before[*k]).unwrap();
        Some(k as i64 - start as i64)
    }
}
