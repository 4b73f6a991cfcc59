//! What falls due: a binary heap over (date, slot) that knows where each slot stands. A timer's slot is its number, a
//! deadline's is 64 and its thread's number, so timers come before deadlines of the same date.
use crate::limits::{THREADS, TIMERS};

const SLOTS: usize = TIMERS + THREADS;
const OUT: u16 = u16::MAX;

#[derive(Clone, Copy, PartialEq, Eq, PartialOrd, Ord)]
struct Item {
    date: u64,
    slot: u16,
}

pub struct Due {
    len: usize,
    items: [Item; SLOTS],
    places: [u16; SLOTS],
}

impl Due {
    pub fn new() -> Due {
        Due { len: 0, items: [Item { date: 0, slot: 0 }; SLOTS], places: [OUT; SLOTS] }
    }

    /// The least slot of the least date, where that is at most `now`.
    #[inline]
    pub fn first(&self, now: u64) -> Option<u16> {
        if self.len > 0 && self.items[0].date <= now {
            Some(self.items[0].slot)
        } else {
            None
        }
    }

    #[inline]
    pub fn set(&mut self, slot: u16, date: u64) {
        let item = Item { date, slot };
        let mut at = usize::from(self.places[usize::from(slot)]);
        if at >= SLOTS {
            at = self.len;
            self.len += 1;
        } else if self.items[at] < item {
            return self.sink(at, item);
        }
        self.rise(at, item);
    }

    #[inline]
    pub fn remove(&mut self, slot: u16) {
        let at = usize::from(self.places[usize::from(slot)]);
        if at >= SLOTS {
            return;
        }
        self.places[usize::from(slot)] = OUT;
        self.len -= 1;
        if at == self.len {
            return;
        }
        let last = self.items[self.len];
        if at > 0 && last < self.items[(at - 1) / 2] {
            self.rise(at, last);
        } else {
            self.sink(at, last);
        }
    }

    fn put(&mut self, at: usize, item: Item) {
        self.items[at] = item;
        self.places[usize::from(item.slot)] = at as u16;
    }

    fn rise(&mut self, mut at: usize, item: Item) {
        while at > 0 {
            let above = (at - 1) / 2;
            if self.items[above] < item {
                break;
            }
            self.put(at, self.items[above]);
            at = above;
        }
        self.put(at, item);
    }

    fn sink(&mut self, mut at: usize, item: Item) {
        loop {
            let mut below = 2 * at + 1;
            if below >= self.len {
                break;
            }
            if below + 1 < self.len && self.items[below + 1] < self.items[below] {
                below += 1;
            }
            if item < self.items[below] {
                break;
            }
            self.put(at, self.items[below]);
            at = below;
        }
        self.put(at, item);
    }
}
