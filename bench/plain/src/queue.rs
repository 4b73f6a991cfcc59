//! A wait queue: a list through the records of the threads, each of which waits in at most one queue.
use crate::limits::{NONE, THREADS};

#[derive(Clone, Copy)]
pub struct Link {
    pub next: u16,
    pub prev: u16,
    pub rank: u16,
}

pub const UNLINKED: Link = Link { next: NONE, prev: NONE, rank: 0 };

pub trait Linked {
    fn link(&mut self) -> &mut Link;
}

#[derive(Clone, Copy)]
pub struct Queue {
    pub head: u16,
    tail: u16,
    pub len: u16,
}

#[inline]
pub fn at<T>(records: &mut [T; THREADS], thread: u16) -> &mut T {
    &mut records[usize::from(thread) % THREADS]
}

impl Queue {
    pub const EMPTY: Queue = Queue { head: NONE, tail: NONE, len: 0 };

    /// Behind all of at least this rank.
    #[inline]
    pub fn push_by_rank<T: Linked>(&mut self, records: &mut [T; THREADS], thread: u16, rank: u16) {
        let mut before = self.tail;
        while before != NONE && at(records, before).link().rank < rank {
            before = at(records, before).link().prev;
        }
        self.insert(records, thread, rank, before);
    }

    #[inline]
    pub fn push<T: Linked>(&mut self, records: &mut [T; THREADS], thread: u16) {
        self.insert(records, thread, 0, self.tail);
    }

    #[inline]
    fn insert<T: Linked>(&mut self, records: &mut [T; THREADS], thread: u16, rank: u16, prev: u16) {
        let next = if prev == NONE { self.head } else { at(records, prev).link().next };
        *at(records, thread).link() = Link { next, prev, rank };
        if prev == NONE {
            self.head = thread
        } else {
            at(records, prev).link().next = thread
        }
        if next == NONE {
            self.tail = thread
        } else {
            at(records, next).link().prev = thread
        }
        self.len += 1;
    }

    #[inline]
    pub fn remove<T: Linked>(&mut self, records: &mut [T; THREADS], thread: u16) {
        let Link { next, prev, .. } = *at(records, thread).link();
        if prev == NONE {
            self.head = next
        } else {
            at(records, prev).link().next = next
        }
        if next == NONE {
            self.tail = prev
        } else {
            at(records, next).link().prev = prev
        }
        self.len -= 1;
    }
}
