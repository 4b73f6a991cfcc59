//! Threads, policies, budgets and the pick. Eligible threads stand in one list per rank, with a bitmap of the ranks; a
//! stamp says since when a thread is at the end of the ready list, so that a boosted thread finds its place in the list
//! of another rank. Ready threads of a group without budget stand in no list until the refill.
use crate::limits::{NONE, SECOND, THREADS};
use crate::queue::at;
use crate::values::{Policy, Stage};

const RANK_WORDS: usize = 16;
const RANKS: usize = RANK_WORDS * 64;
const THREAD_WORDS: usize = THREADS / 64;

#[derive(Clone, Copy)]
struct Ends {
    head: u16,
    tail: u16,
}

pub struct Thread {
    stamp: u64,
    rest: u64,
    pub policy: Policy,
    next: u16,
    prev: u16,
    rank: u16,
    pub attached: bool,
    pub stage: Stage,
    /// Attached, out-of-band and unblocked.
    ready: bool,
    /// Ready, and no group without budget keeps it: it stands in the list of its rank.
    queued: bool,
}

struct Group {
    budget: u64,
    full: u64,
    members: [u64; THREAD_WORDS],
}

pub struct Sched {
    summary: u16,
    words: [u64; RANK_WORDS],
    stamp: u64,
    pub threads: [Thread; THREADS],
    lists: [Ends; RANKS],
    groups: Vec<Group>,
}

impl Sched {
    pub fn new(groups: &[u8]) -> Sched {
        let full = |percent: &u8| u64::from(*percent) * (SECOND / 100);
        Sched {
            summary: 0,
            words: [0; RANK_WORDS],
            stamp: 0,
            threads: std::array::from_fn(|_| Thread {
                stamp: 0,
                rest: 0,
                policy: Policy::Weak(0),
                next: NONE,
                prev: NONE,
                rank: 0,
                attached: false,
                stage: Stage::Inband,
                ready: false,
                queued: false,
            }),
            lists: [Ends { head: NONE, tail: NONE }; RANKS],
            groups: groups
                .iter()
                .map(|percent| Group { budget: full(percent), full: full(percent), members: [0; THREAD_WORDS] })
                .collect(),
        }
    }

    #[inline]
    pub fn thread(&self, thread: u16) -> &Thread {
        &self.threads[usize::from(thread) % THREADS]
    }

    pub fn groups(&self) -> usize {
        self.groups.len()
    }

    #[inline]
    pub fn none_eligible(&self) -> bool {
        self.summary == 0
    }

    #[inline]
    pub fn pick(&self) -> Option<u16> {
        if self.summary == 0 {
            return None;
        }
        let word = (15 - self.summary.leading_zeros()) as usize % RANK_WORDS;
        let rank = word * 64 + (63 - (self.words[word] | 1).leading_zeros()) as usize;
        Some(self.lists[rank % RANKS].head)
    }

    /// The place behind `prev` in the list of its rank.
    #[inline]
    fn link(&mut self, thread: u16, prev: u16) {
        let rank = usize::from(at(&mut self.threads, thread).rank) % RANKS;
        let next = if prev == NONE { self.lists[rank].head } else { at(&mut self.threads, prev).next };
        let record = at(&mut self.threads, thread);
        (record.next, record.prev, record.queued) = (next, prev, true);
        if prev == NONE {
            self.lists[rank].head = thread
        } else {
            at(&mut self.threads, prev).next = thread
        }
        if next == NONE {
            self.lists[rank].tail = thread
        } else {
            at(&mut self.threads, next).prev = thread
        }
        self.words[rank / 64] |= 1 << (rank % 64);
        self.summary |= 1 << (rank / 64);
    }

    #[inline]
    fn link_last(&mut self, thread: u16) {
        let rank = usize::from(at(&mut self.threads, thread).rank) % RANKS;
        self.link(thread, self.lists[rank].tail);
    }

    /// Links it by its stamp.
    fn link_by_stamp(&mut self, thread: u16) {
        let record = at(&mut self.threads, thread);
        let (stamp, rank) = (record.stamp, usize::from(record.rank) % RANKS);
        let mut prev = self.lists[rank].tail;
        while prev != NONE && at(&mut self.threads, prev).stamp > stamp {
            prev = at(&mut self.threads, prev).prev;
        }
        self.link(thread, prev);
    }

    #[inline]
    fn unlink(&mut self, thread: u16) {
        let record = at(&mut self.threads, thread);
        record.queued = false;
        let (next, prev, rank) = (record.next, record.prev, usize::from(record.rank) % RANKS);
        if prev == NONE {
            self.lists[rank].head = next
        } else {
            at(&mut self.threads, prev).next = next
        }
        if next == NONE {
            self.lists[rank].tail = prev
        } else {
            at(&mut self.threads, next).prev = prev
        }
        if self.lists[rank].head == NONE {
            self.words[rank / 64] &= !(1 << (rank % 64));
            if self.words[rank / 64] == 0 {
                self.summary &= !(1 << (rank / 64));
            }
        }
    }

    /// Becomes ready, or goes to the end of the ready list.
    #[inline]
    pub fn to_end(&mut self, thread: u16) {
        self.stamp += 1;
        let record = at(&mut self.threads, thread);
        record.stamp = self.stamp;
        record.ready = true;
        let (queued, policy) = (record.queued, record.policy);
        if queued {
            self.unlink(thread);
        }
        if let Policy::Quota { group, .. } = policy {
            if self.groups[usize::from(group)].budget == 0 {
                return;
            }
        }
        self.link_last(thread);
    }

    #[inline]
    pub fn wake(&mut self, thread: u16) {
        if self.thread(thread).stage == Stage::Oob {
            self.to_end(thread);
        }
    }

    /// Leaves the ready list, where it is there.
    #[inline]
    pub fn leave(&mut self, thread: u16) {
        let record = at(&mut self.threads, thread);
        record.ready = false;
        if record.queued {
            self.unlink(thread);
        }
    }

    /// A thread's effective rank is another now. It keeps its place in the ready list.
    #[inline]
    pub fn boost(&mut self, thread: u16, rank: u16) {
        if self.thread(thread).queued {
            self.unlink(thread);
            at(&mut self.threads, thread).rank = rank;
            self.link_by_stamp(thread);
        } else {
            at(&mut self.threads, thread).rank = rank;
        }
    }

    fn member(&mut self, thread: u16, is_member: bool) {
        if let Policy::Quota { group, .. } = self.thread(thread).policy {
            let word = &mut self.groups[usize::from(group)].members[usize::from(thread) / 64 % THREAD_WORDS];
            let bit = 1 << (thread % 64);
            if is_member {
                *word |= bit
            } else {
                *word &= !bit
            }
        }
    }

    fn take_policy(&mut self, thread: u16, policy: Policy) {
        let record = at(&mut self.threads, thread);
        record.policy = policy;
        record.rest = if let Policy::Rr { slice, .. } = policy { slice } else { 0 };
        self.member(thread, true);
    }

    pub fn attach(&mut self, thread: u16, policy: Policy, stage: Stage) {
        let record = at(&mut self.threads, thread);
        record.attached = true;
        record.stage = stage;
        self.take_policy(thread, policy);
        if stage == Stage::Oob {
            self.to_end(thread);
        }
    }

    pub fn detach(&mut self, thread: u16) {
        self.leave(thread);
        self.member(thread, false);
        let record = at(&mut self.threads, thread);
        record.attached = false;
        record.stage = Stage::Inband;
        record.policy = Policy::Weak(0);
    }

    pub fn set_policy(&mut self, thread: u16, policy: Policy) {
        self.member(thread, false);
        self.take_policy(thread, policy);
        if self.thread(thread).ready {
            self.to_end(thread);
        }
    }

    pub fn set_stage(&mut self, thread: u16, stage: Stage) {
        if self.thread(thread).stage != stage {
            at(&mut self.threads, thread).stage = stage;
            if stage == Stage::Oob {
                self.to_end(thread)
            } else {
                self.leave(thread)
            }
        }
    }

    #[inline]
    pub fn charge(&mut self, delta: u64) {
        let Some(thread) = self.pick() else { return };
        let record = at(&mut self.threads, thread);
        match record.policy {
            Policy::Rr { slice, .. } if delta >= record.rest => {
                record.rest = slice;
                self.to_end(thread);
            }
            Policy::Rr { .. } => record.rest -= delta,
            Policy::Quota { group, .. } => {
                let group = &mut self.groups[usize::from(group)];
                group.budget = group.budget.saturating_sub(delta);
                if group.budget == 0 {
                    let members = group.members;
                    self.exhaust(&members);
                }
            }
            Policy::Fifo(_) | Policy::Weak(_) => {}
        }
    }

    #[cold]
    fn exhaust(&mut self, members: &[u64; THREAD_WORDS]) {
        for thread in numbers(members) {
            if self.thread(thread).queued {
                self.unlink(thread);
            }
        }
    }

    #[cold]
    pub fn refill(&mut self) {
        for number in 0..self.groups.len() {
            let group = &mut self.groups[number];
            let was_empty = group.budget == 0;
            group.budget = group.full;
            let members = group.members;
            if was_empty {
                for thread in numbers(&members) {
                    if self.thread(thread).ready {
                        self.link_by_stamp(thread);
                    }
                }
            }
        }
    }
}

fn numbers(words: &[u64; THREAD_WORDS]) -> impl Iterator<Item = u16> + '_ {
    (0..THREADS as u16).filter(|thread| words[usize::from(*thread) / 64] >> (thread % 64) & 1 != 0)
}
