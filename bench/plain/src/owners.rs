//! Recorded owners of mutexes, their waiters, and the effective ranks, which are stored and mended along the chain of
//! owners for as long as they change. What a waiter hands on is its base rank and what it inherits itself, not its
//! ceilings.
use crate::limits::{NONE, THREADS};
use crate::queue::{at, Link, Linked, Queue, UNLINKED};
use crate::replies::Refusal;
use crate::values::MutexKind;

const NO_MUTEX: u8 = u8::MAX;

struct Mutex {
    owner: u16,
    /// 512 and the ceiling; 0 where it has none.
    ceiling: u16,
    /// The greatest rank that a waiter hands on.
    top: u16,
    waiters: Queue,
}

struct Record {
    base: u16,
    inherited: u16,
    ceiling: u16,
    rank: u16,
    link: Link,
    waits: u8,
    /// The mutexes for which it is recorded.
    owned: u64,
}

impl Record {
    /// What it hands on to the owner of the mutex that it waits for.
    fn reach(&self) -> u16 {
        self.base.max(self.inherited)
    }

    fn mend(&mut self, thread: u16, changed: &mut impl FnMut(u16, u16)) {
        let rank = self.reach().max(self.ceiling);
        if rank != self.rank {
            self.rank = rank;
            changed(thread, rank);
        }
    }
}

impl Linked for Record {
    fn link(&mut self) -> &mut Link {
        &mut self.link
    }
}

pub struct Owners {
    mutexes: Vec<Mutex>,
    threads: [Record; THREADS],
}

impl Owners {
    pub fn new(kinds: &[MutexKind]) -> Owners {
        assert!(kinds.len() <= 64);
        let mutex = |kind: &MutexKind| Mutex {
            owner: NONE,
            ceiling: if let MutexKind::Ceiling(priority) = kind { 512 + u16::from(*priority) } else { 0 },
            top: 0,
            waiters: Queue::EMPTY,
        };
        Owners {
            mutexes: kinds.iter().map(mutex).collect(),
            threads: std::array::from_fn(|_| Record {
                base: 0,
                inherited: 0,
                ceiling: 0,
                rank: 0,
                link: UNLINKED,
                waits: NO_MUTEX,
                owned: 0,
            }),
        }
    }

    fn thread(&mut self, thread: u16) -> &mut Record {
        at(&mut self.threads, thread)
    }

    pub fn knows(&self, mutex: u16) -> bool {
        usize::from(mutex) < self.mutexes.len()
    }

    pub fn owner(&self, mutex: u16) -> Option<u16> {
        match self.mutexes[usize::from(mutex)].owner {
            NONE => None,
            owner => Some(owner),
        }
    }

    #[inline]
    pub fn rank(&self, thread: u16) -> u16 {
        self.threads[usize::from(thread) % THREADS].rank
    }

    pub fn owns_some(&self, thread: u16) -> bool {
        self.threads[usize::from(thread) % THREADS].owned != 0
    }

    pub fn set_base(&mut self, thread: u16, base: u16, changed: &mut impl FnMut(u16, u16)) {
        let record = self.thread(thread);
        record.base = base;
        record.mend(thread, changed);
        let waits = record.waits;
        if waits != NO_MUTEX {
            self.mend_from(waits, changed);
        }
    }

    /// `mutex` is known, and the owner isn't the waiter.
    #[inline]
    pub fn claim(
        &mut self,
        mutex: u16,
        waiter: u16,
        owner: u16,
        changed: &mut impl FnMut(u16, u16),
    ) -> Result<(), Refusal> {
        let number = usize::from(mutex);
        // A ring needs that the waiter is somebody's owner.
        if self.owns_some(waiter) && self.reaches(owner, waiter) {
            return Err(Refusal::Deadlock);
        }
        let place = &mut self.mutexes[number];
        if place.owner == NONE {
            place.owner = owner;
            let ceiling = place.ceiling;
            self.record(mutex, owner, ceiling, changed);
        }
        let record = at(&mut self.threads, waiter);
        record.waits = mutex as u8;
        let (rank, reach) = (record.rank, record.reach());
        self.mutexes[number].waiters.push_by_rank(&mut self.threads, waiter, rank);
        self.raise_from(mutex as u8, reach, changed);
        Ok(())
    }

    /// Whether `goal` is reached from `start`.
    fn reaches(&self, start: u16, goal: u16) -> bool {
        let mut thread = start;
        loop {
            let waits = self.threads[usize::from(thread) % THREADS].waits;
            if waits == NO_MUTEX {
                return false;
            }
            thread = self.mutexes[usize::from(waits)].owner;
            if thread == goal {
                return true;
            }
        }
    }

    fn record(&mut self, mutex: u16, owner: u16, ceiling: u16, changed: &mut impl FnMut(u16, u16)) {
        let record = self.thread(owner);
        record.owned |= 1 << mutex;
        if ceiling > record.ceiling {
            record.ceiling = ceiling;
            record.mend(owner, changed);
        }
    }

    /// `mutex` is known. Who is next, and whether more wait.
    #[inline]
    pub fn release(
        &mut self,
        mutex: u16,
        owner: u16,
        changed: &mut impl FnMut(u16, u16),
    ) -> Result<(Option<u16>, bool), Refusal> {
        let number = usize::from(mutex);
        let place = &mut self.mutexes[number];
        if place.owner == NONE {
            return Ok((None, false));
        }
        if place.owner != owner {
            return Err(Refusal::NotOwner);
        }
        let (head, ceiling) = (place.waiters.head, place.ceiling);
        place.owner = NONE;
        place.top = 0;
        self.forget(mutex, owner, ceiling, changed);
        if head == NONE {
            return Ok((None, false));
        }
        self.mutexes[number].waiters.remove(&mut self.threads, head);
        self.thread(head).waits = NO_MUTEX;
        let more = self.mutexes[number].waiters.len > 0;
        if more || ceiling > 0 {
            self.mutexes[number].owner = head;
            self.record(mutex, head, ceiling, changed);
            self.mend_from(mutex as u8, changed);
        }
        Ok((Some(head), more))
    }

    /// The owner is recorded no more; the mutex hands nothing on to it.
    fn forget(&mut self, mutex: u16, owner: u16, ceiling: u16, changed: &mut impl FnMut(u16, u16)) {
        let record = at(&mut self.threads, owner);
        record.owned &= !(1 << mutex);
        if ceiling > 0 {
            record.ceiling = bits(record.owned).map(|mutex| self.mutexes[mutex].ceiling).max().unwrap_or(0);
        }
        self.mend_owner(owner, true, changed);
    }

    /// `mutex` is known, and has a ceiling.
    pub fn raise(&mut self, mutex: u16, thread: u16, changed: &mut impl FnMut(u16, u16)) -> Result<(), Refusal> {
        let place = &mut self.mutexes[usize::from(mutex)];
        if place.owner != NONE {
            return Err(Refusal::Busy);
        }
        place.owner = thread;
        let ceiling = place.ceiling;
        self.record(mutex, thread, ceiling, changed);
        Ok(())
    }

    pub fn has_ceiling(&self, mutex: u16) -> bool {
        self.mutexes[usize::from(mutex)].ceiling > 0
    }

    /// A waiter leaves the queue in which it stands.
    pub fn drop_waiter(&mut self, thread: u16, changed: &mut impl FnMut(u16, u16)) {
        let waits = std::mem::replace(&mut self.thread(thread).waits, NO_MUTEX);
        let place = &mut self.mutexes[usize::from(waits)];
        place.waiters.remove(&mut self.threads, thread);
        if place.waiters.len == 0 && place.ceiling == 0 {
            let owner = std::mem::replace(&mut place.owner, NONE);
            place.top = 0;
            self.forget(u16::from(waits), owner, 0, changed);
        } else {
            self.mend_from(waits, changed);
        }
    }

    /// A waiter hands on `reach`, which no waiter's falling away comes with.
    fn raise_from(&mut self, mut mutex: u8, reach: u16, changed: &mut impl FnMut(u16, u16)) {
        loop {
            let place = &mut self.mutexes[usize::from(mutex)];
            if place.top >= reach {
                return;
            }
            place.top = reach;
            let owner = place.owner;
            let record = at(&mut self.threads, owner);
            if record.inherited >= reach {
                return;
            }
            record.inherited = reach;
            record.mend(owner, changed);
            if record.base >= reach || record.waits == NO_MUTEX {
                return;
            }
            mutex = record.waits;
        }
    }

    /// The waiters of a mutex, or what they hand on, have changed.
    fn mend_from(&mut self, mutex: u8, changed: &mut impl FnMut(u16, u16)) {
        let mut top = 0;
        let mut waiter = self.mutexes[usize::from(mutex)].waiters.head;
        while waiter != NONE {
            let record = self.thread(waiter);
            top = top.max(record.reach());
            waiter = record.link.next;
        }
        let place = &mut self.mutexes[usize::from(mutex)];
        if place.top != top {
            place.top = top;
            let owner = place.owner;
            self.mend_owner(owner, false, changed);
        }
    }

    /// What its mutexes hand on to an owner, or its ceilings, have changed.
    fn mend_owner(&mut self, owner: u16, anyway: bool, changed: &mut impl FnMut(u16, u16)) {
        let record = at(&mut self.threads, owner);
        let inherited = bits(record.owned).map(|mutex| self.mutexes[mutex].top).max().unwrap_or(0);
        if inherited == record.inherited && !anyway {
            return;
        }
        let before = record.reach();
        record.inherited = inherited;
        record.mend(owner, changed);
        if record.reach() != before && record.waits != NO_MUTEX {
            let waits = record.waits;
            self.mend_from(waits, changed);
        }
    }
}

/// The numbers of the set bits.
fn bits(mut word: u64) -> impl Iterator<Item = usize> {
    std::iter::from_fn(move || {
        if word == 0 {
            return None;
        }
        let bit = word.trailing_zeros() as usize;
        word &= word - 1;
        Some(bit)
    })
}
