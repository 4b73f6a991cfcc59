//! The kernel: one call at a time, its settling, and the history of both.
use self::stream::Stream;
use crate::callbacks::{Answer, Callback, Fire};
use crate::calls::{Call, Play};
use crate::due::Due;
use crate::limits::{LINES, MAX_PLAYS, MAX_TRANSFER, SECOND, SEM_MAXIMUM, THREADS, TIMERS};
use crate::lines::{Side, CLOCK};
use crate::owners::Owners;
use crate::queue::{at, Link, Linked, Queue, UNLINKED};
use crate::replies::{Answered, Entry, Packed, Refusal};
use crate::sched::Sched;
use crate::values::{Board, Span, Take, Way};

/// What is in it, or the refusal as the answer.
macro_rules! sure {
    ($result:expr) => {
        match $result {
            Ok(value) => value,
            Err(refusal) => return Packed::refused(refusal),
        }
    };
}

/// What is in it, or `Unknown` as the answer.
macro_rules! known {
    ($option:expr) => {
        match $option {
            Some(value) => value,
            None => return Packed::refused(Refusal::Unknown),
        }
    };
}

mod clock;
mod elements;
mod mutexes;
mod serving;
mod settling;
mod stream;
mod threads;
mod transfers;
mod waits;

/// A callback of the bank. It is on at most one line or timer, so what belongs to that place stands here too.
struct Place {
    run: Box<dyn Fn(Fire) -> Answer + Send>,
    count: u64,
    tag: u32,
    kinds: u8,
    is_out: bool,
}

impl Place {
    fn new(callback: Callback) -> Place {
        Place { run: callback.run, count: 0, tag: 0, kinds: callback.kinds, is_out: false }
    }
}

#[derive(Clone, Copy)]
enum On {
    Nothing,
    Sem(u16),
    Flags(u16, Take),
    Write { xbuf: u16, way: Way, bytes: Span },
    Read { xbuf: u16, way: Way, len: u16 },
    Mutex,
}

/// What a thread waits for, from its Begin to its Finish.
struct Wait {
    on: On,
    timed: bool,
    link: Link,
    /// `BEGUN` while it goes on.
    ended: Packed,
}

impl Wait {
    fn none() -> Wait {
        Wait { on: On::Nothing, timed: false, link: UNLINKED, ended: Packed::BEGUN }
    }
}

impl Linked for Wait {
    fn link(&mut self) -> &mut Link {
        &mut self.link
    }
}

struct Sem {
    count: u32,
    waiters: Queue,
}

struct Flags {
    bits: u32,
    waiters: Queue,
}
#[derive(Clone, Copy, PartialEq, Eq, Debug)]
pub enum TimerState {
    Idle,
    Running,
    Ended,
}

struct Timer {
    state: TimerState,
    callback: u8,
    date: u64,
    interval: u64,
    overruns: u64,
}

impl Timer {
    fn new(callback: u8) -> Timer {
        Timer { state: TimerState::Idle, callback, date: 0, interval: 0, overruns: 0 }
    }
}

pub struct Kernel {
    limit: usize,
    /// So many entries need no look at the limit and at room.
    fence: usize,
    pub history: Vec<Entry>,
    pub plays: Vec<Play>,
    arena: Vec<u8>,
    oob: Side,
    inband: Side,
    spurious: Box<[u64]>,
    bank: Vec<Place>,
    now: u64,
    second: u64,
    next_second: u64,
    due: Due,
    taken_timers: u64,
    timers: [Timer; TIMERS],
    count: u16,
    waits: [Wait; THREADS],
    sched: Sched,
    owners: Owners,
    sems: Vec<Sem>,
    flags: Vec<Flags>,
    xbufs: Vec<[Stream; 2]>,
}

/// The most bytes that a call reads.
const MAX_READ: usize = MAX_TRANSFER * THREADS;

impl Kernel {
    pub fn new(board: &Board, bank: Vec<Callback>, limit: usize) -> Box<Kernel> {
        let mut kernel = Box::new(Kernel {
            limit,
            fence: 0,
            history: Vec::new(),
            plays: Vec::new(),
            arena: Vec::new(),
            oob: Side::new(),
            inband: Side::new(),
            spurious: vec![0; LINES].into_boxed_slice(),
            bank: bank.into_iter().map(Place::new).collect(),
            now: 0,
            second: 0,
            next_second: SECOND,
            due: Due::new(),
            taken_timers: 0,
            timers: std::array::from_fn(|_| Timer::new(0)),
            count: board.threads,
            waits: std::array::from_fn(|_| Wait::none()),
            sched: Sched::new(&board.groups),
            owners: Owners::new(&board.mutexes),
            sems: board.sems.iter().map(|count| Sem { count: *count, waiters: Queue::EMPTY }).collect(),
            flags: board.flags.iter().map(|bits| Flags { bits: *bits, waiters: Queue::EMPTY }).collect(),
            xbufs: board.xbufs.iter().map(|sizes| [Stream::new(sizes.0), Stream::new(sizes.1)]).collect(),
        });
        kernel.oob.callbacks[0] = CLOCK;
        kernel
    }

    /// Puts bytes into the arena, for a call that writes them.
    #[inline]
    pub fn bytes(&mut self, bytes: &[u8]) -> Result<Span, Refusal> {
        let start = self.arena.len() as u32;
        if self.arena.try_reserve(bytes.len()).is_err() {
            return Err(Refusal::NoMemory);
        }
        self.arena.extend_from_slice(bytes);
        if self.arena.capacity() - self.arena.len() < MAX_READ {
            self.fence = self.history.len();
        }
        Ok(Span { start, len: bytes.len() as u16 })
    }

    #[inline]
    pub fn bytes_of(&self, span: Span) -> &[u8] {
        &self.arena[span.start as usize..][..usize::from(span.len)]
    }

    #[inline]
    pub fn apply(&mut self, caller: u16, call: Call) -> Answered {
        self.apply_packed(caller, &call).get()
    }

    /// The simplest calls are made here; the commoner ones go on to functions of their own, all others to
    /// `apply_slowly`.
    #[inline(never)]
    fn apply_packed(&mut self, caller: u16, call: &Call) -> Packed {
        if self.history.len() == self.fence {
            return self.at_fence(caller, call);
        }
        if caller >= self.count {
            return self.enter(caller, call, Packed::refused(Refusal::Unknown), 0);
        }
        if !matches!(at(&mut self.waits, caller).on, On::Nothing) {
            return self.call_finish(caller, call);
        }
        let reply = match *call {
            Call::TryGet { sem } => self.try_get(sem),
            Call::Put { sem } => match self.sems.get_mut(usize::from(sem)) {
                Some(Sem { count, waiters }) if waiters.len == 0 && *count < SEM_MAXIMUM => {
                    *count += 1;
                    Packed::DONE
                }
                _ => return self.call_put(caller, call),
            },
            Call::Peek { sem } => self.peek(sem),
            Call::PeekFlags { flags } => self.peek_flags(flags),
            Call::Now => Packed::number(self.now),
            Call::Pick => Packed::chosen(self.sched.pick()),
            Call::RankOf { thread } => self.rank_of(thread),
            Call::Arrive { .. } => return self.call_arrive(caller, call),
            Call::Tick { .. } => return self.call_tick(caller, call),
            Call::BeginGet { .. } => return self.call_begin_get(caller, call),
            Call::PostFlags { .. } => return self.call_post_flags(caller, call),
            Call::BeginTake { .. } => return self.call_begin_take(caller, call),
            Call::Write { .. } => return self.call_write(caller, call),
            Call::Read { .. } => return self.call_read(caller, call),
            Call::Claim { .. } => return self.call_claim(caller, call),
            Call::Release { .. } => return self.call_release(caller, call),
            Call::SetStage { .. } => return self.call_set_stage(caller, call),
            _ => return self.apply_slowly(caller, call),
        };
        self.over(caller, call, reply)
    }

    /// The end of a call: its settling and its entry.
    #[inline(always)]
    fn over(&mut self, caller: u16, call: &Call, reply: Packed) -> Packed {
        if self.is_some_pending() && !reply.is_refused() {
            return self.settle_and_enter(caller, call, reply);
        }
        self.enter(caller, call, reply, 0)
    }

    fn is_some_pending(&self) -> bool {
        self.oob.summary | self.inband.summary != 0
    }

    /// Looks at the limit, makes room for an entry and for all plays that a call may make, and sets the next fence.
    #[cold]
    #[inline(never)]
    fn at_fence(&mut self, caller: u16, call: &Call) -> Packed {
        if self.history.len() >= self.limit {
            return Packed::refused(Refusal::HistoryFull);
        }
        if self.history.try_reserve(1).is_err()
            || self.plays.try_reserve(MAX_PLAYS).is_err()
            || self.arena.try_reserve(MAX_READ).is_err()
        {
            return Packed::refused(Refusal::NoMemory);
        }
        self.fence = self.history.capacity().min(self.limit);
        self.apply_slowly(caller, call)
    }

    #[inline(never)]
    fn apply_slowly(&mut self, caller: u16, call: &Call) -> Packed {
        let reply = self.perform(caller, call);
        self.over(caller, call, reply)
    }

    #[inline(always)]
    fn enter(&mut self, caller: u16, call: &Call, reply: Packed, plays: u16) -> Packed {
        // There is room since the fence; with the growth in a function of its own, none of the calls above keeps
        // registers for it.
        if self.history.len() == self.history.capacity() {
            return self.enter_and_grow(caller, call, reply, plays);
        }
        self.history.push(Entry::new(caller, *call, reply, plays));
        reply
    }

    #[cold]
    #[inline(never)]
    fn enter_and_grow(&mut self, caller: u16, call: &Call, reply: Packed, plays: u16) -> Packed {
        self.history.push(Entry::new(caller, *call, reply, plays));
        reply
    }

    #[inline(never)]
    fn settle_and_enter(&mut self, caller: u16, call: &Call, reply: Packed) -> Packed {
        let before = self.plays.len();
        self.settle();
        if self.plays.capacity() - self.plays.len() < MAX_PLAYS {
            self.fence = self.history.len() + 1;
        }
        self.enter(caller, call, reply, (self.plays.len() - before) as u16)
    }
}
