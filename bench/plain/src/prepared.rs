//! The kernels over which is measured.
use crate::callbacks::{program_bank, Answer, Callback};
use crate::calls::Call;
use crate::kernel::Kernel;
use crate::values::{Board, MutexKind, Policy, Stage, Take, Until};

/// How many entries the history may have.
const LIMIT: usize = 1_000_000;

fn with(threads: u16, mutexes: u16) -> Box<Kernel> {
    let board = Board {
        threads,
        sems: vec![0],
        flags: vec![0],
        xbufs: vec![(256, 256)],
        mutexes: vec![MutexKind::Normal; mutexes.into()],
        groups: vec![],
    };
    let mut bank = program_bank();
    bank.extend((0..8).map(|_| Callback::new(0, |_| Answer::HANDLED)));
    Kernel::new(&board, bank, LIMIT)
}

fn attach(kernel: &mut Kernel, thread: u16, policy: Policy) {
    kernel.apply(thread, Call::Attach { policy, stage: Stage::Oob }).unwrap();
}

fn attach_all(kernel: &mut Kernel, threads: u16, policy: Policy) {
    for thread in 0..threads {
        attach(kernel, thread, policy);
    }
}

/// Two threads, of which the second is attached.
pub fn two_threads(_: u16) -> Box<Kernel> {
    let mut kernel = with(2, 0);
    attach(&mut kernel, 1, Policy::Fifo(10));
    kernel
}

/// A line with a callback that asks for nothing.
pub fn quiet_line(_: u16) -> Box<Kernel> {
    let mut kernel = with(2, 0);
    kernel.apply(0, Call::Request { line: 4, stage: Stage::Oob, callback: 0, tag: 0 }).unwrap();
    kernel
}

/// A line whose callbacks hand it to and fro.
pub fn to_and_fro(_: u16) -> Box<Kernel> {
    let mut kernel = with(2, 0);
    kernel.apply(0, Call::Request { line: 4, stage: Stage::Oob, callback: 3, tag: 0 }).unwrap();
    kernel.apply(0, Call::Request { line: 4, stage: Stage::Inband, callback: 4, tag: 0 }).unwrap();
    kernel
}

/// A thread that waits beside so many ready ones.
pub fn waiting(others: u16) -> Box<Kernel> {
    let mut kernel = with((others + 1).max(2), 0);
    attach_all(&mut kernel, others + 1, Policy::Fifo(10));
    kernel
}

/// So many ready threads.
pub fn ready(threads: u16) -> Box<Kernel> {
    let mut kernel = with(threads, 0);
    attach_all(&mut kernel, threads, Policy::Fifo(10));
    kernel
}

/// So many ready threads with slices.
pub fn round_robin(threads: u16) -> Box<Kernel> {
    let mut kernel = with(threads, 0);
    attach_all(&mut kernel, threads, Policy::Rr { prio: 10, slice: 100 });
    kernel
}

/// The first timer fires each 100 ns, the others a little later each.
pub fn timers(count: u16) -> Box<Kernel> {
    let mut kernel = with(2, 0);
    for timer in 0..count {
        kernel.apply(0, Call::NewTimer { callback: 8 + timer as u8, tag: 0 }).unwrap();
        let far = u64::from(timer) * 1_000_000_000_000;
        kernel.apply(0, Call::StartTimer { timer, date: 100 + far, interval: 100 }).unwrap();
    }
    kernel
}

/// Each waits for a bit of its own.
pub fn takers(threads: u16) -> Box<Kernel> {
    let mut kernel = with(threads + 1, 0);
    for thread in 0..threads {
        attach(&mut kernel, thread, Policy::Fifo(10));
        kernel.apply(thread, begin_take(thread)).unwrap();
    }
    kernel
}

pub fn begin_take(thread: u16) -> Call {
    Call::BeginTake { flags: 0, kind: Take::Exact(1 << thread), until: Until::NEVER }
}

/// Thread k owns mutex k, for which thread k + 1 waits; the last mutex has nobody who waits, the last thread isn't in
/// the chain.
pub fn chain(mutexes: u16) -> Box<Kernel> {
    let mut kernel = with(mutexes + 2, 32);
    for thread in 0..mutexes {
        attach(&mut kernel, thread, Policy::Fifo(1 + thread as u8));
    }
    attach(&mut kernel, mutexes, Policy::Fifo(90));
    attach(&mut kernel, mutexes + 1, Policy::Fifo(95));
    for mutex in 0..mutexes - 1 {
        kernel.apply(mutex + 1, Call::Claim { mutex, owner: mutex, until: Until::NEVER }).unwrap();
    }
    kernel
}
