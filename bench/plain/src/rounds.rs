//! Rounds of calls, and how many of them were answered as they have to be.
use crate::calls::Call;
use crate::kernel::Kernel;
use crate::prepared::begin_take;
use crate::replies::Reply;
use crate::values::{Stage, Until, Way};
use std::hint::black_box;
use std::sync::atomic::{AtomicU32, Ordering};
use std::sync::Mutex;
use std::time::Instant;

pub fn puts(kernel: &mut Kernel, _: u16, rounds: u32) -> u32 {
    let mut done = 0;
    for _ in 0..rounds {
        let put = kernel.apply(0, black_box(Call::Put { sem: 0 }));
        let got = kernel.apply(0, black_box(Call::TryGet { sem: 0 }));
        done += u32::from(put.is_ok() && got.is_ok());
    }
    done
}

pub fn arrivals(kernel: &mut Kernel, _: u16, rounds: u32) -> u32 {
    (0..rounds).filter(|_| kernel.apply(0, black_box(Call::Arrive { line: 4 })).is_ok()).count() as u32
}

fn waits_until(kernel: &mut Kernel, until: Until, rounds: u32) -> u32 {
    let mut done = 0;
    for _ in 0..rounds {
        let _ = kernel.apply(0, black_box(Call::BeginGet { sem: 0, until }));
        let _ = kernel.apply(1, black_box(Call::Put { sem: 0 }));
        let ended = kernel.apply(0, black_box(Call::Finish { keep: false }));
        done += u32::from(ended == Ok(Reply::Done));
    }
    done
}

pub fn waits(kernel: &mut Kernel, _: u16, rounds: u32) -> u32 {
    waits_until(kernel, Until::NEVER, rounds)
}

pub fn timed_waits(kernel: &mut Kernel, _: u16, rounds: u32) -> u32 {
    waits_until(kernel, Until::at(1000), rounds)
}

pub fn ticks(kernel: &mut Kernel, _: u16, rounds: u32) -> u32 {
    (0..rounds).filter(|_| kernel.apply(0, black_box(Call::Tick { delta: 100 })).is_ok()).count() as u32
}

pub fn posts(kernel: &mut Kernel, size: u16, rounds: u32) -> u32 {
    let mut done = 0;
    for round in 0..rounds {
        let thread = round as u16 % size;
        let _ = kernel.apply(size, black_box(Call::PostFlags { flags: 0, bits: 1 << thread }));
        let ended = kernel.apply(thread, black_box(Call::Finish { keep: false }));
        let _ = kernel.apply(thread, black_box(begin_take(thread)));
        done += u32::from(ended == Ok(Reply::Bits(1 << thread)));
    }
    done
}

pub fn transfers(kernel: &mut Kernel, size: u16, rounds: u32) -> u32 {
    let bytes = black_box([0x5a; 256]);
    let mut done = 0;
    for _ in 0..rounds {
        let Ok(span) = kernel.bytes(&bytes[..usize::from(size)]) else { return done };
        let _ = kernel.apply(0, black_box(Call::Write { xbuf: 0, way: Way::In, bytes: span }));
        let read = kernel.apply(1, black_box(Call::Read { xbuf: 0, way: Way::In, len: size }));
        done += u32::from(matches!(read, Ok(Reply::Bytes(span)) if span.len == size));
    }
    done
}

/// A claim at the end of the chain and its end by a deadline, with the first owner's rank after each.
pub fn claims(kernel: &mut Kernel, size: u16, rounds: u32) -> u32 {
    let Ok(Reply::Number(now)) = kernel.apply(size + 1, Call::Now) else { return 0 };
    let mut done = 0;
    for round in 0..u64::from(rounds) {
        let until = Until::at(now + round + 1);
        let _ = kernel.apply(size, black_box(Call::Claim { mutex: size - 1, owner: size - 1, until }));
        let high = kernel.apply(size + 1, black_box(Call::RankOf { thread: 0 }));
        let _ = kernel.apply(size + 1, black_box(Call::Tick { delta: 1 }));
        let low = kernel.apply(size + 1, black_box(Call::RankOf { thread: 0 }));
        let ended = kernel.apply(size, black_box(Call::Finish { keep: false }));
        let is_right = high == Ok(Reply::Number(602))
            && low == Ok(Reply::Number(u64::from(512 + size)))
            && ended == Ok(Reply::TimedOut);
        done += u32::from(is_right);
    }
    done
}

/// A claim of a mutex of the first owner, its release, and the end of the wait, with the first owner's rank between
/// them.
pub fn root_claims(kernel: &mut Kernel, size: u16, rounds: u32) -> u32 {
    let mut done = 0;
    for _ in 0..rounds {
        let _ = kernel.apply(size, black_box(Call::Claim { mutex: 31, owner: 0, until: Until::NEVER }));
        let high = kernel.apply(size + 1, black_box(Call::RankOf { thread: 0 }));
        let _ = kernel.apply(0, black_box(Call::Release { mutex: 31 }));
        let ended = kernel.apply(size, black_box(Call::Finish { keep: false }));
        done += u32::from(high == Ok(Reply::Number(602)) && ended == Ok(Reply::Done));
    }
    done
}

pub fn picks(kernel: &mut Kernel, _: u16, rounds: u32) -> u32 {
    (0..rounds).filter(|_| matches!(kernel.apply(0, black_box(Call::Pick)), Ok(Reply::Chosen(Some(_))))).count() as u32
}

/// A thread goes in-band and back, and the pick.
pub fn switches(kernel: &mut Kernel, _: u16, rounds: u32) -> u32 {
    let mut done = 0;
    for _ in 0..rounds {
        let _ = kernel.apply(0, black_box(Call::SetStage { stage: Stage::Inband }));
        let _ = kernel.apply(0, black_box(Call::SetStage { stage: Stage::Oob }));
        done += u32::from(kernel.apply(0, black_box(Call::Pick)).is_ok());
    }
    done
}

/// A put and a try_get in turn, or puts alone, by so many host threads through one lock; the rounds of all, and the
/// nanoseconds from the first one's start.
pub fn locked(kernel: Box<Kernel>, threads: u16, rounds: u32, is_puts_alone: bool) -> (u32, u128) {
    let second = if is_puts_alone { Call::Put { sem: 0 } } else { Call::TryGet { sem: 0 } };
    let kernel = Mutex::new(kernel);
    let gate = AtomicU32::new(0);
    let work = || {
        gate.fetch_add(1, Ordering::SeqCst);
        while gate.load(Ordering::SeqCst) < u32::from(threads) {
            std::hint::spin_loop();
        }
        let start = Instant::now();
        let mut done = 0;
        for _ in 0..rounds {
            let put = kernel.lock().map(|mut kernel| kernel.apply(0, black_box(Call::Put { sem: 0 })));
            let got = kernel.lock().map(|mut kernel| kernel.apply(0, black_box(second)));
            done += u32::from(matches!((put, got), (Ok(Ok(_)), Ok(Ok(_)))));
        }
        (start, done)
    };
    let (start, done) = std::thread::scope(|scope| {
        let others: Vec<_> = (1..threads).map(|_| scope.spawn(work)).collect();
        let mine = work();
        let joined = others.into_iter().filter_map(|other| other.join().ok());
        joined.fold(mine, |(start, done), (other, more)| (start.min(other), done + more))
    });
    (done, start.elapsed().as_nanos())
}
