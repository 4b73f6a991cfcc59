//! What the calls of callers are measured against: the same plain step behind a std::sync::Mutex, of one host thread, of two and of
//! four (on replies that may carry 256 bytes in place, on replies that may carry them in a box, as the kernel's do, and on replies
//! that carry none), and the bare pairs of atomic operations of a mutex word and of a stax. So many rounds of what a word names.
use std::hint::black_box;
use std::sync::atomic::{AtomicU64, Ordering::SeqCst};
use std::sync::Mutex;
use std::time::Instant;

const BYTES: usize = 256;

#[allow(dead_code)]
#[derive(Clone, Copy)]
struct InPlace {
    len: usize,
    bytes: [u8; BYTES],
}

#[allow(dead_code)]
enum Call {
    Request { line: u16, stage: u8, callback: u8, tag: u32 },
    TryGet { sem: u16 },
    Put { sem: u16 },
}

#[allow(dead_code)]
#[derive(Clone)]
enum Reply<B> {
    Done,
    Count(i64),
    Bytes(B),
}

#[allow(dead_code)]
#[derive(Clone, Copy)]
enum Refusal {
    Again,
    Unknown,
    Limit,
    HistoryFull,
}

#[allow(dead_code)]
struct Entry<B> {
    caller: u16,
    call: Call,
    reply: Result<Reply<B>, Refusal>,
    plays: usize,
}

struct Kernel<B> {
    threads: u16,
    sems: Vec<u32>,
    history: Vec<Entry<B>>,
    limit: usize,
}

impl<B: Clone + Send> Kernel<B> {
    fn new() -> Mutex<Kernel<B>> {
        Mutex::new(Kernel { threads: 4, sems: vec![0], history: Vec::new(), limit: 1_000_000 })
    }

    fn step(&mut self, caller: u16, call: &Call) -> Result<Reply<B>, Refusal> {
        if caller >= self.threads {
            return Err(Refusal::Unknown);
        }
        match call {
            Call::Request { .. } => Err(Refusal::Unknown),
            Call::TryGet { sem } => match self.sems.get_mut(usize::from(*sem)) {
                None => Err(Refusal::Unknown),
                Some(0) => Err(Refusal::Again),
                Some(count) => {
                    *count -= 1;
                    Ok(Reply::Done)
                }
            },
            Call::Put { sem } => match self.sems.get_mut(usize::from(*sem)) {
                None => Err(Refusal::Unknown),
                Some(2_147_483_647) => Err(Refusal::Limit),
                Some(count) => {
                    *count += 1;
                    Ok(Reply::Done)
                }
            },
        }
    }

    fn apply(&mut self, caller: u16, call: Call) -> Result<Reply<B>, Refusal> {
        if self.history.len() == self.limit {
            return Err(Refusal::HistoryFull);
        }
        let reply = self.step(caller, &call);
        self.history.push(Entry { caller, call, reply: reply.clone(), plays: 0 });
        reply
    }
}

fn puts_and_gets<B: Clone + Send>(kernel: &Mutex<Kernel<B>>, rounds: u32) -> u32 {
    let mut done = 0;
    for _ in 0..rounds {
        let put = kernel.lock().unwrap().apply(0, black_box(Call::Put { sem: 0 }));
        let got = kernel.lock().unwrap().apply(0, black_box(Call::TryGet { sem: 0 }));
        done += u32::from(put.is_ok() && got.is_ok());
    }
    done
}

fn puts<B: Clone + Send>(kernel: &Mutex<Kernel<B>>, caller: u16, rounds: u32) -> u32 {
    (0..rounds).filter(|_| kernel.lock().unwrap().apply(caller, black_box(Call::Put { sem: 0 })).is_ok()).count() as u32
}

/// So many host threads put at once.
fn contended<B: Clone + Send>(kernel: &Mutex<Kernel<B>>, threads: u16, rounds: u32) -> u32 {
    std::thread::scope(|scope| {
        let others: Vec<_> = (1..threads).map(|caller| scope.spawn(move || puts(kernel, caller, rounds))).collect();
        puts(kernel, 0, rounds) + others.into_iter().map(|other| other.join().unwrap()).sum::<u32>()
    })
}

fn over<B: Clone + Send>(what: &str, rounds: u32) -> (u32, u128) {
    let kernel = Kernel::<B>::new();
    let start = Instant::now();
    let done = match what {
        "two_hosts" => contended(&kernel, 2, rounds),
        "four_hosts" => contended(&kernel, 4, rounds),
        _ => puts_and_gets(&kernel, rounds),
    };
    (done, start.elapsed().as_nanos())
}

/// Enters and leaves a stax that nobody else wants.
fn stax_pairs(word: &AtomicU64, rounds: u32) -> u32 {
    let mut done = 0;
    for _ in 0..rounds {
        let found = word.load(SeqCst);
        let entered = word.compare_exchange(found, found + 1, SeqCst, SeqCst).is_ok();
        let left = word.fetch_sub(1, SeqCst) != 0;
        done += u32::from(entered && left);
    }
    done
}

/// Locks and unlocks a mutex that nobody else wants.
fn mutex_pairs(word: &AtomicU64, rounds: u32) -> u32 {
    let mut done = 0;
    for _ in 0..rounds {
        let locked = word.compare_exchange(0, 1, SeqCst, SeqCst).is_ok();
        let unlocked = word.compare_exchange(1, 0, SeqCst, SeqCst).is_ok();
        done += u32::from(locked && unlocked);
    }
    done
}

fn pairs(run: fn(&AtomicU64, u32) -> u32, rounds: u32) -> (u32, u128) {
    let word = black_box(AtomicU64::new(0));
    let start = Instant::now();
    let done = run(&word, rounds);
    (done, start.elapsed().as_nanos())
}

fn main() {
    let words: Vec<String> = std::env::args().collect();
    let rounds = words[2].parse().unwrap();
    let (done, spent) = match (words[1].as_str(), words.get(3).map(String::as_str)) {
        ("staxes", _) => pairs(stax_pairs, rounds),
        ("mutexes", _) => pairs(mutex_pairs, rounds),
        (what, Some("in_place")) => over::<InPlace>(what, rounds),
        (what, Some("boxed")) => over::<Box<[u8]>>(what, rounds),
        (what, _) => over::<()>(what, rounds),
    };
    println!("{done} in {spent} ns");
}
