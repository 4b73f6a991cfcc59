//! The bare pairs of atomic operations that a gate and a mutex word are measured against.
use std::hint::black_box;
use std::sync::atomic::{AtomicU64, Ordering::SeqCst};
use std::time::Instant;

const ROUNDS: u32 = 20_000_000;

fn gate_pairs(word: &AtomicU64) -> u32 {
    let mut lost = 0;
    for _ in 0..ROUNDS {
        let found = word.load(SeqCst);
        lost += u32::from(word.compare_exchange(found, found + 1, SeqCst, SeqCst).is_err());
        lost += u32::from(word.fetch_sub(1, SeqCst) == 0);
    }
    lost
}

fn mutex_pairs(word: &AtomicU64) -> u32 {
    let mut lost = 0;
    for _ in 0..ROUNDS {
        lost += u32::from(word.compare_exchange(0, 1, SeqCst, SeqCst).is_err());
        lost += u32::from(word.compare_exchange(1, 0, SeqCst, SeqCst).is_err());
    }
    lost
}

fn main() {
    let word = black_box(AtomicU64::new(0));
    for (name, pairs) in [("gate", gate_pairs as fn(&AtomicU64) -> u32), ("mutex word", mutex_pairs)] {
        let start = Instant::now();
        let lost = pairs(&word);
        println!("bare pair of a {name}: {ROUNDS} rounds in {} ns, {lost} lost", start.elapsed().as_nanos());
    }
}
