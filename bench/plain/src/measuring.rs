//! What is measured: so many rounds of what a word names, in this process.
use crate::kernel::Kernel;
use crate::{prepared, rounds};
use std::process::ExitCode;
use std::time::Instant;

/// A family of calls: its word, the kernel before its rounds, and its rounds. Both are told the size: how many threads,
/// bytes, timers or mutexes there are.
struct Family {
    word: &'static str,
    prepare: fn(u16) -> Box<Kernel>,
    run: fn(&mut Kernel, u16, u32) -> u32,
}

const FAMILIES: &[Family] = &[
    Family { word: "puts", prepare: prepared::two_threads, run: rounds::puts },
    Family { word: "arrivals", prepare: prepared::quiet_line, run: rounds::arrivals },
    Family { word: "to_and_fro", prepare: prepared::to_and_fro, run: rounds::arrivals },
    Family { word: "waits", prepare: prepared::waiting, run: rounds::waits },
    Family { word: "timed_waits", prepare: prepared::waiting, run: rounds::timed_waits },
    Family { word: "slices", prepare: prepared::round_robin, run: rounds::ticks },
    Family { word: "fifo_ticks", prepare: prepared::ready, run: rounds::ticks },
    Family { word: "fires", prepare: prepared::timers, run: rounds::ticks },
    Family { word: "posts", prepare: prepared::takers, run: rounds::posts },
    Family { word: "transfers", prepare: prepared::two_threads, run: rounds::transfers },
    Family { word: "claims", prepare: prepared::chain, run: rounds::claims },
    Family { word: "root_claims", prepare: prepared::chain, run: rounds::root_claims },
    Family { word: "picks", prepare: prepared::ready, run: rounds::picks },
    Family { word: "switches", prepare: prepared::ready, run: rounds::switches },
];

/// The rounds that were done, and the nanoseconds that they took.
fn measured(word: &str, size: u16, rounds: u32) -> Option<(u32, u128)> {
    if word == "locked" || word == "locked_puts" {
        return Some(rounds::locked(prepared::two_threads(0), size, rounds, word == "locked_puts"));
    }
    let family = FAMILIES.iter().find(|family| family.word == word)?;
    let start = Instant::now();
    let mut kernel = (family.prepare)(size);
    let done = (family.run)(&mut kernel, size, rounds);
    Some((done, start.elapsed().as_nanos()))
}

/// Measures what the words name: a family, its size, and how many rounds.
pub fn measure(words: &[String]) -> ExitCode {
    let number = |at: usize| words.get(at).and_then(|word| word.parse::<u32>().ok()).unwrap_or(0);
    let word = words.first().map_or("", String::as_str);
    match measured(word, number(1) as u16, number(2)) {
        Some((done, spent)) => {
            println!("{done} rounds in {spent} ns");
            ExitCode::SUCCESS
        }
        None => {
            eprintln!("plain: there is nothing to measure by the word {word}");
            ExitCode::FAILURE
        }
    }
}
