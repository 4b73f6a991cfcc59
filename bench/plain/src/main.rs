//! The kernel in plain Rust, for measurements beside the proved one: `plain [FILE] [--limit N]` plays a scenario and
//! prints its trace, `plain measure WHAT SIZE ROUNDS` measures calls. It promises nothing of memory, and no proof
//! covers it.
mod callbacks;
mod calls;
mod due;
mod kernel;
mod limits;
mod lines;
mod measuring;
mod owners;
mod play_texts;
mod playing;
mod prepared;
mod queue;
mod replies;
mod rounds;
mod scenario;
mod sched;
mod steps;
mod texts;
mod toml;
mod values;

use std::process::ExitCode;

fn main() -> ExitCode {
    let words: Vec<String> = std::env::args().skip(1).collect();
    if words.first().is_some_and(|word| word == "measure") {
        return measuring::measure(&words[1..]);
    }
    match playing::play(&words) {
        Ok(()) => ExitCode::SUCCESS,
        Err((status, line)) => {
            eprintln!("{line}");
            ExitCode::from(status)
        }
    }
}
