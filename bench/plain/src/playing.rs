//! The program that plays a scenario.
use crate::callbacks::program_bank;
use crate::calls::Call;
use crate::kernel::Kernel;
use crate::limits::MAX_LIMIT;
use crate::play_texts;
use crate::replies::{Answered, Refusal};
use crate::scenario::{self, Fault};
use crate::steps::Step;
use crate::texts;
use crate::values::Board;
use std::io::{Read, Write};

/// Why a scenario isn't played: the status, and a line that says it.
type Stop = (u8, String);

fn stop(status: u8, line: &str) -> Stop {
    (status, format!("evl: {line}"))
}

fn put_board(out: &mut Vec<u8>, board: &Board, limit: u64) {
    let counts = [
        ("board threads=", usize::from(board.threads)),
        (" sems=", board.sems.len()),
        (" flags=", board.flags.len()),
        (" xbufs=", board.xbufs.len()),
        (" mutexes=", board.mutexes.len()),
        (" groups=", board.groups.len()),
        (" limit=", limit as usize),
    ];
    for (key, count) in counts {
        out.extend_from_slice(key.as_bytes());
        play_texts::number(out, count as u64);
    }
    out.push(b'\n');
}

fn put_step(out: &mut Vec<u8>, kernel: &Kernel, who: u16, call: Call, reply: Answered) {
    out.extend_from_slice(b" T");
    play_texts::number(out, who.into());
    out.push(b' ');
    texts::put_call(out, kernel, call);
    out.extend_from_slice(b" -> ");
    play_texts::put_reply(out, kernel, reply);
    out.push(b'\n');
}

/// Makes the call of a step, and writes its line and its plays' lines.
fn make_step(out: &mut Vec<u8>, kernel: &mut Kernel, step: &Step) -> Result<(), Refusal> {
    let mut call = step.call;
    if let Call::Write { bytes, .. } | Call::BeginWrite { bytes, .. } = &mut call {
        *bytes = kernel.bytes(&step.bytes)?;
    }
    let before = kernel.plays.len();
    match kernel.apply(step.who, call) {
        Err(Refusal::NoMemory) => return Err(Refusal::NoMemory),
        Err(Refusal::HistoryFull) => {
            out.push(b'-');
            put_step(out, kernel, step.who, call, Err(Refusal::HistoryFull));
        }
        _ => {
            let entry = kernel.history[kernel.history.len() - 1];
            play_texts::number(out, kernel.history.len() as u64);
            put_step(out, kernel, entry.caller, entry.call, entry.reply());
            for play in &kernel.plays[before..before + usize::from(entry.plays)] {
                out.extend_from_slice(b"  ");
                play_texts::put_play(out, *play);
                out.push(b'\n');
            }
        }
    }
    Ok(())
}

fn trace(board: &Board, limit: u64, steps: &[Step]) -> Result<Vec<u8>, Refusal> {
    let mut out = Vec::new();
    put_board(&mut out, board, limit);
    let mut kernel = Kernel::new(board, program_bank(), limit as usize);
    for step in steps {
        make_step(&mut out, &mut kernel, step)?;
    }
    Ok(out)
}

fn read_text(file: Option<&str>) -> std::io::Result<Vec<u8>> {
    let mut text = Vec::new();
    match file {
        None | Some("-") => std::io::stdin().lock().read_to_end(&mut text)?,
        Some(file) => std::fs::File::open(file)?.read_to_end(&mut text)?,
    };
    Ok(text)
}

fn limit_of(word: Option<&str>) -> Result<u64, Stop> {
    let limit = word.and_then(|word| word.parse().ok()).filter(|limit| (1..=MAX_LIMIT).contains(limit));
    limit.ok_or(stop(3, "words"))
}

/// What the words ask for: the file, and the limit.
fn asked(words: &[String]) -> Result<(Option<&str>, Option<u64>), Stop> {
    let (mut file, mut limit) = (None, None);
    let mut rest = words.iter();
    while let Some(word) = rest.next() {
        if let Some(value) = word.strip_prefix("--limit") {
            let next = if value.is_empty() { rest.next().map(String::as_str) } else { value.strip_prefix('=') };
            limit = Some(limit_of(next)?);
        } else if word.starts_with("--") || file.is_some() {
            return Err(stop(3, "words"));
        } else {
            file = Some(word.as_str());
        }
    }
    Ok((file, limit))
}

fn fault_told(fault: Fault) -> Stop {
    match fault {
        Fault::Text => stop(2, "bad text"),
        Fault::Board => stop(2, "bad board"),
        Fault::Step(number) => stop(2, &format!("bad step {number}")),
    }
}

/// Plays the scenario that the words name, and prints its trace.
pub fn play(words: &[String]) -> Result<(), Stop> {
    let (file, limit) = asked(words)?;
    let text = read_text(file).map_err(|_| stop(2, "no file"))?;
    if text.len() > 1_048_576 {
        return Err(fault_told(Fault::Text));
    }
    let (board, limit, steps) = scenario::read(&text, limit).map_err(fault_told)?;
    let out = trace(&board, limit, &steps).map_err(|_| stop(4, "no memory"))?;
    std::io::stdout().lock().write_all(&out).map_err(|_| stop(1, "write fault"))
}
