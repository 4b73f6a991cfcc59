//! The plain step: lines with boxed callbacks, stall bits, settling, a semaphore, a ring of bytes, and a history with small
//! entries, whose bytes lie in boxes. The words are what is called, and how many rounds of it. Of `to_and_fro`, where two
//! callbacks hand a line to and fro, the lines of calls and plays go to standard output in chunks.
use std::collections::VecDeque;
use std::hint::black_box;
use std::io::Write;
use std::time::Instant;

const LINES: usize = 4096;
const MAX_INBAND: usize = 64;
const CHUNK: usize = 4096;
const RING: usize = 256;
const LIMIT: usize = 1_000_000;

#[allow(dead_code)]
struct Fire {
    line: u16,
    is_oob: bool,
    tag: u32,
    count: u64,
    moment: u64,
}

#[allow(dead_code)]
#[derive(Clone, Copy)]
enum Action {
    PostSem(u16),
    Propagate,
    PostOob(u16),
}

struct Answer {
    handled: bool,
    actions: [Action; 4],
    len: usize,
}

fn asks(action: Action) -> Answer {
    Answer { handled: true, actions: [action; 4], len: 1 }
}

type Callback = Box<dyn FnMut(Fire) -> Answer + Send>;

struct Held {
    callback: Callback,
    tag: u32,
    count: u64,
}

/// The lines of one stage, which of them are pending, and which words of these have one.
struct Side {
    is_stalled: bool,
    words: u64,
    pending: [u64; LINES / 64],
    lines: Vec<Option<Held>>,
}

impl Side {
    fn new() -> Side {
        Side { is_stalled: false, words: 0, pending: [0; LINES / 64], lines: (0..LINES).map(|_| None).collect() }
    }

    fn post(&mut self, line: u16) -> bool {
        let is_there = self.lines[usize::from(line)].is_some();
        if is_there {
            self.words |= 1 << (line / 64);
            self.pending[usize::from(line / 64)] |= 1 << (line % 64);
        }
        is_there
    }

    fn least(&self) -> Option<u16> {
        if self.words == 0 {
            return None;
        }
        let word = self.words.trailing_zeros() as u16;
        Some(word * 64 + self.pending[usize::from(word)].trailing_zeros() as u16)
    }

    fn take(&mut self, line: u16) {
        let word = usize::from(line / 64);
        self.pending[word] &= !(1 << (line % 64));
        if self.pending[word] == 0 {
            self.words &= !(1 << word);
        }
    }
}

struct Play {
    line: u16,
    is_oob: bool,
    count: u64,
    handled: bool,
}

enum Call {
    TryGet { sem: u16 },
    Put { sem: u16 },
    Arrive { line: u16 },
    Write { bytes: Box<[u8]> },
    Read { len: u16 },
}

#[allow(dead_code)]
#[derive(Clone)]
enum Reply {
    Done,
    Bytes(Box<[u8]>),
}

#[allow(dead_code)]
#[derive(Clone, Copy)]
enum Refusal {
    Again,
    Unknown,
    Range,
    HistoryFull,
}

#[allow(dead_code)]
struct Entry {
    caller: u16,
    call: Call,
    reply: Result<Reply, Refusal>,
    plays: usize,
}

struct Kernel {
    oob: Side,
    inband: Side,
    threads: u16,
    sems: Vec<u32>,
    ring: VecDeque<u8>,
    spurious: Vec<u64>,
    history: Vec<Entry>,
    plays: Vec<Play>,
}

impl Kernel {
    fn new() -> Kernel {
        Kernel {
            oob: Side::new(),
            inband: Side::new(),
            threads: 2,
            sems: vec![0],
            ring: VecDeque::with_capacity(RING),
            spurious: vec![0; LINES],
            history: Vec::new(),
            plays: Vec::new(),
        }
    }

    fn act(&mut self, line: u16, action: Action) {
        match action {
            Action::PostSem(sem) => {
                if let Some(count) = self.sems.get_mut(usize::from(sem)) {
                    *count = count.saturating_add(1);
                }
            }
            Action::Propagate => {
                if !self.inband.post(line) {
                    self.spurious[usize::from(line)] += 1;
                }
            }
            Action::PostOob(other) => {
                if !self.oob.post(other) {
                    self.spurious[usize::from(other)] += 1;
                }
            }
        }
    }

    fn play(&mut self, line: u16, is_oob: bool) {
        let side = if is_oob { &mut self.oob } else { &mut self.inband };
        side.take(line);
        let Some(held) = &mut side.lines[usize::from(line)] else { return };
        held.count = held.count.saturating_add(1);
        let count = held.count;
        let answer = (held.callback)(Fire { line, is_oob, tag: held.tag, count, moment: 0 });
        if answer.handled {
            for action in &answer.actions[..answer.len] {
                self.act(line, *action);
            }
        }
        self.plays.push(Play { line, is_oob, count, handled: answer.handled });
    }

    fn settle(&mut self) {
        let mut played = 0;
        while !self.oob.is_stalled {
            if let Some(line) = self.oob.least() {
                self.play(line, true);
            } else if let (false, true, Some(line)) = (self.inband.is_stalled, played < MAX_INBAND, self.inband.least()) {
                self.play(line, false);
                played += 1;
            } else {
                return;
            }
        }
    }

    fn arrive(&mut self, line: u16) -> Result<Reply, Refusal> {
        if usize::from(line) >= LINES {
            return Err(Refusal::Unknown);
        }
        if !self.oob.post(line) && !self.inband.post(line) {
            self.spurious[usize::from(line)] += 1;
        }
        Ok(Reply::Done)
    }

    fn put(&mut self, sem: u16) -> Result<Reply, Refusal> {
        match self.sems.get_mut(usize::from(sem)) {
            None => Err(Refusal::Unknown),
            Some(2_147_483_647) => Err(Refusal::Range),
            Some(count) => {
                *count += 1;
                Ok(Reply::Done)
            }
        }
    }

    fn try_get(&mut self, sem: u16) -> Result<Reply, Refusal> {
        match self.sems.get_mut(usize::from(sem)) {
            None => Err(Refusal::Unknown),
            Some(0) => Err(Refusal::Again),
            Some(count) => {
                *count -= 1;
                Ok(Reply::Done)
            }
        }
    }

    fn write(&mut self, bytes: &[u8]) -> Result<Reply, Refusal> {
        if RING - self.ring.len() < bytes.len() {
            return Err(Refusal::Again);
        }
        self.ring.extend(bytes);
        Ok(Reply::Done)
    }

    fn read(&mut self, len: u16) -> Result<Reply, Refusal> {
        let len = usize::from(len).min(self.ring.len());
        if len == 0 {
            return Err(Refusal::Again);
        }
        let bytes = Box::from(&self.ring.make_contiguous()[..len]);
        self.ring.drain(..len);
        Ok(Reply::Bytes(bytes))
    }

    fn perform(&mut self, caller: u16, call: &Call) -> Result<Reply, Refusal> {
        if caller >= self.threads {
            return Err(Refusal::Unknown);
        }
        match call {
            Call::TryGet { sem } => self.try_get(*sem),
            Call::Put { sem } => self.put(*sem),
            Call::Arrive { line } => self.arrive(*line),
            Call::Write { bytes } => self.write(bytes),
            Call::Read { len } => self.read(*len),
        }
    }

    fn apply(&mut self, caller: u16, call: Call) -> Result<Reply, Refusal> {
        if self.history.len() == LIMIT {
            return Err(Refusal::HistoryFull);
        }
        let before = self.plays.len();
        let reply = self.perform(caller, &call);
        if reply.is_ok() {
            self.settle();
        }
        self.history.push(Entry { caller, call, reply: reply.clone(), plays: self.plays.len() - before });
        reply
    }
}

fn puts(kernel: &mut Kernel, rounds: u32) -> u32 {
    let mut done = 0;
    for _ in 0..rounds {
        let put = kernel.apply(0, black_box(Call::Put { sem: 0 }));
        let got = kernel.apply(0, black_box(Call::TryGet { sem: 0 }));
        done += u32::from(put.is_ok() && got.is_ok());
    }
    done
}

fn arrivals(kernel: &mut Kernel, rounds: u32) -> u32 {
    kernel.oob.lines[4] = held(Box::new(|_: Fire| Answer { handled: true, actions: [Action::Propagate; 4], len: 0 }));
    (0..rounds).filter(|_| kernel.apply(0, black_box(Call::Arrive { line: 4 })).is_ok()).count() as u32
}

fn transfers(kernel: &mut Kernel, rounds: u32) -> u32 {
    let bytes = black_box([0x5a; RING]);
    let mut done = 0;
    for _ in 0..rounds {
        let wrote = kernel.apply(0, Call::Write { bytes: Box::from(&bytes[..]) });
        let read = kernel.apply(1, Call::Read { len: 256 });
        done += u32::from(wrote.is_ok() && matches!(read, Ok(Reply::Bytes(_))));
    }
    done
}

fn copies(rounds: u32) -> u32 {
    let bytes = black_box([0x5a; RING]);
    let mut copy = [0; RING];
    for _ in 0..rounds {
        black_box(&mut copy).copy_from_slice(black_box(&bytes));
    }
    rounds
}

fn held(callback: Callback) -> Option<Held> {
    Some(Held { callback, tag: 0, count: 0 })
}

fn put_lines(kernel: &Kernel, before: usize, chunk: &mut Vec<u8>, out: &mut impl Write) -> std::io::Result<()> {
    let Some(Entry { caller, call: Call::Arrive { line }, reply, .. }) = kernel.history.last() else { return Ok(()) };
    let answer = if reply.is_ok() { "done" } else { "Unknown" };
    writeln!(chunk, "{} T{caller} arrive line={line} -> {answer}", kernel.history.len())?;
    for play in &kernel.plays[before..] {
        let stage = if play.is_oob { "oob" } else { "inband" };
        let handled = if play.handled { "handled" } else { "none" };
        writeln!(chunk, "  line {} {stage} count {} {handled}", play.line, play.count)?;
    }
    if chunk.len() >= CHUNK {
        out.write_all(chunk)?;
        chunk.clear();
    }
    Ok(())
}

fn to_and_fro(kernel: &mut Kernel, rounds: u32) -> std::io::Result<u32> {
    kernel.oob.lines[4] = held(Box::new(|_: Fire| asks(Action::Propagate)));
    kernel.inband.lines[4] = held(Box::new(|_: Fire| asks(Action::PostOob(4))));
    let mut out = std::io::stdout().lock();
    let mut chunk = Vec::new();
    for _ in 0..rounds {
        let before = kernel.plays.len();
        let _ = kernel.apply(0, Call::Arrive { line: 4 });
        put_lines(kernel, before, &mut chunk, &mut out)?;
    }
    out.write_all(&chunk)?;
    Ok(rounds)
}

fn main() -> std::io::Result<()> {
    let name = std::env::args().nth(1).unwrap_or_default();
    let rounds = std::env::args().nth(2).and_then(|word| word.parse().ok()).unwrap_or(1000);
    let mut kernel = Kernel::new();
    let start = Instant::now();
    let done = match name.as_str() {
        "arrivals" => arrivals(&mut kernel, rounds),
        "transfers" => transfers(&mut kernel, rounds),
        "copies" => copies(rounds),
        "to_and_fro" => return to_and_fro(&mut kernel, rounds).map(drop),
        _ => puts(&mut kernel, rounds),
    };
    println!("plain, {name}: {done} rounds in {} ns", start.elapsed().as_nanos());
    Ok(())
}
