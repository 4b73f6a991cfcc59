//! Calls and plays: plain data without a destructor.
use crate::values::{Policy, Span, Stage, Take, Until, Way};

#[derive(Clone, Copy)]
pub enum Call {
    Request { line: u16, stage: Stage, callback: u8, tag: u32 },
    Free { line: u16, stage: Stage },
    Arrive { line: u16 },
    Post { stage: Stage, line: u16 },
    Stall { stage: Stage },
    Unstall { stage: Stage },
    Tick { delta: u64 },
    Now,
    NewTimer { callback: u8, tag: u32 },
    StartTimer { timer: u16, date: u64, interval: u64 },
    StopTimer { timer: u16 },
    DropTimer { timer: u16 },
    Overruns { timer: u16 },
    Attach { policy: Policy, stage: Stage },
    Detach,
    SetPolicy { policy: Policy },
    SetStage { stage: Stage },
    Pick,
    RankOf { thread: u16 },
    TryGet { sem: u16 },
    Put { sem: u16 },
    Peek { sem: u16 },
    BeginGet { sem: u16, until: Until },
    TryTake { flags: u16, kind: Take },
    PostFlags { flags: u16, bits: u32 },
    PeekFlags { flags: u16 },
    BeginTake { flags: u16, kind: Take, until: Until },
    Write { xbuf: u16, way: Way, bytes: Span },
    Read { xbuf: u16, way: Way, len: u16 },
    Room { xbuf: u16, way: Way },
    BeginWrite { xbuf: u16, way: Way, bytes: Span, until: Until },
    BeginRead { xbuf: u16, way: Way, len: u16, until: Until },
    Claim { mutex: u16, owner: u16, until: Until },
    Release { mutex: u16 },
    Raise { mutex: u16 },
    Finish { keep: bool },
}

#[derive(Clone, Copy, Debug)]
pub enum Play {
    Clock,
    Timer { timer: u8, handled: bool, count: u64, missed: u64 },
    Deadline { thread: u16 },
    Line { line: u16, stage: Stage, handled: bool, count: u64 },
}
