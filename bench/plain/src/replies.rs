//! Replies and refusals, and the entries that keep them.
use crate::calls::Call;
use crate::values::Span;

#[derive(Clone, Copy, PartialEq, Eq, Debug)]
pub enum Reply {
    Done,
    Begun,
    Count(i64),
    Bits(u32),
    Number(u64),
    Bytes(Span),
    Chosen(Option<u16>),
    Handed { next: Option<u16>, more: bool },
    TimedOut,
}

#[derive(Clone, Copy, PartialEq, Eq, Debug)]
#[repr(u8)]
pub enum Refusal {
    NoMemory,
    HistoryFull,
    Unknown,
    Invalid,
    Again,
    Busy,
    NotOwner,
    Deadlock,
    Limit,
    Range,
    TooBig,
    WrongStage,
}

pub type Answered = Result<Reply, Refusal>;

#[derive(Clone, Copy, PartialEq, Eq, Debug)]
#[repr(u8)]
enum Kind {
    Done,
    Begun,
    Count,
    Bits,
    Number,
    Bytes,
    Chosen,
    Handed,
    TimedOut,
    NoMemory,
    HistoryFull,
    Unknown,
    Invalid,
    Again,
    Busy,
    NotOwner,
    Deadlock,
    Limit,
    Range,
    TooBig,
    WrongStage,
}

/// A reply or a refusal as a kind and a word: it goes through functions in two registers, where the enum would go
/// through memory.
#[derive(Clone, Copy, PartialEq, Eq, Debug)]
pub struct Packed {
    kind: Kind,
    word: u64,
}

const NOBODY: u64 = 0xffff;

impl Packed {
    pub const DONE: Packed = Packed { kind: Kind::Done, word: 0 };
    pub const BEGUN: Packed = Packed { kind: Kind::Begun, word: 0 };
    pub const TIMED_OUT: Packed = Packed { kind: Kind::TimedOut, word: 0 };

    #[inline]
    pub fn number(number: u64) -> Packed {
        Packed { kind: Kind::Number, word: number }
    }

    #[inline]
    pub fn count(count: i64) -> Packed {
        Packed { kind: Kind::Count, word: count as u64 }
    }

    #[inline]
    pub fn bits(bits: u32) -> Packed {
        Packed { kind: Kind::Bits, word: bits.into() }
    }

    #[inline]
    pub fn bytes(span: Span) -> Packed {
        Packed { kind: Kind::Bytes, word: u64::from(span.start) << 16 | u64::from(span.len) }
    }

    #[inline]
    pub fn chosen(thread: Option<u16>) -> Packed {
        Packed { kind: Kind::Chosen, word: thread.map_or(NOBODY, u64::from) }
    }

    #[inline]
    pub fn handed(next: Option<u16>, more: bool) -> Packed {
        Packed { kind: Kind::Handed, word: u64::from(more) << 16 | next.map_or(NOBODY, u64::from) }
    }

    #[inline]
    pub fn refused(refusal: Refusal) -> Packed {
        let kind = match refusal {
            Refusal::NoMemory => Kind::NoMemory,
            Refusal::HistoryFull => Kind::HistoryFull,
            Refusal::Unknown => Kind::Unknown,
            Refusal::Invalid => Kind::Invalid,
            Refusal::Again => Kind::Again,
            Refusal::Busy => Kind::Busy,
            Refusal::NotOwner => Kind::NotOwner,
            Refusal::Deadlock => Kind::Deadlock,
            Refusal::Limit => Kind::Limit,
            Refusal::Range => Kind::Range,
            Refusal::TooBig => Kind::TooBig,
            Refusal::WrongStage => Kind::WrongStage,
        };
        Packed { kind, word: 0 }
    }

    #[inline]
    pub fn is_refused(self) -> bool {
        self.kind as u8 >= Kind::NoMemory as u8
    }

    #[inline]
    pub fn get(self) -> Answered {
        let thread = if self.word & NOBODY == NOBODY { None } else { Some(self.word as u16) };
        Ok(match self.kind {
            Kind::Done => Reply::Done,
            Kind::Begun => Reply::Begun,
            Kind::Count => Reply::Count(self.word as i64),
            Kind::Bits => Reply::Bits(self.word as u32),
            Kind::Number => Reply::Number(self.word),
            Kind::Bytes => Reply::Bytes(Span { start: (self.word >> 16) as u32, len: self.word as u16 }),
            Kind::Chosen => Reply::Chosen(thread),
            Kind::Handed => Reply::Handed { next: thread, more: self.word >> 16 != 0 },
            Kind::TimedOut => Reply::TimedOut,
            Kind::NoMemory => return Err(Refusal::NoMemory),
            Kind::HistoryFull => return Err(Refusal::HistoryFull),
            Kind::Unknown => return Err(Refusal::Unknown),
            Kind::Invalid => return Err(Refusal::Invalid),
            Kind::Again => return Err(Refusal::Again),
            Kind::Busy => return Err(Refusal::Busy),
            Kind::NotOwner => return Err(Refusal::NotOwner),
            Kind::Deadlock => return Err(Refusal::Deadlock),
            Kind::Limit => return Err(Refusal::Limit),
            Kind::Range => return Err(Refusal::Range),
            Kind::TooBig => return Err(Refusal::TooBig),
            Kind::WrongStage => return Err(Refusal::WrongStage),
        })
    }
}

#[derive(Clone, Copy)]
pub struct Entry {
    pub call: Call,
    word: u64,
    pub caller: u16,
    pub plays: u16,
    kind: Kind,
}

impl Entry {
    #[inline]
    pub fn new(caller: u16, call: Call, reply: Packed, plays: u16) -> Entry {
        Entry { call, word: reply.word, caller, plays, kind: reply.kind }
    }

    pub fn reply(&self) -> Answered {
        Packed { kind: self.kind, word: self.word }.get()
    }
}
