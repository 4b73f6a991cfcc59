//! The texts of values, replies and plays.
use crate::calls::Play;
use crate::kernel::Kernel;
use crate::replies::{Answered, Refusal, Reply};
use crate::values::{Policy, Span, Stage, Take, Until, Way};

pub fn number(out: &mut Vec<u8>, mut value: u64) {
    let mut digits = [0; 20];
    let mut at = 20;
    loop {
        at -= 1;
        digits[at] = b'0' + (value % 10) as u8;
        value /= 10;
        if value == 0 {
            break;
        }
    }
    out.extend_from_slice(&digits[at..]);
}

pub fn text(out: &mut Vec<u8>, text: &str) {
    out.extend_from_slice(text.as_bytes());
}

pub fn bytes(out: &mut Vec<u8>, bytes: &[u8]) {
    const DIGITS: &[u8; 16] = b"0123456789abcdef";
    if bytes.is_empty() {
        out.push(b'-');
    }
    for byte in bytes {
        out.extend_from_slice(&[DIGITS[usize::from(byte >> 4)], DIGITS[usize::from(byte & 15)]]);
    }
}

pub fn stage_name(stage: Stage) -> &'static str {
    if stage == Stage::Oob {
        "oob"
    } else {
        "inband"
    }
}

pub fn refusal_name(refusal: Refusal) -> &'static str {
    match refusal {
        Refusal::NoMemory => "NoMemory",
        Refusal::HistoryFull => "HistoryFull",
        Refusal::Unknown => "Unknown",
        Refusal::Invalid => "Invalid",
        Refusal::Again => "Again",
        Refusal::Busy => "Busy",
        Refusal::NotOwner => "NotOwner",
        Refusal::Deadlock => "Deadlock",
        Refusal::Limit => "Limit",
        Refusal::Range => "Range",
        Refusal::TooBig => "TooBig",
        Refusal::WrongStage => "WrongStage",
    }
}

/// A line to which keys and their values are added.
pub struct Line<'a>(pub &'a mut Vec<u8>);

impl Line<'_> {
    pub fn key(self, name: &str, value: impl Into<u64>) -> Self {
        text(self.0, name);
        number(self.0, value.into());
        self
    }

    pub fn word(self, name: &str, value: &str) -> Self {
        text(self.0, name);
        text(self.0, value);
        self
    }

    pub fn stage(self, stage: Stage) -> Self {
        self.word(" stage=", stage_name(stage))
    }

    pub fn way(self, way: Way) -> Self {
        self.word(" way=", if way == Way::In { "in" } else { "out" })
    }

    pub fn until(self, until: Until) -> Self {
        match until.get() {
            Some(date) => self.key(" until=", date),
            None => self.word(" until=", "none"),
        }
    }

    pub fn kind(self, kind: Take) -> Self {
        match kind {
            Take::Any => self.word(" kind=", "any"),
            Take::Of(mask) => self.key(" kind=of ", mask),
            Take::Exact(mask) => self.key(" kind=exact ", mask),
        }
    }

    pub fn policy(self, policy: Policy) -> Self {
        match policy {
            Policy::Fifo(prio) => self.key(" policy=fifo ", prio),
            Policy::Rr { prio, slice } => self.key(" policy=rr ", prio).key(" ", slice),
            Policy::Quota { group, prio } => self.key(" policy=quota ", group).key(" ", prio),
            Policy::Weak(prio) => self.key(" policy=weak ", prio),
        }
    }

    pub fn bytes(self, kernel: &Kernel, span: Span) -> Self {
        text(self.0, " bytes=");
        bytes(self.0, kernel.bytes_of(span));
        self
    }
}

pub fn put_reply(out: &mut Vec<u8>, kernel: &Kernel, reply: Answered) {
    match reply {
        Ok(Reply::Done) => text(out, "done"),
        Ok(Reply::Begun) => text(out, "begun"),
        Ok(Reply::Count(count)) => {
            text(out, if count < 0 { "count -" } else { "count " });
            number(out, count.unsigned_abs());
        }
        Ok(Reply::Bits(bits)) => drop(Line(out).key("bits ", bits)),
        Ok(Reply::Number(value)) => drop(Line(out).key("number ", value)),
        Ok(Reply::Bytes(span)) => {
            text(out, "bytes ");
            bytes(out, kernel.bytes_of(span));
        }
        Ok(Reply::Chosen(None)) => text(out, "thread none"),
        Ok(Reply::Chosen(Some(thread))) => drop(Line(out).key("thread ", thread)),
        Ok(Reply::Handed { next: None, .. }) => text(out, "next none"),
        Ok(Reply::Handed { next: Some(next), more }) => {
            drop(Line(out).key("next ", next).word(if more { " more" } else { "" }, ""))
        }
        Ok(Reply::TimedOut) => text(out, "timed out"),
        Err(refusal) => text(out, refusal_name(refusal)),
    }
}

pub fn put_play(out: &mut Vec<u8>, play: Play) {
    let handled_name = |handled| if handled { " handled" } else { " none" };
    match play {
        Play::Clock => text(out, "clock"),
        Play::Timer { timer, handled, count, missed } => drop(
            Line(out)
                .key("timer ", timer)
                .key(" count ", count)
                .key(" missed ", missed)
                .word(handled_name(handled), ""),
        ),
        Play::Deadline { thread } => drop(Line(out).key("deadline T", thread)),
        Play::Line { line, stage, handled, count } => drop(
            Line(out)
                .key("line ", line)
                .word(" ", stage_name(stage))
                .key(" count ", count)
                .word(handled_name(handled), ""),
        ),
    }
}
