//! The steps of a scenario, and the values of their keys.
use crate::calls::Call;
use crate::toml::{Table, Value};
use crate::values::{Policy, Span, Stage, Take, Until, Way};

pub fn decimal(text: &str, most: u64) -> Option<u64> {
    let good = !text.is_empty()
        && text.bytes().all(|byte| byte.is_ascii_digit())
        && (text.len() == 1 || !text.starts_with('0'));
    if good {
        text.parse().ok().filter(|value| *value <= most)
    } else {
        None
    }
}

pub fn number(value: &Value, most: u64) -> Option<u64> {
    match value {
        Value::Number(value) => u64::try_from(*value).ok().filter(|value| *value <= most),
        Value::Text(text) => decimal(text, most),
        _ => None,
    }
}

pub fn ranged(value: &Value, least: u64, most: u64) -> Option<u64> {
    number(value, most).filter(|value| *value >= least)
}

pub fn words(value: &Value) -> Option<Vec<&str>> {
    if let Value::Text(text) = value {
        Some(text.split(' ').collect())
    } else {
        None
    }
}

fn stage(value: &Value) -> Option<Stage> {
    match words(value)?[..] {
        ["inband"] => Some(Stage::Inband),
        ["oob"] => Some(Stage::Oob),
        _ => None,
    }
}

fn policy(value: &Value) -> Option<Policy> {
    let byte = |word| decimal(word, 255).map(|value| value as u8);
    Some(match words(value)?[..] {
        ["fifo", prio] => Policy::Fifo(byte(prio)?),
        ["rr", prio, slice] => Policy::Rr { prio: byte(prio)?, slice: decimal(slice, u64::MAX)? },
        ["quota", group, prio] => Policy::Quota { group: decimal(group, 65535)? as u16, prio: byte(prio)? },
        ["weak", prio] => Policy::Weak(byte(prio)?),
        _ => return None,
    })
}

fn take(value: &Value) -> Option<Take> {
    let mask = |word| decimal(word, u32::MAX.into()).map(|value| value as u32);
    Some(match words(value)?[..] {
        ["any"] => Take::Any,
        ["of", word] => Take::Of(mask(word)?),
        ["exact", word] => Take::Exact(mask(word)?),
        _ => return None,
    })
}

fn hex(value: &Value) -> Option<Vec<u8>> {
    let Value::Text(text) = value else { return None };
    if text.len() % 2 != 0 || text.len() > 512 || !text.bytes().all(|byte| byte.is_ascii_hexdigit()) {
        return None;
    }
    (0..text.len() / 2).map(|at| u8::from_str_radix(&text[2 * at..2 * at + 2], 16).ok()).collect()
}

/// A step before its bytes are in the arena: the call has an empty span, the bytes stand beside it.
pub struct Step {
    pub who: u16,
    pub call: Call,
    pub bytes: Vec<u8>,
}

/// The keys of a step; each is asked for once.
struct Keys<'a> {
    table: &'a Table,
    asked: usize,
}

impl<'a> Keys<'a> {
    fn get(&mut self, name: &str) -> Option<&'a Value> {
        let found = self.table.iter().find(|(key, _)| key == name);
        self.asked += usize::from(found.is_some());
        found.map(|(_, value)| value)
    }

    fn short(&mut self, name: &str) -> Option<u16> {
        number(self.get(name)?, 65535).map(|value| value as u16)
    }

    fn callback(&mut self) -> Option<u8> {
        number(self.get("callback")?, 255).map(|value| value as u8)
    }

    fn tag(&mut self) -> Option<u32> {
        self.get("tag").map_or(Some(0), |value| number(value, u32::MAX.into())).map(|value| value as u32)
    }

    fn long(&mut self, name: &str) -> Option<u64> {
        number(self.get(name)?, u64::MAX)
    }

    fn stage(&mut self) -> Option<Stage> {
        stage(self.get("stage")?)
    }

    fn way(&mut self) -> Option<Way> {
        match words(self.get("way")?)?[..] {
            ["in"] => Some(Way::In),
            ["out"] => Some(Way::Out),
            _ => None,
        }
    }

    fn keep(&mut self) -> Option<bool> {
        match self.get("keep") {
            None => Some(false),
            Some(Value::Truth(keep)) => Some(*keep),
            Some(_) => None,
        }
    }

    fn until(&mut self) -> Option<Until> {
        match self.get("until") {
            None => Some(Until::NEVER),
            Some(Value::Text(text)) if text == "none" => Some(Until::NEVER),
            Some(value) => number(value, u64::MAX).map(Until::at),
        }
    }
}

const NO_BYTES: Span = Span { start: 0, len: 0 };

/// The call that a word names, by its keys.
fn call(word: &str, keys: &mut Keys<'_>) -> Option<Call> {
    Some(match word {
        "request" => Call::Request {
            line: keys.short("line")?,
            stage: keys.stage()?,
            callback: keys.callback()?,
            tag: keys.tag()?,
        },
        "free" => Call::Free { line: keys.short("line")?, stage: keys.stage()? },
        "arrive" => Call::Arrive { line: keys.short("line")? },
        "post" => Call::Post { stage: keys.stage()?, line: keys.short("line")? },
        "stall" => Call::Stall { stage: keys.stage()? },
        "unstall" => Call::Unstall { stage: keys.stage()? },
        _ => return clock_call(word, keys),
    })
}

fn clock_call(word: &str, keys: &mut Keys<'_>) -> Option<Call> {
    Some(match word {
        "tick" => Call::Tick { delta: keys.long("delta")? },
        "now" => Call::Now,
        "new_timer" => Call::NewTimer { callback: keys.callback()?, tag: keys.tag()? },
        "start_timer" => {
            Call::StartTimer { timer: keys.short("timer")?, date: keys.long("date")?, interval: keys.long("interval")? }
        }
        "stop_timer" => Call::StopTimer { timer: keys.short("timer")? },
        "drop_timer" => Call::DropTimer { timer: keys.short("timer")? },
        "overruns" => Call::Overruns { timer: keys.short("timer")? },
        _ => return thread_call(word, keys),
    })
}

fn thread_call(word: &str, keys: &mut Keys<'_>) -> Option<Call> {
    Some(match word {
        "attach" => Call::Attach { policy: policy(keys.get("policy")?)?, stage: keys.stage()? },
        "detach" => Call::Detach,
        "set_policy" => Call::SetPolicy { policy: policy(keys.get("policy")?)? },
        "set_stage" => Call::SetStage { stage: keys.stage()? },
        "pick" => Call::Pick,
        "rank_of" => Call::RankOf { thread: keys.short("thread")? },
        _ => return element_call(word, keys),
    })
}

fn element_call(word: &str, keys: &mut Keys<'_>) -> Option<Call> {
    Some(match word {
        "try_get" => Call::TryGet { sem: keys.short("sem")? },
        "put" => Call::Put { sem: keys.short("sem")? },
        "peek" => Call::Peek { sem: keys.short("sem")? },
        "try_take" => Call::TryTake { flags: keys.short("flags")?, kind: take(keys.get("kind")?)? },
        "post_flags" => {
            Call::PostFlags { flags: keys.short("flags")?, bits: number(keys.get("bits")?, u32::MAX.into())? as u32 }
        }
        "peek_flags" => Call::PeekFlags { flags: keys.short("flags")? },
        "write" => Call::Write { xbuf: keys.short("xbuf")?, way: keys.way()?, bytes: NO_BYTES },
        "read" => Call::Read { xbuf: keys.short("xbuf")?, way: keys.way()?, len: keys.short("len")? },
        "room" => Call::Room { xbuf: keys.short("xbuf")?, way: keys.way()? },
        "release" => Call::Release { mutex: keys.short("mutex")? },
        "raise" => Call::Raise { mutex: keys.short("mutex")? },
        _ => return wait(word, keys),
    })
}

fn wait(word: &str, keys: &mut Keys<'_>) -> Option<Call> {
    Some(match word {
        "begin_get" => Call::BeginGet { sem: keys.short("sem")?, until: keys.until()? },
        "begin_take" => {
            Call::BeginTake { flags: keys.short("flags")?, kind: take(keys.get("kind")?)?, until: keys.until()? }
        }
        "begin_write" => {
            Call::BeginWrite { xbuf: keys.short("xbuf")?, way: keys.way()?, bytes: NO_BYTES, until: keys.until()? }
        }
        "begin_read" => Call::BeginRead {
            xbuf: keys.short("xbuf")?,
            way: keys.way()?,
            len: keys.short("len")?,
            until: keys.until()?,
        },
        "claim" => Call::Claim { mutex: keys.short("mutex")?, owner: keys.short("owner")?, until: keys.until()? },
        "finish" => Call::Finish { keep: keys.keep()? },
        _ => return None,
    })
}

/// The step that a table holds; none where a key is missing, unknown, or has no value of its form.
pub fn step(table: &Table) -> Option<Step> {
    let mut keys = Keys { table, asked: 0 };
    let Value::Text(word) = keys.get("do")? else { return None };
    let who = keys.short("who")?;
    let call = call(word, &mut keys)?;
    let bytes = match call {
        Call::Write { .. } | Call::BeginWrite { .. } => hex(keys.get("bytes")?)?,
        _ => Vec::new(),
    };
    if keys.asked == table.len() {
        Some(Step { who, call, bytes })
    } else {
        None
    }
}
