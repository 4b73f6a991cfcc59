//! The reader of scenarios: the board, the limit and the steps.
use crate::limits::{MAX_LIMIT, SEM_MAXIMUM, THREADS};
use crate::steps::{decimal, number, ranged, step, words, Step};
use crate::toml::{read_table, Table, Value};
use crate::values::{Board, MutexKind};

/// What is wrong with a text.
#[derive(Debug)]
pub enum Fault {
    Text,
    Board,
    Step(usize),
}

fn list<T>(value: &Value, most: usize, one: impl Fn(&Value) -> Option<T>) -> Option<Vec<T>> {
    match value {
        Value::List(items) if items.len() <= most => items.iter().map(one).collect(),
        _ => None,
    }
}

fn pair(value: &Value) -> Option<(u16, u16)> {
    match list(value, 2, |size| ranged(size, 1, 256))?[..] {
        [inbound, outbound] => Some((inbound as u16, outbound as u16)),
        _ => None,
    }
}

fn mutex(value: &Value) -> Option<MutexKind> {
    match words(value)?[..] {
        ["normal"] => Some(MutexKind::Normal),
        ["recursive"] => Some(MutexKind::Recursive),
        ["ceiling", word] => decimal(word, 99).filter(|prio| *prio >= 1).map(|prio| MutexKind::Ceiling(prio as u8)),
        _ => None,
    }
}

fn board(table: &Table) -> Option<Board> {
    let mut threads = None;
    let mut board = Board { threads: 0, sems: vec![], flags: vec![], xbufs: vec![], mutexes: vec![], groups: vec![] };
    for (key, value) in table {
        match key.as_str() {
            "threads" => threads = Some(ranged(value, 1, THREADS as u64)? as u16),
            "sems" => {
                board.sems = list(value, 64, |count| number(count, SEM_MAXIMUM.into()).map(|count| count as u32))?
            }
            "flags" => board.flags = list(value, 64, |bits| number(bits, u32::MAX.into()).map(|bits| bits as u32))?,
            "xbufs" => board.xbufs = list(value, 16, pair)?,
            "mutexes" => board.mutexes = list(value, 32, mutex)?,
            "groups" => board.groups = list(value, 16, |percent| ranged(percent, 1, 100).map(|percent| percent as u8))?,
            _ => return None,
        }
    }
    board.threads = threads?;
    Some(board)
}

/// The steps of a list of tables.
fn steps_of(list: &[Value]) -> Result<Vec<Step>, Fault> {
    let table_of = |value| if let &Value::Table(ref table) = value { Some(table) } else { None };
    let tables: Option<Vec<&Table>> = list.iter().map(table_of).collect();
    let tables = tables.ok_or(Fault::Board)?;
    tables.into_iter().enumerate().map(|(at, table)| step(table).ok_or(Fault::Step(at + 1))).collect()
}

/// The board, the limit and the steps of a text, with another limit where one is handed in.
pub fn read(text: &[u8], handed: Option<u64>) -> Result<(Board, u64, Vec<Step>), Fault> {
    let text = std::str::from_utf8(text).map_err(|_| Fault::Text)?;
    let text = text.strip_prefix('\u{feff}').unwrap_or(text).as_bytes();
    let top = read_table(text).ok_or(Fault::Text)?;
    let (mut limit, mut found, mut list) = (1000, None, None);
    for (key, value) in &top {
        match (key.as_str(), value) {
            ("limit", value) => limit = ranged(value, 1, MAX_LIMIT).ok_or(Fault::Board)?,
            ("board", Value::Table(table)) => found = Some(board(table).ok_or(Fault::Board)?),
            ("step", Value::List(steps)) => list = Some(steps),
            _ => return Err(Fault::Board),
        }
    }
    let board = found.ok_or(Fault::Board)?;
    let steps = list.map_or(Ok(Vec::new()), |list| steps_of(list))?;
    Ok((board, handed.unwrap_or(limit), steps))
}
