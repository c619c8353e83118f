//! A call as one line of text, there and back.
use crate::{hex_of, octets_of};
use ghritpoma::{Port, Stream};
use std::fmt;

/// The longest room that `write` takes.
pub const MOST_ROOM: u64 = 65_536;

/// Every line that the console understands, with the names of its numbers.
pub const USAGE: [&str; 13] = [
    "open RATE CYCLE GUARD HEADER",
    "slot START END",
    "unslot START",
    "stream ID PRIORITY OCTETS PERIOD JITTER DEADLINE",
    "unstream ID",
    "runs",
    "stairs",
    "interference LENGTH",
    "response ID",
    "write ROOM",
    "read HEX",
    "bare",
    "help",
];

/// One call on a desk.
#[derive(Clone, Debug, PartialEq, Eq)]
pub enum Call {
    Open(Port),
    Slot { start: u64, end: u64 },
    Unslot(u64),
    Stream(Stream),
    Unstream(u64),
    Runs,
    Stairs,
    Interference(u64),
    Response(u64),
    Write(u64),
    Read(Vec<u8>),
    Bare,
}

/// What a line asks for.
#[derive(Clone, Debug, PartialEq, Eq)]
pub enum Line {
    Call(Call),
    Help,
    /// An empty line or a comment, which begins with `#`: nothing is done and nothing replied.
    Nothing,
}

/// A decimal number of 64 bits: digits alone, no sign.
fn number(name: &str, word: &str) -> Result<u64, String> {
    if !word.bytes().all(|octet| octet.is_ascii_digit()) {
        return Err(format!("{name} is not a decimal number"));
    }
    word.parse().map_err(|_| format!("{name} is over 64 bits"))
}

/// The numbers of a call, each with its name in the usage.
fn numbers(usage: &str, words: &[&str]) -> Result<Vec<u64>, String> {
    let names: Vec<&str> = usage.split(' ').skip(1).collect();
    if names.len() != words.len() {
        return Err(format!("the call is: {usage}"));
    }
    names.iter().zip(words).map(|(name, word)| number(name, word)).collect()
}

impl Line {
    /// The line's meaning, or why it has none.
    pub fn parse(line: &str) -> Result<Line, String> {
        let words: Vec<&str> = line.split_ascii_whitespace().collect();
        let Some((&name, rest)) = words.split_first() else { return Ok(Line::Nothing) };
        if name.starts_with('#') {
            return Ok(Line::Nothing);
        }
        if name == "read" {
            return Ok(Line::Call(Call::Read(octets_of(rest.concat().as_bytes())?)));
        }
        let usage = USAGE.iter().find(|usage| usage.split(' ').next() == Some(name));
        let usage = usage.ok_or("no such call; help lists them")?;
        let numbers = numbers(usage, rest)?;
        if name == "help" {
            return Ok(Line::Help);
        }
        Call::of(name, &numbers).map(Line::Call)
    }
}

impl Call {
    /// The call of this name, with as many numbers as its usage names.
    fn of(name: &str, numbers: &[u64]) -> Result<Call, String> {
        Ok(match (name, numbers) {
            ("open", &[rate, cycle, guard, header]) => Call::Open(Port { rate, cycle, guard, header }),
            ("slot", &[start, end]) => Call::Slot { start, end },
            ("unslot", &[start]) => Call::Unslot(start),
            ("stream", &[id, priority, octets, period, jitter, deadline]) => {
                Call::Stream(Stream { id, priority, octets, period, jitter, deadline })
            }
            ("unstream", &[id]) => Call::Unstream(id),
            ("runs", []) => Call::Runs,
            ("stairs", []) => Call::Stairs,
            ("interference", &[length]) => Call::Interference(length),
            ("response", &[id]) => Call::Response(id),
            ("write", &[room]) if room > MOST_ROOM => return Err(format!("ROOM is over {MOST_ROOM}")),
            ("write", &[room]) => Call::Write(room),
            ("bare", []) => Call::Bare,
            _ => unreachable!("{name} is in the usage, with {} numbers", numbers.len()),
        })
    }
}

impl fmt::Display for Call {
    fn fmt(&self, f: &mut fmt::Formatter<'_>) -> fmt::Result {
        match self {
            Call::Open(p) => write!(f, "open {} {} {} {}", p.rate, p.cycle, p.guard, p.header),
            Call::Slot { start, end } => write!(f, "slot {start} {end}"),
            Call::Unslot(start) => write!(f, "unslot {start}"),
            Call::Stream(j) => {
                write!(f, "stream {} {} {} {} {} {}", j.id, j.priority, j.octets, j.period, j.jitter, j.deadline)
            }
            Call::Unstream(id) => write!(f, "unstream {id}"),
            Call::Runs => f.write_str("runs"),
            Call::Stairs => f.write_str("stairs"),
            Call::Interference(length) => write!(f, "interference {length}"),
            Call::Response(id) => write!(f, "response {id}"),
            Call::Write(room) => write!(f, "write {room}"),
            Call::Read(plan) => write!(f, "read {}", hex_of(plan)),
            Call::Bare => f.write_str("bare"),
        }
    }
}
