//! The plan's bytes: fields of a one-octet tag, a two-octet length and big-endian numbers.

use crate::desk::{Desk, Open, Reply};
use crate::mode::Mode;
use crate::records::{Port, Slot, Stream};
use crate::refusal::Refusal;

/// A read hands back the plan's desk, or the bare desk with the refusal and the place of the refused field.
pub type ReadReply = (Desk, Result<(), (Refusal, usize)>);

fn big_endian(octets: &[u8]) -> u64 {
    octets.iter().fold(0, |number, &octet| number * 256 + u64::from(octet))
}

/// Appends a field: each number with its width in octets.
pub(crate) fn put(plan: &mut Vec<u8>, tag: u8, numbers: &[(u64, usize)]) {
    let length: usize = numbers.iter().map(|(_, width)| width).sum();
    plan.extend([tag, 0, length as u8]);
    for &(number, width) in numbers {
        plan.extend(&number.to_be_bytes()[8 - width..]);
    }
}

pub(crate) fn put_port(plan: &mut Vec<u8>, p: &Port) {
    put(plan, 1, &[(p.rate, 1), (p.cycle, 4), (p.guard, 4), (p.header, 4)]);
}

pub(crate) fn put_slot(plan: &mut Vec<u8>, slot: &Slot) {
    put(plan, 2, &[(slot.start, 4), (slot.end, 4)]);
}

pub(crate) fn put_stream(plan: &mut Vec<u8>, s: &Stream) {
    let numbers = [(s.id, 2), (s.priority, 1), (s.octets, 2), (s.period, 4), (s.jitter, 4), (s.deadline, 4)];
    put(plan, 3, &numbers);
}

/// The plan of an open desk: PORT, slots by rising start, streams by rising id.
pub(crate) fn octets(open: &Open) -> Vec<u8> {
    let mut plan = Vec::new();
    put_port(&mut plan, &open.port);
    for slot in &open.slots {
        put_slot(&mut plan, slot);
    }
    for stream in &open.streams {
        put_stream(&mut plan, stream);
    }
    plan
}

/// The tag and the value of the field at the front: 1, 2, 3, 1.
fn field(rest: &[u8]) -> Result<(u8, &[u8]), Refusal> {
    let header = rest.get(..3).ok_or(Refusal::Cut)?;
    let length = match header[0] {
        1 => 13,
        2 => 8,
        3 => 17,
        _ => return Err(Refusal::UnknownTag),
    };
    if big_endian(&header[1..]) != length as u64 {
        return Err(Refusal::WrongLength);
    }
    let value = rest.get(3..3 + length).ok_or(Refusal::Cut)?;
    Ok((header[0], value))
}

/// Makes the edit that a field names.
fn edit(mode: Mode, desk: Desk, tag: u8, value: &[u8]) -> Reply<()> {
    let number = |from: usize, width: usize| big_endian(&value[from..from + width]);
    match tag {
        1 => desk.open_port(Port {
            rate: number(0, 1),
            cycle: number(1, 4),
            guard: number(5, 4),
            header: number(9, 4),
        }),
        2 => desk.add_slot(mode, Slot { start: number(0, 4), end: number(4, 4) }),
        _ => desk.add_stream(Stream {
            id: number(0, 2),
            priority: number(2, 1),
            octets: number(3, 2),
            period: number(5, 4),
            jitter: number(9, 4),
            deadline: number(13, 4),
        }),
    }
}

/// Reads a whole plan from the bare desk, one field at a time. The first refused field decides.
pub fn read(mode: Mode, plan: &[u8]) -> ReadReply {
    if plan.is_empty() {
        return (Desk::Bare, Err((Refusal::WrongState, 0)));
    }
    let mut desk = Desk::Bare;
    let mut place = 0;
    while place < plan.len() {
        let (tag, value) = match field(&plan[place..]) {
            Ok(field) => field,
            Err(refusal) => return (Desk::Bare, Err((refusal, place))),
        };
        let reply = edit(mode, desk, tag, value);
        if let (_, Err(refusal)) = reply {
            return (Desk::Bare, Err((refusal, place)));
        }
        desk = reply.0;
        place += 3 + value.len();
    }
    (desk, Ok(()))
}
