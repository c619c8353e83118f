//! The proved core's reply to a call.
use crate::{pattern, Call, Reply, Values};
use ghritpoma::{Desk, Refusal};

/// Makes the call on the desk. The reply, and the refusal behind its number.
pub fn make(desk: &mut Desk, call: &Call) -> (Reply, Option<Refusal>) {
    let nothing = |()| Values::Nothing;
    let (values, refusal) = match call {
        Call::Open(port) => told(desk.open_port(*port).map(nothing)),
        Call::Slot { start, end } => told(desk.add_slot(*start, *end).map(nothing)),
        Call::Unslot(start) => told(desk.remove_slot(*start).map(nothing)),
        Call::Stream(stream) => told(desk.add_stream(*stream).map(nothing)),
        Call::Unstream(id) => told(desk.remove_stream(*id).map(nothing)),
        Call::Runs => {
            told(desk.runs().map(|rs| Values::Pairs(rs.into_iter().map(|r| (r.start, r.length)).collect())))
        }
        Call::Stairs => {
            told(desk.stairs().map(|ss| Values::Pairs(ss.into_iter().map(|s| (s.distance, s.total)).collect())))
        }
        Call::Interference(length) => told(desk.interference(*length).map(Values::Figure)),
        Call::Response(id) => told(desk.response(*id).map(Values::Figure)),
        Call::Write(room) => write(desk, *room),
        Call::Read(plan) => read(desk, plan),
        Call::Bare => {
            *desk = Desk::bare();
            (Values::Nothing, None)
        }
    };
    (Reply { number: refusal.map_or(0, Refusal::number), values }, refusal)
}

/// The values of an answer and its refusal; a late stream's bound is a value.
fn told(answer: Result<Values, Refusal>) -> (Values, Option<Refusal>) {
    match answer {
        Ok(values) => (values, None),
        Err(Refusal::Late { bound }) => (Values::Figure(bound), Some(Refusal::Late { bound })),
        Err(refusal) => (Values::Nothing, Some(refusal)),
    }
}

/// Writes into a room that holds the pattern.
fn write(desk: &Desk, room: u64) -> (Values, Option<Refusal>) {
    let mut octets = pattern(room);
    match desk.write(&mut octets) {
        Ok(count) => (Values::Room(count, octets), None),
        Err(refusal) => (Values::Room(0, octets), Some(refusal)),
    }
}

/// The desk of the plan takes the desk's place, the bare one where the plan is refused.
fn read(desk: &mut Desk, plan: &[u8]) -> (Values, Option<Refusal>) {
    match Desk::read(plan) {
        Ok(made) => {
            *desk = made;
            (Values::Nothing, None)
        }
        Err(refused) => {
            *desk = Desk::bare();
            (Values::Figure(refused.place as u64), Some(refused.refusal))
        }
    }
}
