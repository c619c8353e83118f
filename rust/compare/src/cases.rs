//! The two kinds of case: a plan that is read and asked about, and a long sequence of calls on one desk.
use crate::draw::{edge, once_in, pick, Style};
use crate::pair::{Difference, Pair};
use crate::plans::{plan, sample};
use console::{Call, Values, MOST_ROOM};
use ghritpoma::Stream;
use reference::{Desk, Dice, Open, HORIZON};

/// The model's desk, where it is open.
fn held<'a>(pair: &'a Pair) -> Option<&'a Open> {
    match &pair.model.desk {
        Desk::Open(open) => Some(open),
        Desk::Bare => None,
    }
}

/// A length to ask interference of: around a distance of slots, whole cycles or the horizon, or anything.
fn length(dice: &mut Dice, open: &Open) -> u64 {
    if once_in(dice, 6) {
        return edge(dice, 0, HORIZON);
    }
    let cycle = open.port.cycle;
    let mut distance = 0;
    if !open.slots.is_empty() {
        let (one, other) = (dice.one_of(&open.slots), dice.one_of(&open.slots));
        distance = (other.start + cycle - one.start) % cycle;
    }
    let around = (distance + cycle * dice.from(0, 3) + dice.from(0, 2)).saturating_sub(1);
    pick(&[around, around, dice.from(0, 4 * cycle), dice.from(0, HORIZON)], dice)
}

/// A room around as long as the plan needs, or of any length.
fn room(dice: &mut Dice, open: Option<&Open>) -> u64 {
    let need = open.map_or(16, |open| 16 + 11 * open.slots.len() + 20 * open.streams.len()) as u64;
    let near = (need + dice.from(0, 2)).saturating_sub(1);
    let most = if once_in(dice, 40) { MOST_ROOM } else { 1_700 };
    let any = dice.from(0, most);
    pick(&[near, need + dice.from(0, 40), dice.from(0, need), any], dice)
}

/// Asks for a response and now and then, where it has a bound, gives the stream that very deadline or one shorter.
fn response(dice: &mut Dice, pair: &mut Pair, id: u64) -> Result<(), Difference> {
    let reply = pair.make(Call::Response(id))?;
    let held = held(pair).and_then(|open| open.stream(id));
    let (Values::Figure(bound), Some(&stream), true) = (reply.values, held, once_in(dice, 3)) else { return Ok(()) };
    let reference::Stream { id, priority, octets, period, jitter, .. } = stream;
    let deadline = bound - dice.from(0, 1);
    pair.make(Call::Unstream(id))?;
    pair.make(Call::Stream(Stream { id, priority, octets, period, jitter, deadline }))?;
    pair.make(Call::Response(id)).map(|_| ())
}

/// One plan, read by both, and figures of the desk that it gives.
pub fn one_plan(dice: &mut Dice, pair: &mut Pair) -> Result<(), Difference> {
    let style = Style::new(dice);
    pair.make(Call::Read(plan(dice, &style)))?;
    let room = room(dice, held(pair));
    pair.make(Call::Write(room))?;
    let Some(open) = held(pair).cloned() else { return Ok(()) };
    for _ in 0..2 {
        pair.make(Call::Interference(length(dice, &open)))?;
    }
    // every stream of a small plan, one in eight of a large one
    let small = open.streams.len() <= 8;
    for stream in &open.streams {
        if small || once_in(dice, 8) {
            response(dice, pair, stream.id)?;
        }
    }
    pair.reads_back()
}

/// An id: one held, one beside it, or any.
fn id(dice: &mut Dice, style: &Style, open: &Open) -> u64 {
    let any = dice.from(0, style.ids);
    if open.streams.is_empty() || once_in(dice, 4) {
        return pick(&[any, any, any, edge(dice, 0, 65_535)], dice);
    }
    let held = dice.one_of(&open.streams).id;
    dice.one_of(&[held, held, held, held + 1, held | 1 << 32, any])
}

/// A slot's start: one held, one beside it, or any.
fn start(dice: &mut Dice, open: &Open) -> u64 {
    let any = dice.from(0, open.port.cycle);
    if open.slots.is_empty() || once_in(dice, 4) {
        return pick(&[any, any, any, edge(dice, 0, HORIZON)], dice);
    }
    let held = dice.one_of(&open.slots);
    dice.one_of(&[held.start, held.start, held.start, held.end, held.start + 1, held.start | 1 << 32])
}

/// The next call on a desk. One that is growing sees fewer removals.
fn next_call(dice: &mut Dice, style: &Style, open: &Open, growing: bool) -> Call {
    let stream = |dice: &mut Dice| {
        let mut stream = style.stream(dice);
        if once_in(dice, 8) {
            stream.id = id(dice, style, open);
        }
        stream
    };
    match dice.from(0, 99) {
        0..=19 => {
            let (start, end) = style.slot(dice, open);
            Call::Slot { start, end }
        }
        20..=49 => Call::Stream(stream(dice)),
        50..=57 => Call::Unslot(start(dice, open)),
        58..=65 => Call::Unstream(id(dice, style, open)),
        66..=73 if growing => Call::Stream(stream(dice)),
        66..=69 => Call::Unslot(start(dice, open)),
        70..=73 => Call::Unstream(id(dice, style, open)),
        74..=75 => Call::Open(style.port(dice)),
        76..=77 => Call::Runs,
        78..=79 => Call::Stairs,
        80..=86 => Call::Interference(length(dice, open)),
        87..=91 => Call::Response(id(dice, style, open)),
        _ => Call::Write(room(dice, Some(open))),
    }
}

/// A call on a bare desk: opening it, mostly.
fn on_bare(dice: &mut Dice, style: &Style, growing: bool) -> Call {
    let port = reference::Port { rate: 1, cycle: 1_000, guard: 1, header: 0 };
    let empty = Open { port, slots: Vec::new(), streams: Vec::new() };
    if once_in(dice, 3) {
        return next_call(dice, style, &empty, growing);
    }
    Call::Open(style.port(dice))
}

/// Some hundred calls on one desk.
pub fn one_sequence(dice: &mut Dice, pair: &mut Pair) -> Result<(), Difference> {
    let style = Style::new(dice);
    let mut growing = true;
    if once_in(dice, 8) {
        pair.make(Call::Read(sample(dice)))?;
    }
    for _ in 0..dice.from(100, 400) {
        if once_in(dice, 120) {
            growing = !growing;
        }
        let call = match held(pair) {
            _ if once_in(dice, 400) => Call::Bare,
            _ if once_in(dice, 400) => Call::Read(plan(dice, &style)),
            Some(open) => next_call(dice, &style, open, growing),
            None => on_bare(dice, &style, growing),
        };
        match call {
            Call::Response(id) => response(dice, pair, id)?,
            call => pair.make(call).map(|_| ())?,
        }
    }
    pair.reads_back()
}
