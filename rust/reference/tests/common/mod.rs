//! What the tests share: desks made by calls, and random ports, slots and streams.
#![allow(dead_code)]

pub use reference::Dice;
use reference::{read, samples, Desk, Mode, Open, Port, Refusal, Reply, Slot, Stream};

pub const MODES: [Mode; 2] = [Mode::Brute, Mode::Fast];

/// The desk of a call that was accepted.
pub fn accepted<T>(reply: Reply<T>) -> Desk {
    assert!(reply.1.is_ok(), "refused");
    reply.0
}

/// Checks that a call is refused so, and hands the same desk back.
pub fn refused<T>(desk: &Desk, call: impl FnOnce(Desk) -> Reply<T>, refusal: Refusal) {
    let (after, answer) = call(desk.clone());
    assert_eq!(answer.err(), Some(refusal));
    assert_eq!(&after, desk);
}

/// The answer of a question, which hands the same desk back.
pub fn asked<T>(desk: &Desk, call: impl FnOnce(Desk) -> Reply<T>) -> Result<T, Refusal> {
    let (after, answer) = call(desk.clone());
    assert_eq!(&after, desk);
    answer
}

pub fn port(rate: u64, cycle: u64, guard: u64, header: u64) -> Port {
    Port { rate, cycle, guard, header }
}

pub fn slot(start: u64, end: u64) -> Slot {
    Slot { start, end }
}

pub fn stream(id: u64, octets: u64, period: u64, jitter: u64) -> Stream {
    Stream { id, priority: 3, octets, period, jitter, deadline: 100_000_000 }
}

pub fn opened(port: Port) -> Desk {
    accepted(Desk::Bare.open_port(port))
}

pub fn with_slots(desk: Desk, slots: &[(u64, u64)]) -> Desk {
    let add = |desk: Desk, &(start, end): &(u64, u64)| accepted(desk.add_slot(Mode::Fast, slot(start, end)));
    slots.iter().fold(desk, add)
}

pub fn plan_f() -> Desk {
    let (desk, answer) = read(Mode::Fast, &samples::plan_f().0);
    assert_eq!(answer, Ok(()));
    desk
}

pub fn holding(desk: &Desk) -> &Open {
    match desk {
        Desk::Open(open) => open,
        Desk::Bare => panic!("a bare desk"),
    }
}

/// A port with a cycle of 1,000 to 3,000; now and then its guard or header is long, even of many cycles.
pub fn random_port(dice: &mut Dice) -> Port {
    let cycle = dice.one_of(&[1_000, 1_000, 1_001, 1_536, 2_000, 3_000]);
    let guard = match dice.from(0, 19) {
        0 => dice.from(cycle / 2, cycle),
        1 => dice.from(1, 12 * cycle),
        2..=9 => dice.from(1, 5),
        _ => dice.from(1, 120),
    };
    let header = match dice.from(0, 19) {
        0 => dice.from(cycle / 2, cycle),
        1 => dice.from(0, 12 * cycle),
        2..=9 => 0,
        _ => dice.from(0, 60),
    };
    let rate = dice.one_of(&[2, 3, 3, 4, 5, 5]);
    port(rate, cycle, guard, header)
}

/// A slot, often one that touches a held one, or whose stretch touches or just misses another's or the cycle's end.
pub fn random_slot(dice: &mut Dice, open: &Open) -> Slot {
    let Port { cycle, guard, header, .. } = open.port;
    let length = match dice.from(0, 9) {
        0 => dice.from(1, cycle),
        1..=3 => dice.from(1, 10),
        _ => dice.from(1, cycle / 8),
    };
    let start = dice.from(0, cycle - 1);
    let start = match (open.slots.is_empty(), dice.from(0, 9)) {
        (true, 0..=3) => dice.one_of(&[0, guard % cycle, cycle - 1, (guard + 1) % cycle]),
        (false, 0..=1) => dice.one_of(&open.slots).end,
        (false, 2..=5) => {
            let nudge = dice.from(0, 2);
            (dice.one_of(&open.slots).end + guard + header + nudge).saturating_sub(1) % cycle
        }
        _ => start,
    };
    slot(start, (start + length).min(cycle + u64::from(dice.from(0, 30) == 0)))
}

pub fn random_stream(dice: &mut Dice, id: u64) -> Stream {
    let period = match dice.from(0, 3) {
        0 => dice.from(10_000, 12_000),
        _ => dice.from(10_000, 60_000),
    };
    let jitter = match dice.from(0, 3) {
        0 | 1 => 0,
        2 => dice.from(0, 20_000),
        _ => dice.one_of(&[period - 1, period, period + 1, 2 * period, 3 * period + 7]),
    };
    Stream {
        id,
        priority: dice.one_of(&[0, 1, 3, 3, 3, 6, 7]),
        octets: dice.one_of(&[64, 64, 65, 117, 242, 500, 1_242, 1_522]),
        period,
        jitter,
        deadline: dice.one_of(&[1, 5_000, 20_000, 100_000_000]),
    }
}
