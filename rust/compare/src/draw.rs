//! Numbers and records thrown with dice: mostly in their ranges, often at an end of them, now and then far outside.
use ghritpoma::{Port, Stream};
use reference::{wire_time, Dice, Open, HORIZON};

pub const LONGEST_STRETCH: u64 = 10_000_000;

/// What the numbers of one case are like.
pub struct Style {
    pub port: Port,
    /// The largest stream id.
    pub ids: u64,
    /// The longest slot that is usual, as a part of the cycle.
    pub part: u64,
    /// The longest period that is usual, in wire times: a small one makes for endless streams.
    pub sparse: u64,
}

/// True once in so many throws.
pub fn once_in(dice: &mut Dice, throws: u64) -> bool {
    dice.from(1, throws) == 1
}

/// One of these, which may be thrown with the same dice.
pub fn pick<T: Copy>(choice: &[T], dice: &mut Dice) -> T {
    dice.one_of(choice)
}

/// A number at an end of its range, or outside: by one, by far, or by bits that are lost where 32 or 16 are kept.
pub fn edge(dice: &mut Dice, low: u64, high: u64) -> u64 {
    let inside = dice.from(low, high);
    match dice.from(0, 8) {
        0 | 1 => low,
        2 | 3 => high,
        4 => low.wrapping_sub(1),
        5 => high + 1,
        6 => inside + (dice.from(1, 9) << dice.one_of(&[16, 32, 33, 60])),
        7 => u64::MAX - dice.from(0, 2),
        _ => 1 << dice.from(8, 63),
    }
}

impl Style {
    pub fn new(dice: &mut Dice) -> Style {
        let choice = [1_000, dice.from(1_000, 5_000), dice.from(1_000, 5_000), dice.from(10_000, 1_000_000), HORIZON];
        let cycle = dice.one_of(&choice);
        let part = dice.one_of(&[2, 40, 40, 400, 1_000]);
        let guard = dice.from(1, cycle / part);
        let header = pick(&[0, guard, dice.from(0, cycle / part)], dice);
        let (guard, header) = (guard.min(LONGEST_STRETCH), header.min(LONGEST_STRETCH));
        Style {
            port: Port { rate: dice.from(1, 5), cycle, guard, header },
            ids: dice.one_of(&[7, 80, 80, 65_535]),
            part: dice.one_of(&[4, 40, 40, 100, 400]),
            sparse: dice.one_of(&[4, 40, 400, 4_000]),
        }
    }

    /// The port, once in eight with a number at its edge.
    pub fn port(&self, dice: &mut Dice) -> Port {
        let mut port = self.port;
        match dice.from(0, 31) {
            0 => port.rate = edge(dice, 1, 5),
            1 => port.cycle = edge(dice, 1_000, HORIZON),
            2 => port.guard = edge(dice, 1, LONGEST_STRETCH),
            3 => port.header = edge(dice, 0, LONGEST_STRETCH),
            _ => {}
        }
        port
    }

    /// A stream, once in four with a number at its edge.
    pub fn stream(&self, dice: &mut Dice) -> Stream {
        let octets = dice.from(64, 1_522);
        let wire = wire_time(self.port.rate, octets);
        let period = (wire * dice.from(2, self.sparse)).clamp(10_000, HORIZON);
        let jitter = pick(&[0, 0, 1, dice.from(0, period), dice.from(0, 3 * period)], dice);
        let deadline = pick(&[wire * dice.from(1, 60), period, HORIZON], dice).min(HORIZON);
        let (id, priority) = (dice.from(0, self.ids), dice.from(0, 7));
        let mut stream = Stream { id, priority, octets, period, jitter: jitter.min(HORIZON), deadline };
        match dice.from(0, 23) {
            0 => stream.id = edge(dice, 0, 65_535),
            1 => stream.priority = edge(dice, 0, 7),
            2 => stream.octets = edge(dice, 64, 1_522),
            3 => stream.period = edge(dice, 10_000, HORIZON),
            4 if once_in(dice, 8) => stream.jitter = edge(dice, 0, HORIZON),
            5 => stream.deadline = edge(dice, 1, HORIZON),
            _ => {}
        }
        stream
    }

    /// A slot beside those held: anywhere, or about as far from one as makes their stretches touch.
    pub fn slot(&self, dice: &mut Dice, open: &Open) -> (u64, u64) {
        let reference::Port { cycle, guard, header, .. } = open.port;
        let mut start = dice.from(0, cycle);
        if !open.slots.is_empty() && once_in(dice, 2) {
            let held = dice.one_of(&open.slots);
            let apart = dice.one_of(&[0, guard + header]) + dice.from(0, 2);
            start = dice.one_of(&[(held.end + apart).saturating_sub(1), held.start.saturating_sub(apart)]);
        }
        let most = (cycle / self.part).max(1);
        let full = cycle.saturating_sub(guard + header + dice.from(0, 2));
        let length = pick(&[0, 1, dice.from(1, most), dice.from(1, most), dice.from(1, most)], dice);
        match dice.from(0, 29) {
            0 => (0, full),
            1 => (start, cycle),
            2 => (edge(dice, 0, cycle), start),
            3 => (start, edge(dice, start, cycle.max(start))),
            _ => (start, start + length),
        }
    }
}
