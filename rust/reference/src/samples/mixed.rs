//! Plans thrown with dice: slots near each other's guards, streams of every kind, fields in any order.

use super::{Bytes, Sample};
use crate::dice::Dice;
use crate::records::{wire_time, Stream};

/// Up to 32 slots by rising start, with gaps that let their stretches touch, overlap by a cell or just miss.
fn slots(dice: &mut Dice, cycle: u64, joining: u64) -> Vec<(u64, u64)> {
    let most = dice.from(1, 32);
    let longest = (cycle / (3 * most)).max(1);
    let mut slots = Vec::new();
    let mut start = dice.from(0, joining);
    for _ in 0..most {
        let end = start + dice.from(1, longest);
        if end > cycle {
            break;
        }
        slots.push((start, end));
        let apart = joining + dice.from(2, longest);
        start = end + dice.one_of(&[0, joining - 1, joining, joining + 1, apart, apart, apart]);
    }
    slots
}

fn stream(dice: &mut Dice, rate: u64) -> Stream {
    let octets = dice.from(64, 1_522);
    let wire = wire_time(rate, octets);
    let period = (wire * dice.from(4, 90)).clamp(10_000, 100_000_000);
    let jitter = dice.one_of(&[0, 0, 1, wire, period - 1, period, 2 * period + 1]);
    Stream {
        id: dice.from(0, 65_535),
        priority: dice.from(0, 7),
        octets,
        period,
        jitter: jitter.min(100_000_000),
        deadline: (wire * dice.from(1, 60)).min(100_000_000),
    }
}

fn plan(seed: u64) -> Bytes {
    let dice = &mut Dice::new(seed);
    let rate = dice.from(1, 5);
    let cycle = dice.one_of(&[1_000, 2_503, 99_991, 1_000_000, 10_000_019, 100_000_000]);
    let guard = dice.from(1, cycle / 40);
    let header = dice.from(0, cycle / 90);
    let mut fields: Vec<Bytes> =
        slots(dice, cycle, guard + header).into_iter().map(|(start, end)| Bytes::empty().slot(start, end)).collect();
    for _ in 0..dice.from(0, 16) {
        fields.push(Bytes::empty().stream(stream(dice, rate)));
    }
    dice.shuffle(&mut fields);
    let port = Bytes::empty().port(rate, cycle, guard, header);
    fields.iter().fold(port, |plan, field| plan.octets(&field.0))
}

pub fn samples() -> Vec<Sample> {
    (1..=40).map(|seed| Sample::new(&format!("mixed-{seed:02}"), plan(seed))).collect()
}
