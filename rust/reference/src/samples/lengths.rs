//! Inputs about as long as the program takes, and longer: each meets its refusal early.

use super::{plain, Bytes, Sample};
use crate::records::Stream;

/// The longest plan there is: 32 slots and 64 streams, 1,648 octets.
fn longest() -> Bytes {
    let port = Bytes::empty().port(4, 100_000, 100, 10);
    let slots = (0..32).fold(port, |plan, k| plan.slot(k * 3_000, k * 3_000 + 50 + k));
    let stream = |id| Stream { priority: id % 8, octets: 64 + id, ..plain(id) };
    (0..64).fold(slots, |plan, id| plan.stream(stream(id)))
}

/// The plan, filled up with a field or with octets over and over, and cut at the length.
fn filled(plan: Bytes, filler: &[u8], length: usize) -> Bytes {
    let mut octets = plan.0;
    while octets.len() < length {
        octets.extend(filler);
    }
    octets.truncate(length);
    Bytes(octets)
}

fn of_length(length: usize) -> Vec<Sample> {
    let port = Bytes::empty().port(4, 100_000, 100, 10);
    let slots = (0..32).fold(port.clone(), |plan, k| plan.slot(k * 100, k * 100 + 50));
    let stream = Bytes::empty().stream(plain(7)).0;
    let slot = Bytes::empty().slot(50_000, 50_001).0;
    let again = Bytes::empty().port(4, 100_000, 100, 10).0;
    let rows = [
        ("stream-65", longest(), &stream[..], 7, 1_648),
        ("slot-33", slots, &slot, 7, 368),
        ("slot-33-behind-the-longest-plan", longest(), &slot, 7, 1_648),
        ("port-again", longest(), &again, 4, 1_648),
        ("garbage-behind-the-longest-plan", longest(), &[0xA5, 0x5A, 0xFF], 2, 1_648),
        ("zeros-behind-the-longest-plan", longest(), &[0], 2, 1_648),
        ("long-field-behind-the-longest-plan", longest(), &[3, 0x0F, 0xFF], 3, 1_648),
        ("same-stream-again", port, &stream, 8, 36),
        ("zeros", Bytes::empty(), &[0], 2, 0),
    ];
    let sample = |(name, plan, filler, number, place)| {
        let name = format!("length-{length}-{name}");
        Sample::refused(&name, filled(plan, filler, length), number, place)
    };
    rows.map(sample).into_iter().collect()
}

pub fn samples() -> Vec<Sample> {
    let mut samples: Vec<Sample> = [4_095, 4_096, 4_097, 10_000].into_iter().flat_map(of_length).collect();
    samples.push(Sample::new("length-1648-longest-plan", longest()));
    let one_more = longest().octets(&[3]);
    samples.push(Sample::refused("length-1649-one-octet-more", one_more, 1, 1_648));
    let cut = filled(longest(), &[3, 0, 17], 1_667);
    samples.push(Sample::refused("length-1667-stream-65-cut", cut, 1, 1_648));
    let whole = longest().stream(plain(200));
    samples.push(Sample::refused("length-1668-stream-65-whole", whole, 7, 1_648));
    samples
}
