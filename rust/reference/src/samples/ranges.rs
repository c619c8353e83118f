//! The ends of every number's range, just in and just out.

use super::{plain, Bytes, Sample};
use crate::records::Stream;

const OVER_ALL: u64 = u32::MAX as u64;

/// A sample of a number in its range, or one refused with 5 at the place of its field.
fn sample(what: &str, number: u64, plan: Bytes, place: usize, good: bool) -> Sample {
    if good {
        return Sample::new(&format!("range-{what}-{number}-in"), plan);
    }
    Sample::refused(&format!("range-{what}-{number}-out"), plan, 5, place)
}

fn ports() -> Vec<Sample> {
    let rate = |n| Bytes::empty().port(n, 100_000, 1_000, 500);
    let cycle = |n| Bytes::empty().port(2, n, 1_000, 500);
    let guard = |n| Bytes::empty().port(2, 100_000, n, 500);
    let header = |n| Bytes::empty().port(2, 100_000, 1_000, n);
    let row = |what: &str, make: &dyn Fn(u64) -> Bytes, numbers: &[(u64, bool)]| {
        let with_stream = |n, good| {
            if good {
                make(n).stream(plain(1))
            } else {
                make(n)
            }
        };
        let one = |&(n, good): &(u64, bool)| sample(what, n, with_stream(n, good), 0, good);
        numbers.iter().map(one).collect::<Vec<_>>()
    };
    let rates = [(0, false), (1, true), (5, true), (6, false), (255, false)];
    let cycles = [(999, false), (1_000, true), (100_000_000, true), (100_000_001, false)];
    let guards = [(0, false), (1, true), (10_000_000, true), (10_000_001, false)];
    let headers = [(0, true), (10_000_000, true), (10_000_001, false), (OVER_ALL, false)];
    let rows = [
        row("rate", &rate, &rates),
        row("cycle", &cycle, &cycles),
        row("guard", &guard, &guards),
        row("header", &header, &headers),
    ];
    rows.into_iter().flatten().collect()
}

/// Slots on a cycle of 100,000 with guard 1,000 and header 500, alone after the port.
fn slots() -> Vec<Sample> {
    let rows = [
        ("slot-from-the-start", 0, 10, true),
        ("slot-to-the-end", 99_990, 100_000, true),
        ("slot-of-one-cell-at-the-start", 0, 1, true),
        ("slot-of-one-cell-at-the-end", 99_999, 100_000, true),
        ("slot-of-one-cell", 500, 501, true),
        ("slot-end-over-cycle", 99_990, 100_001, false),
        ("slot-start-at-cycle", 100_000, 100_001, false),
        ("slot-start-is-end", 500, 500, false),
        ("slot-start-and-end-0", 0, 0, false),
        ("slot-start-and-end-at-cycle", 100_000, 100_000, false),
        ("slot-start-over-end", 501, 500, false),
        ("slot-end-over-all", 0, OVER_ALL, false),
        ("slot-start-over-all", OVER_ALL, 500, false),
    ];
    let port = Bytes::empty().port(2, 100_000, 1_000, 500);
    let one = |(what, start, end, good)| sample(what, end, port.clone().slot(start, end), 16, good);
    rows.map(one).into_iter().collect()
}

fn stream_row(what: &str, make: impl Fn(u64) -> Stream, numbers: &[(u64, bool)]) -> Vec<Sample> {
    let port = Bytes::empty().port(5, 100_000, 1_000, 500).slot(100, 300);
    let one = |&(n, good): &(u64, bool)| {
        let plan = port.clone().stream(make(n));
        sample(what, n, plan, 27, good)
    };
    numbers.iter().map(one).collect()
}

fn streams() -> Vec<Sample> {
    let priority = |priority| Stream { priority, ..plain(1) };
    let octets = |octets| Stream { octets, ..plain(1) };
    let period = |period| Stream { period, ..plain(1) };
    let jitter = |jitter| Stream { jitter, ..plain(1) };
    let deadline = |deadline| Stream { deadline, ..plain(1) };
    let many_frames = |jitter| Stream { jitter, period: 10_000, ..plain(1) };
    let priorities = [(0, true), (7, true), (8, false), (255, false)];
    let lengths = [(63, false), (64, true), (1_522, true), (1_523, false), (65_535, false)];
    let periods = [(9_999, false), (10_000, true), (100_000_000, true), (100_000_001, false)];
    let jitters = [(0, true), (100_000_000, true), (100_000_001, false), (OVER_ALL, false)];
    let deadlines = [(0, false), (1, true), (100_000_000, true), (100_000_001, false)];
    let rows = [
        stream_row("id", plain, &[(0, true), (65_535, true)]),
        stream_row("priority", priority, &priorities),
        stream_row("octets", octets, &lengths),
        stream_row("period", period, &periods),
        stream_row("jitter", jitter, &jitters),
        stream_row("jitter-of-many-frames", many_frames, &jitters),
        stream_row("deadline", deadline, &deadlines),
    ];
    rows.into_iter().flatten().collect()
}

pub fn samples() -> Vec<Sample> {
    let groups = [ports(), slots(), streams()];
    groups.into_iter().flatten().collect()
}
