//! Plans of 32 slots and 64 streams at each rate: stretches that touch, overlap and wrap, and all three verdicts.

use super::{Bytes, Sample};
use crate::records::{wire_time, Stream};

/// The cycle for each rate code, so that wire times take about the same part of it.
const CYCLES: [u64; 5] = [100_000_000, 10_000_000, 1_000_000, 400_000, 100_000];

/// The gaps between slots, in turn: touching slots, touching, overlapping and nearly touching stretches, and apart.
fn gap(k: u64, unit: u64) -> u64 {
    let joining = 3 * unit;
    let gaps = [0, joining, joining - 1, joining + 1, 25 * unit + 13, 37 * unit + 5, 61 * unit + 1];
    gaps[(k % 7) as usize]
}

/// 32 slots; the first one's guard reaches back over the cycle's start, the last one's header over its end.
fn slots(unit: u64) -> Vec<(u64, u64)> {
    let mut slots = Vec::new();
    let mut start = unit;
    for k in 0..31 {
        let end = start + unit * (1 + k * 7 % 5) + k;
        slots.push((start, end));
        start = end + gap(k, unit);
    }
    slots.push((990 * unit, 1_000 * unit));
    slots
}

/// Stream k of 64. Those of lowest priority ask for more than the wire has.
fn stream(rate: u64, k: u64, cycle: u64) -> Stream {
    let unit = cycle / 1_000;
    let jitters = [0, 10 * unit, cycle / 2, (2 * cycle).min(100_000_000)];
    let modest = Stream {
        id: k * 1_021 % 65_536,
        priority: k * 5 % 8,
        octets: 64 + k * 97 % 700,
        period: cycle - k % 10 * 31 * unit,
        jitter: jitters[(k / 3 % 4) as usize],
        deadline: (k % 6 + 1) * cycle / 9,
    };
    if modest.priority > 0 {
        return modest;
    }
    Stream { octets: 1_522, period: wire_time(rate, 1_522).max(10_000), ..modest }
}

fn plan(rate: u64) -> Bytes {
    let cycle = CYCLES[(rate - 1) as usize];
    let unit = cycle / 1_000;
    let mut plan = Bytes::empty().port(rate, cycle, 2 * unit, unit);
    let slots = slots(unit);
    // Mixed: a slot and two streams in turn, the slots from both ends.
    for k in 0..32 {
        let (start, end) = slots[if k % 2 == 0 { k / 2 } else { 31 - k / 2 }];
        plan = plan.slot(start, end);
        for k in [63 - k as u64, k as u64] {
            plan = plan.stream(stream(rate, k, cycle));
        }
    }
    plan
}

/// As many stairs as 32 runs can have: gaps and lengths swell and shrink together around the circle, so that of two
/// stretches over as many runs the longer one always has the larger total. The turn keeps all of them distinct. The
/// nearest and the furthest run of each row share a stair, so these are 32 x 30 + 2.
fn most_stairs() -> Bytes {
    let swell = |k: f64| (std::f64::consts::TAU * (k + 0.13) / 32.0).cos();
    let mut plan = Bytes::empty().port(2, 100_000_000, 1, 0);
    let mut start = 0.0;
    for k in 0..32 {
        let k = f64::from(k);
        let length = 1_500_000.0 + 40_000.0 * swell(k - 0.5);
        plan = plan.slot(start as u64 + 1, (start + length) as u64);
        start += 3_125_000.0 + 100_000.0 * swell(k);
    }
    (0..4).fold(plan, |plan, k| plan.stream(stream(2, 8 * k + 1, 40_000_000)))
}

pub fn samples() -> Vec<Sample> {
    let sample = |rate| Sample::new(&format!("large-at-rate-code-{rate}"), plan(rate));
    let mut samples: Vec<Sample> = (1..=5).map(sample).collect();
    samples.push(Sample::new("most-stairs-of-32-runs", most_stairs()));
    samples
}
