// Random plans of many shapes: few and many streams, with and without jitter and slots, light and heavy load.
use crate::{compare, Outcome};
use crate::plan::{wire_time, Plan, Stream};
use std::time::Duration;

pub struct Random(u64);

impl Random {
    fn next(&mut self) -> u64 {
        self.0 ^= self.0 << 13;
        self.0 ^= self.0 >> 7;
        self.0 ^= self.0 << 17;
        self.0
    }

    fn below(&mut self, n: u64) -> u64 {
        self.next() % n
    }

    fn within(&mut self, lo: u64, hi: u64) -> u32 {
        (lo + self.below(hi - lo + 1)) as u32
    }

    // between lo and hi, small numbers as likely as large ones
    fn spread(&mut self, lo: f64, hi: f64) -> u32 {
        let x = self.below(1 << 30) as f64 / (1u64 << 30) as f64;
        (lo * (hi / lo).powf(x)) as u32
    }
}

pub fn plan(r: &mut Random) -> Plan {
    let mut p = Plan {
        rate: r.within(1, 5),
        cycle: r.spread(1_000.0, 1_000_000.0),
        guard: r.spread(1.0, 1_000.0),
        header: r.spread(1.0, 1_000.0) - 1,
        ..Plan::default()
    };
    let slots = if r.below(3) == 0 { 0 } else { r.within(1, 32) };
    let mut at = 0;
    for _ in 0..slots {
        let start = at + r.spread(1.0, p.cycle as f64 / 8.0);
        let end = start + r.spread(1.0, p.cycle as f64 / 64.0);
        if end > p.cycle {
            break;
        }
        p.slots.push((start, end));
        at = end;
    }
    let streams = if r.below(3) == 0 { r.within(1, 4) } else { r.within(1, 64) };
    let priorities = r.within(1, 8) as u64;
    let most = if r.below(3) == 0 { 0.0 } else { r.spread(2.0, 100_000_000.0) as f64 };
    // the share of the free time that all streams together ask for
    let share = [0.3, 0.6, 0.9, 0.97, 0.99, 0.999][r.below(6) as usize] * free(&p);
    let weights: Vec<f64> = (0..streams).map(|_| r.spread(1.0, 100.0) as f64).collect();
    p.streams = load(r, p.rate, share, &weights, 1_522, priorities, most);
    p
}

// Streams that together ask for a share of the wire, by their weights, with frames and jitters up to the longest.
fn load(
    r: &mut Random,
    rate: u32,
    share: f64,
    weights: &[f64],
    longest: u64,
    priorities: u64,
    most: f64,
) -> Vec<Stream> {
    let all: f64 = weights.iter().sum();
    let mut stream = |(id, weight): (usize, &f64)| {
        let octets = r.within(64, longest);
        let period = wire_time(rate, octets) as f64 / (share * weight / all);
        Stream {
            id: id as u32,
            priority: r.below(priorities) as u32,
            octets,
            period: period.clamp(10_000.0, 100_000_000.0) as u32,
            jitter: if most < 2.0 { 0 } else { r.spread(1.0, most) },
        }
    };
    weights.iter().enumerate().map(&mut stream).collect()
}

// The share of the cycle that no slot blocks.
fn free(p: &Plan) -> f64 {
    let blocked: u64 = p.runs().map_or(0, |runs| runs.iter().map(|run| run.1).sum());
    (1.0 - blocked as f64 / p.cycle as f64).max(0.0001)
}

// A plan with slots as above, and streams that together ask for all the free time, for a little less or a little more:
// few or many, of one priority or of several, with and without jitter, with periods of like length or far apart.
pub fn full(r: &mut Random) -> Plan {
    let mut p = plan(r);
    p.rate = r.within(2, 5);
    let share = [0.97, 0.99, 0.999, 0.9999, 1.0, 1.001, 1.01][r.below(7) as usize] * free(&p);
    let streams = if r.below(4) == 0 { r.within(1, 12) } else { r.within(12, 64) };
    let priorities = [1, 1, 2, 8][r.below(4) as usize];
    let most = if r.below(2) == 0 { 0.0 } else { r.spread(1_000.0, 100_000_000.0) as f64 };
    let wide = [1.5, 10.0, 100.0, 10_000.0][r.below(4) as usize];
    let longest = [128, 1_522][r.below(2) as usize];
    let weights: Vec<f64> = (0..streams).map(|_| r.spread(1_000.0, 1_000.0 * wide) as f64).collect();
    p.streams = load(r, p.rate, share, &weights, longest, priorities, most);
    p
}

// A plan that seems less than twice as fast is timed again: the least time of five runs counts.
fn outcome(p: &Plan) -> Option<Outcome> {
    let o = compare(p, 1)?;
    if o.plain > Duration::from_millis(1) && o.plain < 2 * o.proved { compare(p, 5) } else { Some(o) }
}

pub fn run(plan: fn(&mut Random) -> Plan, n: u32, seed: u64) {
    let mut r = Random(seed.wrapping_mul(0x9e37_79b9_7f4a_7c15) | 1);
    let (mut done, mut streams, mut endless, mut long) = (0, 0, 0, 0);
    let mut least = f64::INFINITY;
    while done < n {
        let p = plan(&mut r);
        let Some(o) = outcome(&p) else { continue };
        done += 1;
        streams += p.streams.len();
        endless += o.endless;
        if o.plain > Duration::from_millis(1) {
            long += 1;
            let ratio = o.plain.as_secs_f64() / o.proved.as_secs_f64();
            if ratio < least {
                least = ratio;
                println!(
                    "plan {done}: {} streams, {} slots, plain {:?}, proved {:?}, {ratio:.2} times faster",
                    p.streams.len(),
                    p.slots.len(),
                    o.plain,
                    o.proved
                );
            }
        }
    }
    println!("{done} plans, {streams} streams ({endless} endless): all answers agree");
    println!("{long} plans took plain over a millisecond; the smallest speed-up of these was {least:.2}");
}
