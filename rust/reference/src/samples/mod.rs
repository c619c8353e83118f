//! Small fixed plans that show one thing each, with findings worked out by hand where that is short.

mod large;
mod lengths;
mod mixed;
mod paper;
mod ranges;
mod refusals;
mod verdicts;

use crate::plan::{put_port, put_slot, put_stream};
use crate::records::{Port, Slot, Stream};

pub use paper::plan_f;

/// A plan, a name that says what it shows, and its findings if they were worked out by hand.
pub struct Sample {
    pub name: String,
    pub plan: Vec<u8>,
    pub expected: Option<String>,
}

impl Sample {
    fn new(name: &str, plan: Bytes) -> Sample {
        Sample { name: name.to_string(), plan: plan.0, expected: None }
    }

    fn worked(name: &str, plan: Bytes, lines: &[&str]) -> Sample {
        let expected = lines.iter().map(|line| format!("{line}\n")).collect();
        Sample { expected: Some(expected), ..Sample::new(name, plan) }
    }

    fn refused(name: &str, plan: Bytes, number: u64, place: usize) -> Sample {
        Sample::worked(name, plan, &[&format!("refused {number} at {place}")])
    }
}

/// Octets of a plan under construction. Nothing is checked, so that bad plans can be made.
#[derive(Clone)]
pub struct Bytes(pub Vec<u8>);

impl Bytes {
    fn empty() -> Bytes {
        Bytes(Vec::new())
    }

    fn port(mut self, rate: u64, cycle: u64, guard: u64, header: u64) -> Bytes {
        let port = Port { rate, cycle, guard, header };
        put_port(&mut self.0, &port);
        self
    }

    fn slot(mut self, start: u64, end: u64) -> Bytes {
        put_slot(&mut self.0, &Slot { start, end });
        self
    }

    fn stream(mut self, stream: Stream) -> Bytes {
        put_stream(&mut self.0, &stream);
        self
    }

    fn octets(mut self, octets: &[u8]) -> Bytes {
        self.0.extend(octets);
        self
    }
}

/// A stream of middling numbers, to be changed in one or two of them.
fn plain(id: u64) -> Stream {
    Stream { id, priority: 3, octets: 64, period: 1_000_000, jitter: 0, deadline: 1_000_000 }
}

/// All samples, each under its own name.
pub fn all() -> Vec<Sample> {
    let groups = [
        paper::samples(),
        ranges::samples(),
        refusals::samples(),
        lengths::samples(),
        verdicts::samples(),
        large::samples(),
        mixed::samples(),
    ];
    groups.into_iter().flatten().collect()
}
