//! The paper's numbers: records, ranges, wire times and the work that streams bring.

use crate::desk::Open;

/// The longest length anyone may ask about, and the last busy window that is not endless, in ns.
pub const HORIZON: u64 = 100_000_000;
pub const MOST_SLOTS: usize = 32;
pub const MOST_STREAMS: usize = 64;

#[derive(Clone, Copy, Debug, PartialEq, Eq)]
pub struct Port {
    pub rate: u64,
    pub cycle: u64,
    pub guard: u64,
    pub header: u64,
}

/// A slot as entered: from `start` up to, not including, `end`.
#[derive(Clone, Copy, Debug, PartialEq, Eq)]
pub struct Slot {
    pub start: u64,
    pub end: u64,
}

#[derive(Clone, Copy, Debug, PartialEq, Eq)]
pub struct Stream {
    pub id: u64,
    pub priority: u64,
    pub octets: u64,
    pub period: u64,
    pub jitter: u64,
    pub deadline: u64,
}

/// A longest row of blocked cells on the circle. It may go on over the cycle's end.
#[derive(Clone, Copy, Debug, PartialEq, Eq)]
pub struct Run {
    pub start: u64,
    pub length: u64,
}

/// A distance, and the most blocked time that starts within it.
#[derive(Clone, Copy, Debug, PartialEq, Eq, PartialOrd, Ord)]
pub struct Stair {
    pub distance: u64,
    pub total: u64,
}

impl Port {
    pub fn in_range(&self) -> bool {
        (1..=5).contains(&self.rate)
            && (1_000..=100_000_000).contains(&self.cycle)
            && (1..=10_000_000).contains(&self.guard)
            && self.header <= 10_000_000
    }
}

impl Slot {
    pub fn in_range(&self, cycle: u64) -> bool {
        self.start < self.end && self.end <= cycle
    }

    /// Whether two slots as entered share a cell. Slots that touch share none.
    pub fn overlaps(&self, other: &Slot) -> bool {
        self.start < other.end && other.start < self.end
    }
}

impl Stream {
    pub fn in_range(&self) -> bool {
        self.id <= 65_535
            && self.priority <= 7
            && (64..=1_522).contains(&self.octets)
            && (10_000..=100_000_000).contains(&self.period)
            && self.jitter <= 100_000_000
            && (1..=100_000_000).contains(&self.deadline)
    }
}

/// The time a frame of so many octets occupies the wire, rounded up once, at the end.
pub fn wire_time(rate: u64, octets: u64) -> u64 {
    let ten_octets = match rate {
        1 => 8_000,
        2 => 800,
        3 => 80,
        4 => 32,
        5 => 8,
        _ => panic!("{rate} is no rate code"),
    };
    ((octets + 8) * ten_octets).div_ceil(10)
}

/// What of a stream matters to a port: the paper's C, T and J.
#[derive(Clone, Copy, Debug, PartialEq, Eq)]
pub struct Source {
    pub wire: u64,
    pub period: u64,
    pub jitter: u64,
}

impl Source {
    fn of(port: &Port, stream: &Stream) -> Source {
        Source { wire: wire_time(port.rate, stream.octets), period: stream.period, jitter: stream.jitter }
    }

    /// N(x): the most frames in a closed stretch of x ns.
    pub fn frames(&self, x: u64) -> u64 {
        (x + self.jitter) / self.period + 1
    }

    /// The wire time of those frames.
    pub fn work(&self, x: u64) -> u64 {
        self.frames(x) * self.wire
    }

    /// The earliest arrival of frame q, counted from 1: the larger of 0 and (q - 1) T - J.
    pub fn earliest(&self, q: u64) -> u64 {
        ((q - 1) * self.period).saturating_sub(self.jitter)
    }
}

/// All that other streams and its own frames do to one stream.
pub struct Load {
    /// L: the largest wire time of a stream of lower priority, 0 if there is none.
    pub lower: u64,
    pub own: Source,
    /// The other streams of equal or higher priority.
    pub others: Vec<Source>,
}

impl Load {
    pub fn of(plan: &Open, stream: &Stream) -> Load {
        let source = |other: &Stream| Source::of(&plan.port, other);
        let lower = plan.streams.iter().filter(|s| s.priority < stream.priority);
        let others = plan.streams.iter();
        let others = others.filter(|s| s.priority >= stream.priority && s.id != stream.id);
        Load {
            lower: lower.map(|s| source(s).wire).max().unwrap_or(0),
            own: source(stream),
            others: others.map(source).collect(),
        }
    }

    fn others_work(&self, x: u64) -> u64 {
        self.others.iter().map(|other| other.work(x)).sum()
    }

    /// The left side of the busy window's condition, without V(x).
    pub fn in_window(&self, x: u64) -> u64 {
        self.lower + self.own.work(x) + self.others_work(x)
    }

    /// The left side of the condition on the wait of frame q, without V(w + C).
    pub fn before_frame(&self, q: u64, w: u64) -> u64 {
        self.lower + (q - 1) * self.own.wire + self.others_work(w)
    }

    /// The response of frame q that waits w. Its arrival is never later than w, says the paper.
    pub fn response(&self, q: u64, w: u64) -> u64 {
        let arrival = self.own.earliest(q);
        assert!(arrival <= w, "frame {q} starts before it arrives");
        w + self.own.wire - arrival
    }
}
