//! Document 01's records. All times are whole nanoseconds.

/// The numbers of an output port.
#[derive(Clone, Copy, Debug, PartialEq, Eq)]
pub struct Port {
    /// 1 to 5: 10 Mbit/s, 100 Mbit/s, 1 Gbit/s, 2.5 Gbit/s, 10 Gbit/s.
    pub rate: u64,
    /// 1,000 to 100,000,000.
    pub cycle: u64,
    /// 1 to 10,000,000.
    pub guard: u64,
    /// 0 to 10,000,000.
    pub header: u64,
}

/// An unscheduled stream.
#[derive(Clone, Copy, Debug, PartialEq, Eq)]
pub struct Stream {
    /// 0 to 65,535.
    pub id: u64,
    /// 0 to 7, 7 highest.
    pub priority: u64,
    /// 64 to 1,522.
    pub octets: u64,
    /// 10,000 to 100,000,000.
    pub period: u64,
    /// 0 to 100,000,000.
    pub jitter: u64,
    /// 1 to 100,000,000, counted from arrival at the port.
    pub deadline: u64,
}

/// A blocked run: the cell it starts at, and how many cells it has, across the cycle's end where it goes on there.
#[derive(Clone, Copy, Debug, PartialEq, Eq)]
pub struct Run {
    pub start: u64,
    pub length: u64,
}

/// A stair: from this distance on, interference is at least this total.
#[derive(Clone, Copy, Debug, PartialEq, Eq)]
pub struct Stair {
    pub distance: u64,
    pub total: u64,
}
