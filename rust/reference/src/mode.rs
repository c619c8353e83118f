//! The choice between the two ways to every figure.

use crate::desk::Open;
use crate::records::{Port, Run, Slot, Stair, Stream};
use crate::{brute, fast};

/// How figures are found. Both modes give the same answers.
#[derive(Clone, Copy, Debug, PartialEq, Eq)]
pub enum Mode {
    /// Cell by cell and number by number; for small plans.
    Brute,
    Fast,
}

impl Mode {
    /// The blocked runs by rising start, or none if no cell is free.
    pub fn runs(self, port: &Port, slots: &[Slot]) -> Option<Vec<Run>> {
        match self {
            Mode::Brute => brute::runs(port, slots),
            Mode::Fast => fast::runs(port, slots),
        }
    }

    pub fn stairs(self, cycle: u64, runs: &[Run]) -> Vec<Stair> {
        match self {
            Mode::Brute => brute::stairs(cycle, runs),
            Mode::Fast => fast::stairs(cycle, runs),
        }
    }

    /// V of one length, of any size.
    pub fn interference(self, cycle: u64, runs: &[Run], length: u64) -> u64 {
        match self {
            Mode::Brute => brute::interference(cycle, runs, length),
            Mode::Fast => fast::interference(cycle, runs, length),
        }
    }

    /// The stream's busy window, if one closes up to the limit.
    pub fn busy_window(self, plan: &Open, stream: &Stream, limit: u64) -> Option<u64> {
        match self {
            Mode::Brute => brute::busy_window(plan, stream, limit),
            Mode::Fast => fast::busy_window(plan, stream, limit),
        }
    }

    /// The responses of all frames in the stream's busy window, if one closes up to the limit.
    pub fn responses(self, plan: &Open, stream: &Stream, limit: u64) -> Option<Vec<u64>> {
        match self {
            Mode::Brute => brute::responses(plan, stream, limit),
            Mode::Fast => fast::responses(plan, stream, limit),
        }
    }
}
