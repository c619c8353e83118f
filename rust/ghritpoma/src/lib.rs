//! The desk for one output port of a switch (document 01): gate plan, streams, interference and response bounds.
//!
//! Every figure and every refusal comes from the proved core, `crates/face` and what lies below it, which is proved to
//! answer what document 01 defines. This crate only turns its numbers into Rust's types; it is not proved itself.
//!
//! Build the core first: `tools/staticlib face` at the project's root writes `target/staticlib/libface.a` (x86-64), which
//! `build.rs` links.
//!
//! Plan F of document 01:
//!
//! ```
//! use ghritpoma::{Desk, Port, Refusal, Run, Stair, Stream};
//!
//! let mut desk = Desk::bare();
//! desk.open_port(Port { rate: 2, cycle: 100_000, guard: 1_000, header: 500 })?;
//! desk.add_slot(10_000, 14_000)?;
//! desk.add_slot(30_000, 32_500)?;
//! desk.add_slot(60_000, 68_500)?;
//! desk.add_stream(Stream { id: 1, priority: 6, octets: 117, period: 200_000, jitter: 0, deadline: 50_000 })?;
//! desk.add_stream(Stream { id: 2, priority: 3, octets: 242, period: 400_000, jitter: 0, deadline: 40_000 })?;
//!
//! assert_eq!(desk.runs()?[0], Run { start: 9_000, length: 5_500 });
//! assert_eq!(desk.stairs()?[1], Stair { distance: 30_000, total: 14_000 });
//! assert_eq!(desk.interference(130_000)?, 33_500);
//! assert_eq!(desk.response(1)?, 44_000);
//! assert_eq!(desk.response(2), Err(Refusal::Late { bound: 44_000 }));
//!
//! // an edit that is refused leaves the desk as it was
//! let before = desk.clone();
//! let refused = desk.add_slot(11_000, 12_000).unwrap_err();
//! assert_eq!((refused.number(), refused.to_string()), (6, "the slot overlaps one held".to_string()));
//! assert_eq!(desk, before);
//!
//! // what is written is read back
//! let mut room = [0; 1_648];
//! let count = desk.write(&mut room)?;
//! assert_eq!(count, 16 + 11 * 3 + 20 * 2);
//! assert_eq!(Desk::read(&room[..count])?, desk);
//! # Ok::<(), Box<dyn std::error::Error>>(())
//! ```
#![deny(unsafe_code)]

#[allow(unsafe_code)]
mod ffi;
mod records;
mod refusal;

pub use records::{Port, Run, Stair, Stream};
pub use refusal::{Refusal, RefusedPlan};

use std::fmt;

/// The most octets that a plan can have: room that [`Desk::write`] never finds too short.
pub const MOST_OCTETS: usize = 1_648;

/// A desk, bare or with its port open. Two desks are equal where document 01 calls them the same: the order of entry
/// and places freed by removal don't show.
///
/// A desk comes from [`Desk::bare`] or [`Desk::read`] and is changed by its edits alone. An edit that is refused
/// leaves it as it was.
#[derive(Clone, PartialEq, Eq)]
pub struct Desk(ffi::Desk);

impl fmt::Debug for Desk {
    fn fmt(&self, f: &mut fmt::Formatter<'_>) -> fmt::Result {
        self.0.fmt(f)
    }
}

/// The answer that a number and a value stand for: accepted at 0.
fn answered<T>(number: u64, bound: u64, value: T) -> Result<T, Refusal> {
    match Refusal::told(number, bound) {
        None => Ok(value),
        Some(refusal) => Err(refusal),
    }
}

impl Desk {
    /// The desk with no port.
    pub fn bare() -> Desk {
        Desk(ffi::desk_bare())
    }

    /// The desk that an edit hands back, which is the unchanged one where it is refused.
    fn take(&mut self, reply: ffi::Edited) -> Result<(), Refusal> {
        self.0 = reply.desk;
        answered(reply.number, 0, ())
    }

    /// Opens the port of a bare desk. Refused: 4, 5.
    pub fn open_port(&mut self, port: Port) -> Result<(), Refusal> {
        self.take(ffi::desk_open_port(self.0, port.rate, port.cycle, port.guard, port.header))
    }

    /// Adds the slot from `start` up to, not including, `end`. Refused: 4, 5, 7, 6, 10.
    pub fn add_slot(&mut self, start: u64, end: u64) -> Result<(), Refusal> {
        self.take(ffi::desk_add_slot(self.0, start, end))
    }

    /// Removes the slot that has this start. Refused: 4, 9.
    pub fn remove_slot(&mut self, start: u64) -> Result<(), Refusal> {
        self.take(ffi::desk_remove_slot(self.0, start))
    }

    /// Adds a stream. Refused: 4, 5, 7, 8.
    pub fn add_stream(&mut self, j: Stream) -> Result<(), Refusal> {
        self.take(ffi::desk_add_stream(self.0, j.id, j.priority, j.octets, j.period, j.jitter, j.deadline))
    }

    /// Removes the stream that has this id. Refused: 4, 9.
    pub fn remove_stream(&mut self, id: u64) -> Result<(), Refusal> {
        self.take(ffi::desk_remove_stream(self.0, id))
    }

    /// The blocked runs, by rising start. Refused: 4.
    pub fn runs(&self) -> Result<Vec<Run>, Refusal> {
        let told = ffi::desk_runs(self.0);
        let runs = &told.runs[..told.count as usize];
        let runs = runs.iter().map(|r| Run { start: r.start.into(), length: r.len.into() });
        answered(told.number, 0, runs.collect())
    }

    /// The stairs, by rising distance. Refused: 4.
    pub fn stairs(&self) -> Result<Vec<Stair>, Refusal> {
        let told = ffi::desk_stairs(self.0);
        let pairs = told.far.iter().zip(&told.tot).take(told.count as usize);
        let stairs = pairs.map(|(&far, &tot)| Stair { distance: far.into(), total: tot.into() });
        answered(told.number, 0, stairs.collect())
    }

    /// Interference V(t): the most that blocked runs can take of a stretch of `t` ns. Refused: 4, 14.
    pub fn interference(&self, t: u64) -> Result<u64, Refusal> {
        let told = ffi::desk_interference(self.0, t);
        answered(told.number, told.value, told.value)
    }

    /// The response bound of the stream with this id. Refused: 4, 9, 12, and 13 with the bound.
    pub fn response(&self, id: u64) -> Result<u64, Refusal> {
        let told = ffi::desk_response(self.0, id);
        answered(told.number, told.value, told.value)
    }

    /// The desk of a plan. Refused: 1 to 8 and 10; the first refused field decides.
    pub fn read(plan: &[u8]) -> Result<Desk, RefusedPlan> {
        let told = ffi::desk_read(plan);
        match Refusal::told(told.number, 0) {
            None => Ok(Desk(told.desk)),
            Some(refusal) => Err(RefusedPlan { refusal, place: told.place as usize }),
        }
    }

    /// Writes the desk's plan at the front of `room` and answers how many octets it wrote. The octets after these keep
    /// their value, and all of them where the call is refused. Refused: 4, 11.
    pub fn write(&self, room: &mut [u8]) -> Result<usize, Refusal> {
        let told = ffi::desk_write(self.0, room);
        answered(told.number, 0, told.count as usize)
    }
}
