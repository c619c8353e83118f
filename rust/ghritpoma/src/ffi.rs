//! The border to the proved core: the only `unsafe` of this crate.
//!
//! The structs are those of `crates/face/src/lib.rt` and what they hold (`desk`'s `Desk`, `meaning`'s `Slot`,
//! `Stream` and `Run`), field by field in the same order. They are `#[repr(C)]` on both sides, so both lay them out by
//! C's rule; `layout` below holds the sizes and the offsets that this rule gives. Rattle's `u32`, `u64`, `usize` and
//! `bool` are Rust's. A `&[u8]` is a pointer and a length, each a parameter of its own.
//!
//! Every call is proved for whatever numbers and octets it is handed. All it requires is a fit desk. `bare` and every
//! other call are proved to hand back a fit desk, and nothing else makes one: the fields are private to this module.
use std::fmt;

/// As in `meaning`: `pub struct Slot { start: u32, end: u32 }`.
#[repr(C)]
#[derive(Clone, Copy, Debug, PartialEq, Eq)]
struct Slot {
    start: u32,
    end: u32,
}

/// As in `meaning`: `pub struct Stream`, six `u32`.
#[repr(C)]
#[derive(Clone, Copy, Debug, PartialEq, Eq)]
struct Stream {
    id: u32,
    priority: u32,
    octets: u32,
    period: u32,
    jitter: u32,
    deadline: u32,
}

/// As in `meaning`: `pub struct Run { start: u32, len: u32 }`.
#[repr(C)]
#[derive(Clone, Copy)]
pub struct Run {
    pub start: u32,
    pub len: u32,
}

/// As in `desk`: `pub struct Desk`. Places that hold nothing are 0 in a fit desk, so equal fields are equal desks.
#[repr(C)]
#[derive(Clone, Copy, PartialEq, Eq)]
pub struct Desk {
    opened: bool,
    rate: u32,
    cycle: u32,
    guard: u32,
    header: u32,
    nslots: usize,
    slots: [Slot; 32],
    nstreams: usize,
    streams: [Stream; 64],
    nstairs: usize,
    far: [u32; 993],
    tot: [u32; 993],
}

impl fmt::Debug for Desk {
    fn fmt(&self, f: &mut fmt::Formatter<'_>) -> fmt::Result {
        if !self.opened {
            return f.write_str("Desk (bare)");
        }
        f.debug_struct("Desk")
            .field("rate", &self.rate)
            .field("cycle", &self.cycle)
            .field("guard", &self.guard)
            .field("header", &self.header)
            .field("slots", &&self.slots[..self.nslots])
            .field("streams", &&self.streams[..self.nstreams])
            .field("stairs", &self.nstairs)
            .finish()
    }
}

/// As in `face`: the reply to an edit.
#[repr(C)]
pub struct Edited {
    pub number: u64,
    pub desk: Desk,
}

/// As in `face`: the reply to a question for a figure. A question hands back the desk that it was given.
#[repr(C)]
pub struct Figured {
    pub number: u64,
    pub value: u64,
    desk: Desk,
}

/// As in `face`: the reply to the question for runs.
#[repr(C)]
pub struct RunsTold {
    pub number: u64,
    pub count: u64,
    pub runs: [Run; 32],
    desk: Desk,
}

/// As in `face`: the reply to the question for stairs.
#[repr(C)]
pub struct StairsTold {
    pub number: u64,
    pub count: u64,
    pub far: [u32; 993],
    pub tot: [u32; 993],
    desk: Desk,
}

/// As in `face`: the reply of the reader.
#[repr(C)]
pub struct PlanRead {
    pub number: u64,
    pub place: u64,
    pub desk: Desk,
}

/// As in `face`: the reply of the writer. It hands back the desk that it was given.
#[repr(C)]
pub struct PlanWritten {
    pub number: u64,
    pub count: u64,
    desk: Desk,
}

/// The calls of `crates/face/src`, `#[no_mangle] pub extern "C"` there, with the same parameters in the same order.
mod archive {
    use super::{Desk, Edited, Figured, PlanRead, PlanWritten, RunsTold, StairsTold};

    #[link(name = "face", kind = "static")]
    unsafe extern "C" {
        // what `requires` nothing, numbers alone: safe to call with anything
        pub safe fn desk_bare() -> Desk;
        // what requires a fit desk, which every `Desk` is, and takes numbers beside it
        pub safe fn desk_open_port(d: Desk, rate: u64, cycle: u64, guard: u64, header: u64) -> Edited;
        pub safe fn desk_add_slot(d: Desk, start: u64, end: u64) -> Edited;
        pub safe fn desk_remove_slot(d: Desk, start: u64) -> Edited;
        pub safe fn desk_add_stream(
            d: Desk,
            id: u64,
            priority: u64,
            octets: u64,
            period: u64,
            jitter: u64,
            deadline: u64,
        ) -> Edited;
        pub safe fn desk_remove_stream(d: Desk, id: u64) -> Edited;
        pub safe fn desk_runs(d: Desk) -> RunsTold;
        pub safe fn desk_stairs(d: Desk) -> StairsTold;
        pub safe fn desk_interference(d: Desk, t: u64) -> Figured;
        pub safe fn desk_response(d: Desk, id: u64) -> Figured;
        // what takes a slice: `len` octets from the pointer on, which the call reads, or reads and writes
        pub fn desk_read(plan: *const u8, len: usize) -> PlanRead;
        pub fn desk_write(d: Desk, room: *mut u8, len: usize) -> PlanWritten;
    }
}

pub use archive::{
    desk_add_slot, desk_add_stream, desk_bare, desk_interference, desk_open_port, desk_remove_slot,
    desk_remove_stream, desk_response, desk_runs, desk_stairs,
};

pub fn desk_read(plan: &[u8]) -> PlanRead {
    // SAFETY: pointer and length are one slice's, which is lent to the call while it runs.
    unsafe { archive::desk_read(plan.as_ptr(), plan.len()) }
}

pub fn desk_write(d: Desk, room: &mut [u8]) -> PlanWritten {
    // SAFETY: pointer and length are one slice's, which is lent to the call alone while it runs; the desk is fit.
    unsafe { archive::desk_write(d, room.as_mut_ptr(), room.len()) }
}

/// What C's rule gives for each struct on x86-64, and `c/ghritpoma.h` counts on.
mod layout {
    use super::*;
    use std::mem::{align_of, offset_of, size_of};

    const _: () = assert!(size_of::<usize>() == 8);
    const _: () = assert!(size_of::<Slot>() == 8 && align_of::<Slot>() == 4);
    const _: () = assert!(size_of::<Stream>() == 24 && align_of::<Stream>() == 4);
    const _: () = assert!(size_of::<Run>() == 8 && align_of::<Run>() == 4);
    const _: () = assert!(size_of::<Desk>() == 9_784 && align_of::<Desk>() == 8);
    const _: () = assert!(offset_of!(Desk, opened) == 0 && offset_of!(Desk, rate) == 4);
    const _: () = assert!(offset_of!(Desk, cycle) == 8 && offset_of!(Desk, guard) == 12);
    const _: () = assert!(offset_of!(Desk, header) == 16 && offset_of!(Desk, nslots) == 24);
    const _: () = assert!(offset_of!(Desk, slots) == 32 && offset_of!(Desk, nstreams) == 288);
    const _: () = assert!(offset_of!(Desk, streams) == 296 && offset_of!(Desk, nstairs) == 1_832);
    const _: () = assert!(offset_of!(Desk, far) == 1_840 && offset_of!(Desk, tot) == 5_812);
    const _: () = assert!(offset_of!(Edited, desk) == 8 && size_of::<Edited>() == 9_792);
    const _: () = assert!(offset_of!(Figured, value) == 8 && offset_of!(Figured, desk) == 16);
    const _: () = assert!(offset_of!(RunsTold, runs) == 16 && offset_of!(RunsTold, desk) == 272);
    const _: () = assert!(offset_of!(StairsTold, far) == 16 && offset_of!(StairsTold, tot) == 3_988);
    const _: () = assert!(offset_of!(StairsTold, desk) == 7_960);
    const _: () = assert!(offset_of!(PlanRead, place) == 8 && offset_of!(PlanRead, desk) == 16);
    const _: () = assert!(offset_of!(PlanWritten, count) == 8 && offset_of!(PlanWritten, desk) == 16);
}
