//! Processor time, so that other work on the machine counts little.
//!
//! The only `unsafe` of the timings. The structs are those of Linux on x86-64, field by field, and each call fills the
//! one that it is lent and keeps no pointer to it.
#![allow(unsafe_code)]
use std::time::Duration;

/// `struct timespec`.
#[repr(C)]
struct Timespec {
    seconds: i64,
    nanoseconds: i64,
}

/// `struct rusage`: time in user mode and in the kernel as seconds and microseconds, and fourteen counts.
#[repr(C)]
struct Usage {
    user: [i64; 2],
    kernel: [i64; 2],
    counts: [i64; 14],
}

const THIS_THREAD: i32 = 3;
const CHILDREN: i32 = -1;

unsafe extern "C" {
    fn clock_gettime(clock: i32, t: *mut Timespec) -> i32;
    fn getrusage(who: i32, usage: *mut Usage) -> i32;
}

/// Processor time that this thread has used.
pub fn thread() -> Duration {
    let mut t = Timespec { seconds: 0, nanoseconds: 0 };
    // SAFETY: `t` is a timespec of this function's own.
    let failed = unsafe { clock_gettime(THIS_THREAD, &mut t) };
    assert_eq!(failed, 0, "no clock for the thread's processor time");
    Duration::new(t.seconds as u64, t.nanoseconds as u32)
}

/// Processor time that all child processes waited for have used.
pub fn children() -> Duration {
    let mut usage = Usage { user: [0; 2], kernel: [0; 2], counts: [0; 14] };
    // SAFETY: `usage` is a rusage of this function's own.
    let failed = unsafe { getrusage(CHILDREN, &mut usage) };
    assert_eq!(failed, 0, "no processor time of child processes");
    let time = |[s, us]: [i64; 2]| Duration::from_micros((s * 1_000_000 + us) as u64);
    time(usage.user) + time(usage.kernel)
}
