//! Streams in time, late and endless, at the edges between them, worked out by hand.

use super::paper::small_port;
use super::{plain, Bytes, Sample};
use crate::records::Stream;

const NO_SLOTS: &str = "blocked 0 of 100000 in 0";

/// Code 2: 117 octets take 10,000 ns, 242 octets 20,000, 1,522 octets 122,400 and 64 octets 5,760.
fn port() -> Bytes {
    Bytes::empty().port(2, 100_000, 1_000, 500)
}

/// Two of equal priority count each other whole; a lower one adds its frame once; a higher one goes first.
fn priorities() -> Sample {
    let plan = port()
        .stream(Stream { octets: 117, ..plain(1) })
        .stream(Stream { octets: 242, ..plain(2) })
        .stream(Stream { octets: 1_522, priority: 2, ..plain(3) })
        .stream(Stream { octets: 64, priority: 7, ..plain(4) });
    let lines = [
        NO_SLOTS,
        "stream 1 bound 158160 of 1000000",
        "stream 2 bound 158160 of 1000000",
        "stream 3 bound 158160 of 1000000",
        "stream 4 bound 128160 of 1000000",
    ];
    Sample::worked("priorities-equal-lower-higher", plan, &lines)
}

/// At a wait of 30,000 the next frame of stream 1 arrives just then, and counts.
fn closed_stretch() -> Sample {
    let plan = port()
        .stream(Stream { octets: 117, period: 30_000, priority: 7, ..plain(1) })
        .stream(Stream { octets: 117, priority: 0, ..plain(2) })
        .stream(Stream { octets: 242, period: 60_000, priority: 6, ..plain(3) });
    let lines = [
        NO_SLOTS,
        "stream 1 bound 30000 of 1000000",
        "stream 2 bound 50000 of 1000000",
        "stream 3 bound 40000 of 1000000",
    ];
    Sample::worked("arrival-at-the-end-of-the-wait-counts", plan, &lines)
}

/// A window of exactly the horizon: 10,000 frames of 10,000 ns, the largest response in the middle.
fn at_the_horizon(jitter: u64, deadline: u64) -> Bytes {
    port().stream(Stream { octets: 117, period: 20_000, jitter, deadline, ..plain(1) })
}

fn horizon() -> Vec<Sample> {
    let edge = |deadline| at_the_horizon(99_990_000, deadline);
    vec![
        Sample::worked(
            "window-of-the-horizon-bound-is-deadline",
            edge(50_000_000),
            &[NO_SLOTS, "stream 1 bound 50000000 of 50000000"],
        ),
        Sample::worked(
            "window-of-the-horizon-late-by-1",
            edge(49_999_999),
            &[NO_SLOTS, "stream 1 late 50000000 of 49999999"],
        ),
        Sample::worked(
            "window-over-the-horizon-endless",
            at_the_horizon(100_000_000, 100_000_000),
            &[NO_SLOTS, "stream 1 endless"],
        ),
    ]
}

/// A wire that is busy all the time never closes a window, and one frame less does.
fn full_load() -> Vec<Sample> {
    let low = Stream { priority: 0, ..plain(2) };
    let full = Stream { octets: 117, period: 10_000, priority: 7, ..plain(1) };
    let nearly = Stream { period: 10_001, ..full };
    vec![
        Sample::worked(
            "full-load-endless",
            port().stream(full).stream(low),
            &[NO_SLOTS, "stream 1 endless", "stream 2 endless"],
        ),
        Sample::new("nearly-full-load", port().stream(nearly).stream(low)),
        Sample::worked(
            "only-the-lower-one-endless",
            port().stream(Stream { octets: 117, period: 20_000, priority: 7, ..plain(1) }).stream(Stream {
                octets: 117,
                period: 20_000,
                priority: 0,
                ..plain(2)
            }),
            &[NO_SLOTS, "stream 1 bound 20000 of 1000000", "stream 2 endless"],
        ),
    ]
}

/// One free cell in each 1,000: 58 ns of wire take the last cells of 59 cycles.
fn one_free_cell() -> Sample {
    let port = Bytes::empty().port(5, 1_000, 100, 50).slot(0, 849);
    let lines = ["blocked 999 of 1000 in 1", "stair 0 999", "stream 1 bound 58999 of 1000000"];
    Sample::worked("one-free-cell-and-a-stream", port.stream(plain(1)), &lines)
}

/// The same plan, its fields in another order: the findings are those of plan F.
fn orders() -> Vec<Sample> {
    let fields = [(16, 27), (27, 38), (38, 49), (49, 69), (69, 89)];
    let f = super::plan_f().0;
    let shuffled = |order: [usize; 5]| {
        let mut plan = f[..16].to_vec();
        for field in order {
            plan.extend(&f[fields[field].0..fields[field].1]);
        }
        Bytes(plan)
    };
    vec![
        Sample::new("plan-f-backwards", shuffled([4, 3, 2, 1, 0])),
        Sample::new("plan-f-mixed", shuffled([1, 4, 0, 3, 2])),
        Sample::new("plan-f-streams-first", shuffled([3, 4, 2, 0, 1])),
    ]
}

/// Runs of equal lengths at equal distances: equal pairs are one stair.
fn equal_runs() -> Vec<Sample> {
    let even = Bytes::empty().port(3, 1_000, 10, 0).slot(110, 150).slot(610, 650);
    let stairs = ["blocked 100 of 1000 in 2", "stair 0 50", "stair 500 100"];
    let apart = small_port().slot(100, 200).slot(351, 400);
    vec![
        Sample::worked("equal-pairs-are-one-stair", even, &stairs),
        Sample::worked(
            "stretches-one-cell-apart",
            apart,
            &["blocked 449 of 1000 in 2", "stair 0 250", "stair 251 449"],
        ),
        Sample::worked(
            "stretches-overlap-by-one-cell",
            small_port().slot(100, 200).slot(349, 400),
            &["blocked 450 of 1000 in 1", "stair 0 450"],
        ),
        Sample::worked(
            "run-ends-at-the-cycles-end",
            small_port().slot(800, 950),
            &["blocked 300 of 1000 in 1", "stair 0 300"],
        ),
        Sample::worked(
            "runs-touch-at-the-cycles-end",
            small_port().slot(800, 950).slot(100, 200),
            &["blocked 550 of 1000 in 1", "stair 0 550"],
        ),
        Sample::worked(
            "header-crosses-the-cycles-end",
            small_port().slot(700, 1_000),
            &["blocked 450 of 1000 in 1", "stair 0 450"],
        ),
    ]
}

pub fn samples() -> Vec<Sample> {
    let singles = vec![priorities(), closed_stretch(), one_free_cell()];
    let groups = [singles, horizon(), full_load(), orders(), equal_runs()];
    groups.into_iter().flatten().collect()
}
