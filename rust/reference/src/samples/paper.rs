//! The paper's own plans, and document 000's Table I.

use super::{plain, Bytes, Sample};
use crate::records::Stream;

/// Plan F of the findings program.
pub fn plan_f() -> Bytes {
    let first = Stream { id: 1, priority: 6, octets: 117, period: 200_000, jitter: 0, deadline: 50_000 };
    let second = Stream { id: 2, priority: 3, octets: 242, period: 400_000, jitter: 0, deadline: 40_000 };
    let port = Bytes::empty().port(2, 100_000, 1_000, 500);
    let slots = port.slot(10_000, 14_000).slot(30_000, 32_500).slot(60_000, 68_500);
    slots.stream(first).stream(second)
}

const FINDINGS_F: [&str; 6] = [
    "blocked 19500 of 100000 in 3",
    "stair 0 10000",
    "stair 30000 14000",
    "stair 50000 19500",
    "stream 1 bound 44000 of 50000",
    "stream 2 late 44000 of 40000",
];

/// P4's port.
pub fn small_port() -> Bytes {
    Bytes::empty().port(3, 1_000, 100, 50)
}

fn window_of_many_frames() -> Bytes {
    let stream = Stream { octets: 117, period: 20_000, jitter: 30_000, ..plain(1) };
    Bytes::empty().port(2, 100_000, 1_000, 500).stream(stream)
}

fn endless() -> Bytes {
    let stream = Stream { octets: 1_242, period: 10_000, ..plain(7) };
    Bytes::empty().port(3, 100_000, 1_000, 500).stream(stream)
}

/// Table I: a cycle of 20 units, interference slots at 3, 7 and 14 of 3, 2 and 4 units. Here a unit is `unit` ns.
/// An interference slot is a slot with its guard before and its header after it. The guard is never 0, so it is 1
/// and each slot starts 1 ns later; the header is 0. The runs are then exactly the table's.
fn table_one(unit: u64) -> Bytes {
    let port = Bytes::empty().port(2, 20 * unit, 1, 0);
    let slot = |plan: Bytes, start: u64, length: u64| plan.slot(start * unit + 1, (start + length) * unit);
    slot(slot(slot(port, 3, 3), 7, 2), 14, 4)
}

/// The list that document 000 gives for its table, in units.
fn table_one_findings(unit: u64) -> Vec<String> {
    let list = [(0, 4), (4, 5), (7, 6), (9, 7), (11, 9)];
    let stair = |(d, f)| format!("stair {} {}", d * unit, f * unit);
    let blocked = format!("blocked {} of {} in 3", 9 * unit, 20 * unit);
    std::iter::once(blocked).chain(list.map(stair)).collect()
}

fn table_one_sample(unit: u64) -> Sample {
    let lines = table_one_findings(unit);
    let lines: Vec<&str> = lines.iter().map(String::as_str).collect();
    let name = format!("document-000-table-1-unit-{unit}");
    Sample::worked(&name, table_one(unit), &lines)
}

pub fn samples() -> Vec<Sample> {
    let p5 = small_port().slot(0, 100).slot(250, 400);
    vec![
        Sample::worked("plan-f", plan_f(), &FINDINGS_F),
        Sample::worked(
            "p4-one-run-across-the-end",
            small_port().slot(0, 100),
            &["blocked 250 of 1000 in 1", "stair 0 250"],
        ),
        Sample::worked("p5-stretches-touch", p5, &["blocked 550 of 1000 in 1", "stair 0 550"]),
        Sample::refused("p6-no-free-cell", small_port().slot(0, 850), 10, 16),
        Sample::worked("p6-one-free-cell", small_port().slot(0, 849), &["blocked 999 of 1000 in 1", "stair 0 999"]),
        Sample::worked("no-slots-no-streams", small_port(), &["blocked 0 of 1000 in 0"]),
        Sample::worked(
            "p8-window-of-four-frames",
            window_of_many_frames(),
            &["blocked 0 of 100000 in 0", "stream 1 bound 20000 of 1000000"],
        ),
        Sample::worked("p9-endless", endless(), &["blocked 0 of 100000 in 0", "stream 7 endless"]),
        Sample::refused("empty", Bytes::empty(), 4, 0),
        Sample::refused("lone-octet-01", Bytes::empty().octets(&[1]), 1, 0),
        table_one_sample(1_000),
        table_one_sample(50),
    ]
}
