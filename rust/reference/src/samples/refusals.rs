//! Every refusal a reader can give, mostly at a later field, and the order among them.

use super::paper::{plan_f, small_port};
use super::{plain, Bytes, Sample};
use crate::records::Stream;

/// Where plan F ends.
const END_F: usize = 89;

fn after_f(name: &str, octets: &[u8], number: u64) -> Sample {
    let name = format!("refusal-{number:02}-{name}");
    Sample::refused(&name, plan_f().octets(octets), number, END_F)
}

/// 1, 2 and 3 behind plan F.
fn fields() -> Vec<Sample> {
    let long = |head: [u8; 3]| [&head[..], &[0; 40]].concat();
    vec![
        after_f("one-octet-left", &[3], 1),
        after_f("two-octets-left", &[2, 0], 1),
        after_f("one-octet-left-of-unknown-tag", &[9], 1),
        after_f("two-octets-left-of-wrong-length", &[2, 9], 1),
        after_f("slot-without-value", &[2, 0, 8], 1),
        after_f("slot-short-of-one-octet", &[2, 0, 8, 0, 0, 0, 0, 0, 0, 0], 1),
        after_f("second-port-cut", &[1, 0, 13, 2, 0], 1),
        after_f("stream-cut", &[3, 0, 17, 0, 1, 9], 1),
        after_f("tag-0", &long([0, 0, 8]), 2),
        after_f("tag-4", &long([4, 0, 17]), 2),
        after_f("tag-255-nothing-more", &[255, 255, 255], 2),
        after_f("slot-length-7", &long([2, 0, 7]), 3),
        after_f("slot-length-9", &long([2, 0, 9]), 3),
        after_f("slot-length-high-octet", &long([2, 1, 8]), 3),
        after_f("slot-length-of-stream", &long([2, 0, 17]), 3),
        after_f("stream-length-16", &long([3, 0, 16]), 3),
        after_f("stream-length-over-the-input", &[3, 255, 255], 3),
        after_f("second-port-length-12", &long([1, 0, 12]), 3),
    ]
}

/// Plan F cut after each octet: 1 at the field that was cut, unless a field ends there.
fn cuts() -> Vec<Sample> {
    let fields = [0, 16, 27, 38, 49, 69];
    let whole = plan_f().0;
    let cut = |length: usize| {
        let plan = Bytes(whole[..length].to_vec());
        if fields.contains(&length) {
            return Sample::new(&format!("plan-f-first-{length:02}-octets-whole-fields"), plan);
        }
        let place = fields.into_iter().filter(|&field| field < length).max();
        let name = format!("refusal-01-plan-f-first-{length:02}-octets");
        Sample::refused(&name, plan, 1, place.unwrap_or(0))
    };
    (1..END_F).map(cut).collect()
}

/// 4: a plan that does not begin with PORT, or has it twice.
fn states() -> Vec<Sample> {
    let good = plan_f().port(2, 100_000, 1_000, 500);
    let bad = plan_f().port(9, 0, 0, 0);
    let twice = small_port().port(2, 1_000, 100, 50).octets(&[9, 9, 9]);
    let slot = Bytes::empty().slot(10, 20).port(2, 100_000, 1_000, 500);
    let bad_slot = Bytes::empty().slot(20, 10);
    vec![
        Sample::refused("refusal-04-second-port", good, 4, END_F),
        Sample::refused("refusal-04-second-port-of-bad-numbers", bad, 4, END_F),
        Sample::refused("refusal-04-two-ports-then-unknown-tag", twice, 4, 16),
        Sample::refused("refusal-04-slot-first", slot, 4, 0),
        Sample::refused("refusal-04-slot-first-of-bad-numbers", bad_slot, 4, 0),
        Sample::refused("refusal-04-stream-first", Bytes::empty().stream(plain(1)), 4, 0),
        Sample::refused("refusal-02-unknown-tag-first", Bytes::empty().octets(&[4, 0, 0]), 2, 0),
        Sample::refused("refusal-03-port-length-first", Bytes::empty().octets(&[1, 0, 14]), 3, 0),
        Sample::refused("refusal-01-slot-first-cut", Bytes::empty().octets(&[2, 0, 8, 0]), 1, 0),
    ]
}

/// 5 and 8 behind plan F, and the first of several bad fields.
fn numbers() -> Vec<Sample> {
    let priority = Stream { priority: 8, ..plain(9) };
    let held_and_bad = Stream { octets: 63, ..plain(1) };
    let first = plan_f().stream(plain(2)).slot(5, 5).octets(&[9]);
    let second = plan_f().slot(5, 5).stream(plain(2));
    vec![
        Sample::refused("refusal-05-slot-behind-f", plan_f().slot(90_000, 100_001), 5, END_F),
        Sample::refused("refusal-05-stream-behind-f", plan_f().stream(priority), 5, END_F),
        Sample::refused("refusal-05-before-08", plan_f().stream(held_and_bad), 5, END_F),
        Sample::refused("refusal-08-id-held", plan_f().stream(plain(1)), 8, END_F),
        Sample::refused("refusal-08-first-of-three-bad-fields", first, 8, END_F),
        Sample::refused("refusal-05-first-of-two-bad-fields", second, 5, END_F),
    ]
}

/// 6: plan F holds 30,000..32,500. Touching slots are let in.
fn overlaps() -> Vec<Sample> {
    let rows = [
        ("same", 30_000, 32_500),
        ("inside", 31_000, 31_001),
        ("around", 29_000, 33_000),
        ("one-cell-before", 29_000, 30_001),
        ("one-cell-behind", 32_499, 33_000),
        ("same-start", 30_000, 40_000),
        ("same-end", 20_000, 32_500),
        ("three-slots", 10_000, 68_500),
        ("whole-cycle-before-10", 0, 100_000),
    ];
    let overlap = |(name, start, end)| {
        let name = format!("refusal-06-{name}");
        Sample::refused(&name, plan_f().slot(start, end), 6, END_F)
    };
    let mut samples: Vec<Sample> = rows.map(overlap).into_iter().collect();
    let touching = plan_f().slot(29_000, 30_000).slot(32_500, 33_000);
    samples.push(Sample::new("slots-touch-on-both-sides", touching));
    samples
}

/// A port with 32 slots, from 0 to 320 in steps of 10.
fn full_of_slots() -> Bytes {
    let port = Bytes::empty().port(2, 10_000, 1, 0);
    (0..32).fold(port, |plan, k| plan.slot(k * 10, k * 10 + 5))
}

/// A port with 64 streams, of ids 0 to 63.
fn full_of_streams() -> Bytes {
    let port = Bytes::empty().port(2, 10_000, 1, 0);
    (0..64).fold(port, |plan, id| plan.stream(plain(id)))
}

/// 7 comes after 5, and before 6, 8 and 10.
fn full() -> Vec<Sample> {
    let (slots, streams) = (16 + 32 * 11, 16 + 64 * 20);
    let slot = |name, start, end, number| Sample::refused(name, full_of_slots().slot(start, end), number, slots);
    let bad = Stream { deadline: 0, ..plain(99) };
    let crossed = full_of_slots().stream(plain(1)).slot(9_000, 9_001);
    let other = full_of_streams().slot(10, 20).stream(plain(64));
    vec![
        slot("refusal-07-slot-33", 9_000, 9_001, 7),
        slot("refusal-07-slot-33-overlaps", 0, 5, 7),
        slot("refusal-07-slot-33-would-fill-the-cycle", 315, 10_000, 7),
        slot("refusal-05-slot-33-of-bad-numbers", 9_000, 9_000, 5),
        Sample::refused("refusal-07-stream-65", full_of_streams().stream(plain(64)), 7, streams),
        Sample::refused("refusal-07-stream-65-held", full_of_streams().stream(plain(0)), 7, streams),
        Sample::refused("refusal-05-stream-65-of-bad-numbers", full_of_streams().stream(bad), 5, streams),
        Sample::refused("refusal-07-slot-33-behind-a-stream", crossed, 7, slots + 20),
        Sample::refused("refusal-07-stream-65-behind-a-slot", other, 7, streams + 11),
        Sample::new("slots-32-and-no-streams", full_of_slots()),
        Sample::new("streams-64-and-no-slots", full_of_streams()),
        Sample::new("streams-64-then-a-slot", full_of_streams().slot(10, 20)),
    ]
}

/// 10: the guard is 100 and the header 50, on a cycle of 1,000.
fn no_free_cell() -> Vec<Sample> {
    let huge_guard = Bytes::empty().port(2, 1_000, 10_000_000, 0);
    let huge_header = Bytes::empty().port(2, 1_000, 1, 10_000_000);
    let guard_fills = Bytes::empty().port(2, 1_000, 999, 0);
    let guard_998 = Bytes::empty().port(2, 1_000, 998, 0).slot(10, 11);
    let two = small_port().slot(0, 100).stream(plain(1));
    let three = small_port().slot(0, 100).slot(250, 500);
    let cases = [
        ("whole-cycle", small_port().slot(0, 1_000), 16),
        ("last-gap-filled", two.clone().slot(250, 850), 47),
        ("touching-slot-fills", two.clone().slot(100, 850), 47),
        ("third-slot-fills-with-its-guard", three.clone().slot(650, 850), 38),
        ("guard-of-many-cycles", huge_guard.slot(10, 11), 16),
        ("header-of-many-cycles", huge_header.slot(10, 11), 16),
        ("guard-and-one-cell-fill", guard_fills.slot(10, 11), 16),
    ];
    let refused = |(name, plan, place)| {
        let name = format!("refusal-10-{name}");
        Sample::refused(&name, plan, 10, place)
    };
    let mut samples: Vec<Sample> = cases.map(refused).into_iter().collect();
    let one_free = ["blocked 999 of 1000 in 1", "stair 0 999"];
    samples.push(Sample::worked("one-free-cell-under-a-long-guard", guard_998, &one_free));
    let three = three.slot(650, 849);
    samples.push(Sample::worked("one-free-cell-of-three-slots", three, &one_free));
    samples
}

pub fn samples() -> Vec<Sample> {
    let groups = [fields(), cuts(), states(), numbers(), overlaps(), full(), no_free_cell()];
    groups.into_iter().flatten().collect()
}
