//! Plans as octets: what is written is read back, whatever the order of entry; and the samples.

mod common;

use common::*;
use reference::{brute, fast, findings, read, samples, Desk, Mode};
use std::collections::HashSet;

fn written(desk: &Desk) -> Vec<u8> {
    let mut room = vec![0; 1_648];
    let length = asked(desk, |desk| desk.write(&mut room)).unwrap();
    room.truncate(length);
    room
}

/// A desk of up to 32 slots and 64 streams.
fn random_desk(dice: &mut Dice) -> Desk {
    let mut desk = opened(port(dice.from(1, 5), dice.from(1_000, 100_000), dice.from(1, 9), 0));
    for _ in 0..dice.from(0, 40) {
        let cycle = holding(&desk).port.cycle;
        let start = dice.from(0, cycle - 10);
        let end = start + dice.from(1, 10);
        desk = desk.add_slot(Mode::Fast, slot(start, end)).0;
    }
    for _ in 0..dice.from(0, 80) {
        let id = dice.from(0, 65_535);
        let stream = random_stream(dice, id);
        desk = desk.add_stream(stream).0;
    }
    desk
}

/// The fields of a written plan, PORT first.
fn fields(plan: &[u8]) -> Vec<&[u8]> {
    let mut fields = Vec::new();
    let mut rest = plan;
    while !rest.is_empty() {
        let (field, more) = rest.split_at(3 + usize::from(rest[2]));
        fields.push(field);
        rest = more;
    }
    fields
}

#[test]
fn read_what_was_written() {
    for seed in 0..1_000 {
        let mut dice = Dice::new(4_000_000 + seed);
        let desk = random_desk(&mut dice);
        let plan = written(&desk);
        let open = holding(&desk);
        assert_eq!(plan.len(), 16 + 11 * open.slots.len() + 20 * open.streams.len());
        assert_eq!(read(Mode::Fast, &plan), (desk, Ok(())));
    }
}

#[test]
fn order_of_fields_does_not_show() {
    for seed in 0..1_000 {
        let mut dice = Dice::new(5_000_000 + seed);
        let desk = random_desk(&mut dice);
        let plan = written(&desk);
        let mut fields = fields(&plan);
        dice.shuffle(&mut fields[1..]);
        let (other, answer) = read(Mode::Fast, &fields.concat());
        assert_eq!(answer, Ok(()));
        assert_eq!(other, desk);
        assert_eq!(written(&other), plan);
    }
}

/// Adding and taking away again leaves the same desk.
#[test]
fn removal_does_not_show() {
    for seed in 0..500 {
        let mut dice = Dice::new(6_000_000 + seed);
        let desk = random_desk(&mut dice);
        let open = holding(&desk).clone();
        let mut other = desk.clone();
        for slot in open.slots.iter().filter(|slot| slot.start % 3 == 0) {
            other = accepted(other.remove_slot(slot.start));
        }
        for stream in open.streams.iter().filter(|stream| stream.id % 2 == 0) {
            other = accepted(other.remove_stream(stream.id));
        }
        for slot in open.slots.iter().rev().filter(|slot| slot.start % 3 == 0) {
            other = accepted(other.add_slot(Mode::Fast, *slot));
        }
        for stream in open.streams.iter().rev().filter(|stream| stream.id % 2 == 0) {
            other = accepted(other.add_stream(*stream));
        }
        assert_eq!(other, desk);
    }
}

#[test]
fn every_single_octet_may_be_anything() {
    let plan = samples::plan_f().0;
    for place in 0..plan.len() {
        for octet in 0..=255 {
            let mut plan = plan.clone();
            plan[place] = octet;
            let (desk, answer) = read(Mode::Fast, &plan);
            assert_eq!(desk == Desk::Bare, answer.is_err());
            if answer.is_ok() {
                assert_eq!(read(Mode::Fast, &written(&desk)).0, desk);
            }
        }
    }
}

#[test]
fn samples_have_the_findings_worked_out_by_hand() {
    let mut names = HashSet::new();
    for sample in samples::all() {
        let text = findings(Mode::Fast, &sample.plan);
        if let Some(expected) = sample.expected {
            assert_eq!(text, expected, "{}", sample.name);
        }
        assert_eq!(sample.name.ends_with("-in"), sample.name.contains("range") && text.contains("blocked"));
        assert!(names.insert(sample.name));
    }
}

/// Brute against fast on every sample whose cycle is short enough, with windows up to a limit.
#[test]
fn samples_agree_in_both_modes() {
    for sample in samples::all() {
        let (desk, answer) = read(Mode::Fast, &sample.plan);
        if answer.is_err() {
            continue;
        }
        let plan = holding(&desk);
        if plan.port.cycle > 1_000_000 || plan.port.guard > 1_000_000 {
            continue;
        }
        let runs = plan.runs(Mode::Brute);
        assert_eq!(runs, plan.runs(Mode::Fast), "{}", sample.name);
        let stairs = fast::stairs(plan.port.cycle, &runs);
        assert_eq!(brute::stairs(plan.port.cycle, &runs), stairs, "{}", sample.name);
        for stream in plan.streams.iter().step_by(7) {
            let slow = brute::responses(plan, stream, 200_000);
            assert_eq!(slow, fast::responses(plan, stream, 200_000), "{}", sample.name);
        }
    }
}

#[test]
fn large_samples_have_all_verdicts() {
    for rate in 1..=5 {
        let name = format!("large-at-rate-code-{rate}");
        let sample = samples::all().into_iter().find(|sample| sample.name == name).unwrap();
        let text = findings(Mode::Fast, &sample.plan);
        for verdict in [" bound ", " late ", " endless\n"] {
            assert!(text.contains(verdict));
        }
        let desk = read(Mode::Fast, &sample.plan).0;
        let plan = holding(&desk);
        let runs = plan.runs(Mode::Fast);
        assert_eq!((plan.slots.len(), plan.streams.len()), (32, 64));
        assert!(runs.len() > 10 && runs.len() < 32);
        let last = runs.last().unwrap();
        assert!(last.start + last.length > plan.port.cycle);
    }
}
