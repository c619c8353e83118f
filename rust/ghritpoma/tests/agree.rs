//! The proved core, through this library, against the model of document 01 that shares nothing with it.
use ghritpoma::{Desk, Port, Refusal, Run, Stair, Stream, MOST_OCTETS};
use reference::{samples, Dice, Mode};

const FAST: Mode = Mode::Fast;

/// The number of an answer and the bound that it carries; the same for both.
fn model(refusal: reference::Refusal) -> (u64, u64) {
    match refusal {
        reference::Refusal::Late(bound) => (13, bound),
        other => (other.number(), 0),
    }
}

fn core(refusal: Refusal) -> (u64, u64) {
    match refusal {
        Refusal::Late { bound } => (13, bound),
        other => (other.number(), 0),
    }
}

/// Everything that can be asked of both desks, which are meant to be the same.
fn agree(desk: &Desk, other: &reference::Desk, lengths: &[u64], ids: &[u64]) {
    let runs = other.clone().runs(FAST).1.map_err(model);
    let runs = runs.map(|rs| rs.iter().map(|r| Run { start: r.start, length: r.length }).collect::<Vec<_>>());
    assert_eq!(desk.runs().map_err(core), runs);
    let stairs = other.clone().stairs(FAST).1.map_err(model);
    let stairs =
        stairs.map(|ss| ss.iter().map(|s| Stair { distance: s.distance, total: s.total }).collect::<Vec<_>>());
    assert_eq!(desk.stairs().map_err(core), stairs);
    for &t in lengths {
        let answer = other.clone().interference(FAST, t).1.map_err(model);
        assert_eq!(desk.interference(t).map_err(core), answer);
    }
    for &id in ids {
        let answer = other.clone().response(FAST, id).1.map_err(model);
        assert_eq!(desk.response(id).map_err(core), answer);
    }
    let (mut room, mut other_room) = ([0xEE; MOST_OCTETS], [0xEE; MOST_OCTETS]);
    let answer = other.clone().write(&mut other_room).1.map_err(model);
    assert_eq!(desk.write(&mut room).map_err(core), answer);
    assert_eq!(room, other_room);
}

#[test]
fn sample_plans() {
    for sample in samples::all() {
        let (other, answer) = reference::read(FAST, &sample.plan);
        match (Desk::read(&sample.plan), answer) {
            (Ok(desk), Ok(())) => {
                let ids: Vec<u64> = match &other {
                    reference::Desk::Open(open) => open.streams.iter().map(|j| j.id).collect(),
                    reference::Desk::Bare => panic!("{}: a bare desk was read", sample.name),
                };
                agree(&desk, &other, &[0, 29_999, 30_000, 100_000_000, 100_000_001], &ids);
            }
            (Err(refused), Err((refusal, place))) => {
                assert_eq!((core(refused.refusal), refused.place), (model(refusal), place), "{}", sample.name);
            }
            (read, answer) => panic!("{}: {read:?} and {answer:?}", sample.name),
        }
    }
}

/// A stream of few ids, now and then outside its ranges.
fn some_stream(dice: &mut Dice) -> Stream {
    Stream {
        id: dice.from(0, 5),
        priority: dice.from(0, 8),
        octets: dice.one_of(&[63, 64, 64, 117, 242, 1_242, 1_522]),
        period: dice.one_of(&[9_999, 10_000, 25_000, 60_000]),
        jitter: dice.one_of(&[0, 0, 20_000, 59_999, 100_000_001]),
        deadline: dice.one_of(&[0, 1, 5_000, 100_000_000]),
    }
}

/// One edit of both desks, the same for both.
fn edit(dice: &mut Dice, desk: &mut Desk, other: reference::Desk) -> reference::Desk {
    let (answer, (other, expected)) = match dice.from(0, 9) {
        0 => {
            let (rate, cycle) = (dice.from(2, 6), dice.one_of(&[999, 1_000, 3_000]));
            let (guard, header) = (dice.from(0, 60), dice.from(0, 60));
            let port = Port { rate, cycle, guard, header };
            (desk.open_port(port), other.open_port(reference::Port { rate, cycle, guard, header }))
        }
        1..=4 => {
            let start = dice.from(0, 1_000);
            let end = start + dice.from(0, 120);
            (desk.add_slot(start, end), other.add_slot(FAST, reference::Slot { start, end }))
        }
        5 => {
            let start = dice.from(0, 1_000);
            (desk.remove_slot(start), other.remove_slot(start))
        }
        6..=8 => {
            let j = some_stream(dice);
            let Stream { id, priority, octets, period, jitter, deadline } = j;
            let same = reference::Stream { id, priority, octets, period, jitter, deadline };
            (desk.add_stream(j), other.add_stream(same))
        }
        _ => {
            let id = dice.from(0, 5);
            (desk.remove_stream(id), other.remove_stream(id))
        }
    };
    assert_eq!(answer.map_err(core), expected.map_err(model));
    other
}

#[test]
fn random_calls() {
    let mut full = 0;
    for seed in 0..60 {
        let mut dice = Dice::new(seed);
        let (mut desk, mut other) = (Desk::bare(), reference::Desk::Bare);
        for _ in 0..120 {
            other = edit(&mut dice, &mut desk, other);
        }
        let t = dice.from(0, 10_000);
        agree(&desk, &other, &[0, t, 100_000_000], &[0, 1, 2, 3, 4, 5, 6]);
        if let reference::Desk::Open(open) = other {
            full += usize::from(open.slots.len() > 1 && open.streams.len() > 1);
        }
    }
    assert!(full >= 40, "only {full} desks held slots and streams at the end");
}
