//! Each refusal from 1 to 14, and the order among those of a call.

mod common;

use common::*;
use reference::{findings, read, Desk, Mode, Port, Refusal, Slot, Stream, HORIZON};

fn desk() -> Desk {
    with_slots(opened(port(2, 100_000, 1_000, 500)), &[(10_000, 14_000)])
}

fn add_slot(start: u64, end: u64) -> impl Fn(Desk) -> (Desk, Result<(), Refusal>) {
    move |desk| desk.add_slot(Mode::Fast, slot(start, end))
}

fn place_of(plan: &[u8]) -> (u64, usize) {
    let brute = read(Mode::Brute, plan);
    let (desk, answer) = read(Mode::Fast, plan);
    assert_eq!((Desk::Bare, &answer), (desk, &brute.1));
    let (refusal, place) = answer.unwrap_err();
    (refusal.number(), place)
}

/// The octets of the desk's plan, with more behind them.
fn plan_and(desk: &Desk, more: &[u8]) -> (Vec<u8>, usize) {
    let mut room = vec![0; 1_648];
    let (_, length) = desk.clone().write(&mut room);
    let length = length.unwrap();
    room.truncate(length);
    room.extend(more);
    (room, length)
}

#[test]
fn numbers_of_the_paper() {
    let all = [
        Refusal::Cut,
        Refusal::UnknownTag,
        Refusal::WrongLength,
        Refusal::WrongState,
        Refusal::OutOfRange,
        Refusal::Overlap,
        Refusal::Full,
        Refusal::IdHeld,
        Refusal::NotHeld,
        Refusal::NoFreeCell,
        Refusal::NoRoom,
        Refusal::Endless,
        Refusal::Late(5),
        Refusal::OverHorizon,
    ];
    let numbers: Vec<u64> = all.iter().map(|refusal| refusal.number()).collect();
    assert_eq!(numbers, (1..=14).collect::<Vec<u64>>());
}

/// Order in a field: fewer than three octets 1, then 2, 3, value cut 1, then 4 and 5.
#[test]
fn r1_to_r3_order_in_a_field() {
    let zeros = [0; 17];
    let rows: [(&[u8], u64); 12] = [
        (&[2], 1),
        (&[9], 1),
        (&[9, 0], 1),
        (&[2, 9], 1),
        (&[9, 0, 0], 2),
        (&[0, 0, 8], 2),
        (&[2, 0, 9], 3),
        (&[3, 17, 0], 3),
        (&[1, 1, 13], 3),
        (&[2, 0, 8], 1),
        (&[1, 0, 13, 0], 1),
        (&[3, 0, 17, 0, 1, 9, 9, 9], 1),
    ];
    for (more, number) in rows {
        let (plan, end) = plan_and(&desk(), more);
        assert_eq!(place_of(&plan), (number, end), "{more:?}");
        assert_eq!(place_of(more), (number, 0), "{more:?} alone");
    }
    let slot = [&[2, 0, 8][..], &zeros[..8]].concat();
    let (plan, end) = plan_and(&desk(), &slot);
    assert_eq!(place_of(&plan), (5, end));
    assert_eq!(place_of(&slot), (4, 0));
    let port = [&[1, 0, 13][..], &zeros[..13]].concat();
    let (plan, end) = plan_and(&desk(), &port);
    assert_eq!(place_of(&plan), (4, end));
    assert_eq!(place_of(&port), (5, 0));
}

#[test]
fn r4_bare_and_open_desks() {
    let bare = Desk::Bare;
    let state = Refusal::WrongState;
    let mut room = [7; 2_000];
    refused(&bare, add_slot(5, 5), state);
    refused(&bare, |desk| desk.add_stream(stream(99_999, 0, 0, 0)), state);
    refused(&bare, |desk| desk.remove_slot(0), state);
    refused(&bare, |desk| desk.remove_stream(0), state);
    refused(&bare, |desk| desk.runs(Mode::Brute), state);
    refused(&bare, |desk| desk.stairs(Mode::Brute), state);
    refused(&bare, |desk| desk.interference(Mode::Brute, u64::MAX), state);
    refused(&bare, |desk| desk.response(Mode::Brute, 0), state);
    refused(&bare, |desk| desk.write(&mut []), state);
    refused(&bare, |desk| desk.write(&mut room), state);
    assert_eq!(room, [7; 2_000]);
    refused(&desk(), |desk| desk.open_port(port(2, 100_000, 1_000, 500)), state);
    refused(&desk(), |desk| desk.open_port(port(9, 0, 0, u64::MAX)), state);
    assert_eq!(place_of(&[]), (4, 0));
}

#[test]
fn r5_port_numbers() {
    let good = port(2, 100_000, 1_000, 500);
    let try_one = |port: Port, fits: bool| {
        let (desk, answer) = Desk::Bare.open_port(port);
        assert_eq!(answer, if fits { Ok(()) } else { Err(Refusal::OutOfRange) });
        assert_eq!(desk != Desk::Bare, fits);
    };
    for (rate, fits) in [(0, false), (1, true), (5, true), (6, false), (u64::MAX, false)] {
        try_one(Port { rate, ..good }, fits);
    }
    for (cycle, fits) in [(999, false), (1_000, true), (HORIZON, true), (HORIZON + 1, false)] {
        try_one(Port { cycle, ..good }, fits);
    }
    for (guard, fits) in [(0, false), (1, true), (10_000_000, true), (10_000_001, false)] {
        try_one(Port { guard, ..good }, fits);
    }
    for (header, fits) in [(0, true), (10_000_000, true), (10_000_001, false), (u64::MAX, false)] {
        try_one(Port { header, ..good }, fits);
    }
}

#[test]
fn r5_slot_numbers() {
    let open = opened(port(2, 100_000, 1_000, 500));
    for (start, end) in [(0, 1), (99_999, 100_000), (1_000, 99_000)] {
        accepted(add_slot(start, end)(open.clone()));
    }
    let out = [(0, 0), (7, 7), (8, 7), (99_999, 100_001), (u64::MAX, 7), (0, u64::MAX)];
    for (start, end) in out {
        refused(&open, add_slot(start, end), Refusal::OutOfRange);
    }
}

#[test]
fn r5_stream_numbers() {
    let good = stream(1, 64, 1_000_000, 0);
    let max = u64::MAX;
    type Row = (fn(u64) -> Stream, [u64; 2], &'static [u64]);
    let rows: [Row; 6] = [
        (|id| Stream { id, ..stream(1, 64, 10_000, 0) }, [0, 65_535], &[65_536]),
        (|priority| Stream { priority, ..stream(1, 64, 10_000, 0) }, [0, 7], &[8]),
        (|octets| stream(1, octets, 10_000, 0), [64, 1_522], &[63, 1_523]),
        (|period| stream(1, 64, period, 0), [10_000, HORIZON], &[9_999, HORIZON + 1]),
        (|jitter| stream(1, 64, 10_000, jitter), [0, HORIZON], &[HORIZON + 1]),
        (|deadline| Stream { deadline, ..stream(1, 64, 10_000, 0) }, [1, HORIZON], &[0, HORIZON + 1]),
    ];
    accepted(desk().add_stream(good));
    for (make, ends, outs) in rows {
        for number in ends {
            accepted(desk().add_stream(make(number)));
        }
        for &number in outs.iter().chain(&[max]) {
            refused(&desk(), |desk| desk.add_stream(make(number)), Refusal::OutOfRange);
        }
    }
}

#[test]
fn r6_overlap_is_of_slots_as_entered() {
    for (start, end) in [(10_000, 14_000), (9_000, 10_001), (13_999, 20_000), (0, 100_000)] {
        refused(&desk(), add_slot(start, end), Refusal::Overlap);
    }
    let touching = with_slots(desk(), &[(14_000, 15_000), (9_999, 10_000)]);
    let near = with_slots(touching, &[(15_001, 15_002)]);
    assert_eq!(asked(&near, |desk| desk.runs(Mode::Brute)).unwrap().len(), 1);
}

fn full_of_slots() -> Desk {
    let slots: Vec<(u64, u64)> = (0..32).map(|k| (k * 10, k * 10 + 5)).collect();
    with_slots(opened(port(2, 10_000, 1, 0)), &slots)
}

fn full_of_streams() -> Desk {
    let add = |desk: Desk, id| accepted(desk.add_stream(stream(id, 64, 1_000_000, 0)));
    (0..64).fold(desk(), add)
}

/// 7 comes after 5 and before 6, 8 and 10. A freed place is used again.
#[test]
fn r7_full() {
    let full = full_of_slots();
    for (start, end) in [(9_000, 9_001), (0, 5), (0, 10_000)] {
        refused(&full, add_slot(start, end), Refusal::Full);
    }
    refused(&full, add_slot(5, 5), Refusal::OutOfRange);
    let freed = accepted(full.clone().remove_slot(50));
    refused(&freed, add_slot(0, 5), Refusal::Overlap);
    assert_eq!(accepted(add_slot(50, 55)(freed)), full);

    let full = full_of_streams();
    refused(&full, |desk| desk.add_stream(stream(64, 64, 10_000, 0)), Refusal::Full);
    refused(&full, |desk| desk.add_stream(stream(0, 64, 10_000, 0)), Refusal::Full);
    refused(&full, |desk| desk.add_stream(stream(0, 63, 10_000, 0)), Refusal::OutOfRange);
    let freed = accepted(full.clone().remove_stream(20));
    assert_eq!(accepted(freed.add_stream(stream(20, 64, 1_000_000, 0))), full);
}

#[test]
fn r8_and_r9_held_and_not_held() {
    let one = accepted(desk().add_stream(stream(65_535, 64, 10_000, 0)));
    refused(&one, |desk| desk.add_stream(stream(65_535, 64, 20_000, 1)), Refusal::IdHeld);
    refused(&one, |desk| desk.add_stream(stream(65_535, 64, 1, 1)), Refusal::OutOfRange);
    for number in [0, 1, 65_536 + 65_535, u64::MAX] {
        refused(&one, |desk| desk.remove_stream(number), Refusal::NotHeld);
        refused(&one, |desk| desk.remove_slot(number), Refusal::NotHeld);
        refused(&one, |desk| desk.response(Mode::Fast, number), Refusal::NotHeld);
    }
    refused(&one, |desk| desk.remove_slot(10_001), Refusal::NotHeld);
    let less = accepted(one.remove_stream(65_535));
    assert_eq!(less, desk());
    let less = accepted(less.remove_slot(10_000));
    assert_eq!(less, opened(port(2, 100_000, 1_000, 500)));
}

/// 6 comes before 10.
#[test]
fn r10_no_free_cell() {
    let p4 = with_slots(opened(port(3, 1_000, 100, 50)), &[(0, 100)]);
    for mode in MODES {
        let add = |start, end| move |desk: Desk| desk.add_slot(mode, Slot { start, end });
        refused(&p4, add(250, 850), Refusal::NoFreeCell);
        refused(&p4, add(100, 850), Refusal::NoFreeCell);
        refused(&p4, add(0, 1_000), Refusal::Overlap);
        accepted(add(100, 849)(p4.clone()));
        let round = [(999, 0, false), (998, 0, true), (998, 1, false), (1, 998, false), (1, 997, true)];
        for (guard, header, fits) in round {
            let open = opened(port(2, 1_000, guard, header));
            assert_eq!(add(500, 501)(open).1.is_ok(), fits);
        }
        let long = opened(port(2, 1_000, 10_000_000, 10_000_000));
        refused(&long, add(500, 501), Refusal::NoFreeCell);
    }
}

#[test]
fn r11_room() {
    let desk = plan_f();
    for length in [0, 1, 16, 88] {
        let mut room = vec![7; length];
        refused(&desk, |desk| desk.write(&mut room), Refusal::NoRoom);
        assert_eq!(room, vec![7; length]);
    }
    for length in [89, 90, 2_000] {
        let mut room = vec![7; length];
        assert_eq!(asked(&desk, |desk| desk.write(&mut room)), Ok(89));
        assert_eq!(room[..89], reference::samples::plan_f().0);
        assert!(room[89..].iter().all(|&octet| octet == 7));
    }
}

/// 12 comes before 13; a bound of the deadline is not late.
#[test]
fn r12_and_r13_endless_and_late() {
    let one = |deadline| Stream { deadline, ..stream(1, 117, 20_000, 30_000) };
    let open = || opened(port(2, 100_000, 1_000, 500));
    for (deadline, answer) in
        [(20_000, Ok(20_000)), (19_999, Err(Refusal::Late(20_000))), (1, Err(Refusal::Late(20_000)))]
    {
        let desk = accepted(open().add_stream(one(deadline)));
        for mode in MODES {
            assert_eq!(asked(&desk, |desk| desk.response(mode, 1)), answer);
        }
    }
    let endless = Stream { deadline: 1, ..stream(2, 117, 10_000, 0) };
    let desk = accepted(open().add_stream(endless));
    refused(&desk, |desk| desk.response(Mode::Fast, 2), Refusal::Endless);
}

#[test]
fn r14_over_the_horizon() {
    let ask = |length| move |desk: Desk| desk.interference(Mode::Fast, length);
    assert_eq!(asked(&desk(), ask(HORIZON)), Ok(5_500 * 1_001));
    refused(&desk(), ask(HORIZON + 1), Refusal::OverHorizon);
    refused(&desk(), ask(u64::MAX), Refusal::OverHorizon);
}

/// The program looks at 4,096 octets: what comes later never shows.
#[test]
fn findings_take_the_first_octets_only() {
    let (mut plan, end) = plan_and(&full_of_streams(), &[]);
    for _ in 0..500 {
        plan.extend(&plan[27..47].to_vec());
    }
    for length in [4_095, 4_096, 4_097, 10_000] {
        let text = findings(Mode::Fast, &plan[..length]);
        assert_eq!(text, format!("refused 7 at {end}\n"));
    }
}
