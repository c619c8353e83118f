//! The paper's figures to hold, and the errors it warns of.

mod common;

use common::*;
use reference::{brute, fast, findings, samples, wire_time, Desk, Mode, Refusal, Run, Source, Stair, HORIZON};

fn interference(mode: Mode, desk: &Desk, length: u64) -> u64 {
    asked(desk, |desk| desk.interference(mode, length)).unwrap()
}

fn runs(mode: Mode, desk: &Desk) -> Vec<Run> {
    asked(desk, |desk| desk.runs(mode)).unwrap()
}

fn stair(distance: u64, total: u64) -> Stair {
    Stair { distance, total }
}

fn one_run(start: u64, length: u64) -> Vec<Run> {
    vec![Run { start, length }]
}

fn small_port() -> Desk {
    opened(port(3, 1_000, 100, 50))
}

#[test]
fn p1_wire_times() {
    assert_eq!([2, 4, 5].map(|rate| wire_time(rate, 64)), [5_760, 231, 58]);
    assert_eq!([1, 3].map(|rate| wire_time(rate, 64)), [57_600, 576]);
}

#[test]
fn p2_and_p3_interference_of_plan_f() {
    let lengths = [0, 29_999, 30_000, 99_999, 100_000, 130_000];
    let figures = [10_000, 10_000, 14_000, 19_500, 29_500, 33_500];
    for mode in MODES {
        assert_eq!(lengths.map(|t| interference(mode, &plan_f(), t)), figures);
    }
}

#[test]
fn p4_and_p5_one_run_across_the_end() {
    let p4 = with_slots(small_port(), &[(0, 100)]);
    let p5 = with_slots(p4.clone(), &[(250, 400)]);
    for mode in MODES {
        assert_eq!(runs(mode, &p4), one_run(900, 250));
        assert_eq!(runs(mode, &p5), one_run(900, 550));
    }
}

#[test]
fn p6_the_last_free_cell() {
    for mode in MODES {
        let fills = |desk: Desk| desk.add_slot(mode, slot(0, 850));
        refused(&small_port(), fills, Refusal::NoFreeCell);
        let desk = accepted(small_port().add_slot(mode, slot(0, 849)));
        assert_eq!(interference(mode, &desk, 0), 999);
        assert_eq!(interference(mode, &desk, 1_000), 1_998);
    }
}

#[test]
fn p7_no_slots() {
    for mode in MODES {
        for length in [0, 1, 999, 1_000, 12_345, HORIZON] {
            assert_eq!(interference(mode, &small_port(), length), 0);
        }
        assert_eq!(mode.interference(1_000, &[], 10 * HORIZON), 0);
        assert_eq!(asked(&small_port(), |desk| desk.stairs(mode)), Ok(vec![]));
        assert_eq!(runs(mode, &small_port()), []);
    }
}

#[test]
fn p8_all_frames_of_the_window() {
    let stream = stream(1, 117, 20_000, 30_000);
    let desk = accepted(opened(port(2, 100_000, 1_000, 500)).add_stream(stream));
    for mode in MODES {
        let plan = holding(&desk);
        assert_eq!(mode.busy_window(plan, &stream, HORIZON), Some(40_000));
        let responses = mode.responses(plan, &stream, HORIZON).unwrap();
        assert_eq!(responses, [10_000, 20_000, 20_000, 10_000]);
        assert_eq!(asked(&desk, |desk| desk.response(mode, 1)), Ok(20_000));
    }
}

#[test]
fn p9_endless() {
    let stream = stream(7, 1_242, 10_000, 0);
    let desk = accepted(opened(port(3, 100_000, 1_000, 500)).add_stream(stream));
    for mode in MODES {
        let answer = asked(&desk, |desk| desk.response(mode, 7));
        assert_eq!(answer, Err(Refusal::Endless));
    }
}

#[test]
fn p10_both_bounds_of_plan_f() {
    for mode in MODES {
        let bound = |id| asked(&plan_f(), |desk| desk.response(mode, id));
        assert_eq!(bound(1), Ok(44_000));
        assert_eq!(bound(2), Err(Refusal::Late(44_000)));
    }
}

#[test]
fn the_last_line() {
    for mode in MODES {
        assert_eq!(findings(mode, &[]), "refused 4 at 0\n");
        assert_eq!(findings(mode, &[1]), "refused 1 at 0\n");
        let over = |desk: Desk| desk.interference(mode, 100_000_001);
        refused(&plan_f(), over, Refusal::OverHorizon);
        refused(&small_port(), over, Refusal::OverHorizon);
    }
}

/// The paper's plan F, octet for octet.
const PLAN_F: &str = "
    01 000D 02 000186A0 000003E8 000001F4
    02 0008 00002710 000036B0
    02 0008 00007530 00007EF4
    02 0008 0000EA60 00010B94
    03 0011 0001 06 0075 00030D40 00000000 0000C350
    03 0011 0002 03 00F2 00061A80 00000000 00009C40";

const FINDINGS_F: &str = "blocked 19500 of 100000 in 3
stair 0 10000
stair 30000 14000
stair 50000 19500
stream 1 bound 44000 of 50000
stream 2 late 44000 of 40000
";

#[test]
fn findings_of_plan_f() {
    let digits: Vec<u8> = PLAN_F.bytes().filter(|c| !c.is_ascii_whitespace()).collect();
    let octet = |pair: &[u8]| u8::from_str_radix(std::str::from_utf8(pair).unwrap(), 16).unwrap();
    let plan: Vec<u8> = digits.chunks(2).map(octet).collect();
    assert_eq!(plan, samples::plan_f().0);
    for mode in MODES {
        assert_eq!(findings(mode, &plan), FINDINGS_F);
    }
}

#[test]
fn no_first_frame_only() {
    let stream = stream(1, 117, 20_000, 30_000);
    let desk = accepted(opened(port(2, 100_000, 1_000, 500)).add_stream(stream));
    for mode in MODES {
        let first = mode.responses(holding(&desk), &stream, HORIZON).unwrap()[0];
        let bound = asked(&desk, |desk| desk.response(mode, 1)).unwrap();
        assert_eq!((first, bound), (10_000, 20_000));
    }
}

#[test]
fn no_slot_counted_in_part() {
    for mode in MODES {
        assert_eq!(interference(mode, &plan_f(), 0), 10_000);
        let p4 = with_slots(small_port(), &[(0, 100)]);
        assert_eq!(interference(mode, &p4, 0), 250);
    }
}

#[test]
fn no_run_dropped_or_cut_at_the_cycles_end() {
    let before = with_slots(small_port(), &[(800, 990)]);
    let both = with_slots(before.clone(), &[(200, 300)]);
    for mode in MODES {
        assert_eq!(runs(mode, &before), one_run(700, 340));
        let two = [Run { start: 100, length: 250 }, Run { start: 700, length: 340 }];
        assert_eq!(runs(mode, &both), two);
        let stairs = asked(&both, |desk| desk.stairs(mode)).unwrap();
        assert_eq!(stairs, [stair(0, 340), stair(400, 590)]);
    }
}

#[test]
fn no_octet_time_rounded_first() {
    let all: Vec<u64> = (64..=1_522).collect();
    for (rate, tenths) in [(1, 8_000), (2, 800), (3, 80), (4, 32), (5, 8)] {
        for octets in &all {
            let exact = (octets + 8) * tenths;
            let wire = wire_time(rate, *octets);
            assert!(10 * wire >= exact && 10 * wire < exact + 10);
        }
    }
    assert_eq!([4, 5].map(|rate| wire_time(rate, 1_522)), [4_896, 1_224]);
}

#[test]
fn no_pair_kept_that_another_row_covers() {
    let runs = runs(Mode::Fast, &plan_f());
    assert!(brute::pairs(100_000, &runs).contains(&stair(20_000, 9_500)));
    let stairs = [stair(0, 10_000), stair(30_000, 14_000), stair(50_000, 19_500)];
    assert_eq!(brute::stairs(100_000, &runs), stairs);
    assert_eq!(fast::stairs(100_000, &runs), stairs);
}

/// N(x) counts the frames whose earliest arrival lies within x.
#[test]
fn frames_are_those_that_can_have_arrived() {
    let mut dice = Dice::new(3);
    for _ in 0..2_000 {
        let source = Source { wire: 1, period: dice.from(10_000, 40_000), jitter: dice.from(0, 100_000) };
        let x = dice.from(0, 200_000);
        let arrived = (1..).take_while(|&q| source.earliest(q) <= x).count();
        assert_eq!(source.frames(x), arrived as u64);
    }
}
