//! Document 01's figures and refusals, from the proved core through this library.
use ghritpoma::{Desk, Port, Refusal, RefusedPlan, Run, Stair, Stream, MOST_OCTETS};

fn opened(rate: u64, cycle: u64, guard: u64, header: u64) -> Desk {
    let mut desk = Desk::bare();
    desk.open_port(Port { rate, cycle, guard, header }).unwrap();
    desk
}

fn stream(id: u64, octets: u64, period: u64, jitter: u64) -> Stream {
    Stream { id, priority: 3, octets, period, jitter, deadline: 100_000_000 }
}

/// Plan F as document 01 prints it, in hex.
fn plan_f() -> Vec<u8> {
    let hex = "01 000D 02 000186A0 000003E8 000001F4
        02 0008 00002710 000036B0  02 0008 00007530 00007EF4  02 0008 0000EA60 00010B94
        03 0011 0001 06 0075 00030D40 00000000 0000C350  03 0011 0002 03 00F2 00061A80 00000000 00009C40";
    let digits: Vec<u8> = hex.bytes().filter(u8::is_ascii_hexdigit).collect();
    let octet = |pair: &[u8]| u8::from_str_radix(std::str::from_utf8(pair).unwrap(), 16).unwrap();
    digits.chunks(2).map(octet).collect()
}

#[test]
fn plan_f_figures() {
    let desk = Desk::read(&plan_f()).unwrap();
    let run = |start, length| Run { start, length };
    assert_eq!(desk.runs().unwrap(), [run(9_000, 5_500), run(29_000, 4_000), run(59_000, 10_000)]);
    let stair = |distance, total| Stair { distance, total };
    assert_eq!(desk.stairs().unwrap(), [stair(0, 10_000), stair(30_000, 14_000), stair(50_000, 19_500)]);
    let figures = [(0, 10_000), (29_999, 10_000), (30_000, 14_000), (99_999, 19_500), (100_000, 29_500)];
    for (t, v) in figures {
        assert_eq!(desk.interference(t), Ok(v));
    }
    assert_eq!(desk.interference(130_000), Ok(33_500));
    assert_eq!(desk.interference(100_000_001), Err(Refusal::OverHorizon));
    assert_eq!(desk.response(1), Ok(44_000));
    assert_eq!(desk.response(2), Err(Refusal::Late { bound: 44_000 }));
    assert_eq!(desk.response(3), Err(Refusal::NotHeld));
    assert_eq!(desk.response(u64::MAX), Err(Refusal::NotHeld));
}

#[test]
fn plan_f_written() {
    let plan = plan_f();
    let desk = Desk::read(&plan).unwrap();
    let mut room = [0xEE; MOST_OCTETS];
    assert_eq!(desk.write(&mut room), Ok(plan.len()));
    assert_eq!(room[..plan.len()], plan);
    assert!(room[plan.len()..].iter().all(|&octet| octet == 0xEE));
    let mut short = vec![0xEE; plan.len() - 1];
    assert_eq!(desk.write(&mut short), Err(Refusal::NoRoom));
    assert!(short.iter().all(|&octet| octet == 0xEE));
    assert_eq!(desk.write(&mut []), Err(Refusal::NoRoom));
    let mut exact = vec![0; plan.len()];
    assert_eq!(desk.write(&mut exact), Ok(plan.len()));
}

#[test]
fn one_run_across_the_end() {
    let mut desk = opened(3, 1_000, 100, 50);
    desk.add_slot(0, 100).unwrap();
    assert_eq!(desk.runs().unwrap(), [Run { start: 900, length: 250 }]);
    desk.add_slot(250, 400).unwrap();
    assert_eq!(desk.runs().unwrap(), [Run { start: 900, length: 550 }]);
    let mut desk = opened(3, 1_000, 100, 50);
    assert_eq!(desk.interference(1_000), Ok(0));
    assert_eq!(desk.add_slot(0, 850), Err(Refusal::NoFreeCell));
    desk.add_slot(0, 849).unwrap();
    assert_eq!((desk.interference(0), desk.interference(1_000)), (Ok(999), Ok(1_998)));
}

#[test]
fn bounds_without_slots() {
    let mut desk = opened(2, 1_000, 1, 0);
    desk.add_stream(stream(7, 117, 20_000, 30_000)).unwrap();
    assert_eq!(desk.response(7), Ok(20_000));
    let mut desk = opened(3, 1_000, 1, 0);
    desk.add_stream(stream(7, 1_242, 10_000, 0)).unwrap();
    assert_eq!(desk.response(7), Err(Refusal::Endless));
}

#[test]
fn refused_plans() {
    let refused = |refusal, place| Err(RefusedPlan { refusal, place });
    assert_eq!(Desk::read(&[]), refused(Refusal::OutOfTurn, 0));
    assert_eq!(Desk::read(&[1]), refused(Refusal::CutShort, 0));
    assert_eq!(Desk::read(&[9, 0, 0]), refused(Refusal::UnknownTag, 0));
    let mut plan = plan_f();
    plan[18] = 7;
    assert_eq!(Desk::read(&plan), refused(Refusal::WrongLength, 16));
}

#[test]
fn calls_on_a_bare_desk() {
    let mut desk = Desk::bare();
    let four = Refusal::OutOfTurn;
    assert_eq!(desk.add_slot(0, 1), Err(four));
    assert_eq!(desk.remove_slot(0), Err(four));
    assert_eq!(desk.add_stream(stream(1, 64, 10_000, 0)), Err(four));
    assert_eq!(desk.remove_stream(1), Err(four));
    assert_eq!((desk.runs(), desk.stairs()), (Err(four), Err(four)));
    assert_eq!((desk.interference(0), desk.response(1)), (Err(four), Err(four)));
    assert_eq!(desk.write(&mut [0; MOST_OCTETS]), Err(four));
    assert_eq!(desk, Desk::bare());
    assert_eq!(format!("{desk:?}"), "Desk (bare)");
}

#[test]
fn edits_that_are_refused_and_freed_places() {
    let mut desk = opened(3, 1_000_000, 1, 0);
    assert_eq!(desk.open_port(Port { rate: 3, cycle: 1_000, guard: 1, header: 0 }), Err(Refusal::OutOfTurn));
    assert_eq!(Desk::bare().open_port(Port { rate: 3, cycle: 1_000, guard: 0, header: 0 }), Err(Refusal::OutOfRange));
    assert_eq!(desk.add_slot(5, 1 << 32 | 9), Err(Refusal::OutOfRange));
    for k in 0..32 {
        desk.add_slot(10 * k, 10 * k + 5).unwrap();
    }
    let full = desk.clone();
    assert_eq!(desk.add_slot(0, 5), Err(Refusal::Full));
    desk.remove_slot(70).unwrap();
    assert_eq!(desk.remove_slot(70), Err(Refusal::NotHeld));
    assert_eq!(desk.add_slot(64, 67), Err(Refusal::Overlap));
    assert_ne!(desk, full);
    desk.add_slot(70, 75).unwrap();
    assert_eq!(desk, full);
    desk.add_stream(stream(65_535, 64, 10_000, 0)).unwrap();
    assert_eq!(desk.add_stream(stream(65_535, 65, 10_000, 0)), Err(Refusal::IdHeld));
    desk.remove_stream(65_535).unwrap();
    assert_eq!(desk.remove_stream(65_535), Err(Refusal::NotHeld));
    assert_eq!(desk, full);
}
