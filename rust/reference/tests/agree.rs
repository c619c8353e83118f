//! Brute against fast on thousands of small random plans, and the paper's claims about what they find.

mod common;

use common::*;
use reference::{brute, fast, Desk, Load, Mode, Open, Refusal, Run, HORIZON};

/// A random desk; each slot is refused or let in by both modes alike.
fn random_desk(dice: &mut Dice, most_streams: u64) -> Desk {
    let mut desk = opened(random_port(dice));
    for _ in 0..dice.from(0, 9) {
        let slot = random_slot(dice, holding(&desk));
        let brute = desk.clone().add_slot(Mode::Brute, slot);
        let fast = desk.clone().add_slot(Mode::Fast, slot);
        assert_eq!(brute, fast);
        desk = fast.0;
    }
    for id in 0..dice.from(0, most_streams) {
        let stream = random_stream(dice, id * 1_000);
        desk = accepted(desk.add_stream(stream));
    }
    desk
}

/// Every cell of every run is blocked, the cells before and behind it are free, and none is left over.
fn check_runs(plan: &Open, runs: &[Run]) {
    let blocked = brute::blocked_cells(&plan.port, &plan.slots);
    let cycle = plan.port.cycle;
    let at = |cell: u64| blocked[(cell % cycle) as usize];
    let mut cells = 0;
    for run in runs {
        assert!((run.start..run.start + run.length).all(at));
        assert!(!at(run.start + cycle - 1) && !at(run.start + run.length));
        cells += run.length;
    }
    assert_eq!(cells, blocked.iter().filter(|&&cell| cell).count() as u64);
    assert!(runs.is_sorted_by(|a, b| a.start < b.start));
}

fn check_stairs(cycle: u64, runs: &[Run]) {
    let stairs = brute::stairs(cycle, runs);
    assert_eq!(stairs, fast::stairs(cycle, runs));
    let n = runs.len();
    assert!(stairs.len() <= if n == 0 { 0 } else { n * (n - 1) + 1 });
    assert!(stairs.is_sorted_by(|a, b| a.distance < b.distance && a.total < b.total));
}

fn check_interference(dice: &mut Dice, cycle: u64, runs: &[Run]) {
    let table = fast::Table::new(cycle, runs);
    let walked = brute::interferences(cycle, runs).take(3 * cycle as usize);
    for (length, interference) in walked.enumerate() {
        assert_eq!(interference, table.interference(length as u64));
    }
    for _ in 0..10 {
        let length = dice.from(0, 5 * cycle);
        let exact = brute::interference(cycle, runs, length);
        assert_eq!(exact, table.interference(length));
    }
}

#[test]
fn runs_stairs_and_interference() {
    let mut kinds = [0; 4];
    for seed in 0..6_000 {
        let mut dice = Dice::new(seed);
        let desk = random_desk(&mut dice, 0);
        let plan = holding(&desk);
        let cycle = plan.port.cycle;
        let runs = plan.runs(Mode::Brute);
        assert_eq!(runs, plan.runs(Mode::Fast));
        check_runs(plan, &runs);
        check_stairs(cycle, &runs);
        check_interference(&mut dice, cycle, &runs);
        let wraps = runs.iter().any(|run| run.start + run.length > cycle);
        let joins = runs.len() < plan.slots.len();
        let seen = [wraps, joins, runs.len() > 3, plan.port.guard > cycle];
        for (kind, seen) in kinds.iter_mut().zip(seen) {
            *kind += u32::from(seen);
        }
    }
    assert!(kinds.iter().all(|&kind| kind > 100), "too few kinds of plan: {kinds:?}");
}

/// Up to this length windows are searched one number at a time.
const LIMIT: u64 = 60_000;

/// The frame that the paper's count names is there, and the next one cannot have arrived in the window.
fn check_frames(plan: &Open, id: u64, window: u64, frames: u64) {
    let load = Load::of(plan, plan.stream(id).unwrap());
    assert!(load.own.earliest(frames) <= window);
    assert!(load.own.earliest(frames + 1) > window);
}

#[test]
fn windows_and_responses() {
    let (mut closed, mut many, mut open) = (0, 0, 0);
    for seed in 0..3_000 {
        let mut dice = Dice::new(1_000_000 + seed);
        let desk = random_desk(&mut dice, 4);
        let plan = holding(&desk);
        for stream in &plan.streams {
            let window = brute::busy_window(plan, stream, LIMIT);
            assert_eq!(window, fast::busy_window(plan, stream, LIMIT));
            let Some(window) = window else {
                open += 1;
                continue;
            };
            let responses = brute::responses(plan, stream, LIMIT).unwrap();
            assert_eq!(Some(&responses), fast::responses(plan, stream, LIMIT).as_ref());
            check_frames(plan, stream.id, window, responses.len() as u64);
            closed += 1;
            many += u32::from(responses.len() > 1);
        }
    }
    assert!(closed > 1_000 && many > 300 && open > 300, "{closed} {many} {open}");
}

/// A window that closes at its very limit closes, and one past it does not; both modes say so.
#[test]
fn the_limit_is_included() {
    for seed in 0..300 {
        let mut dice = Dice::new(2_000_000 + seed);
        let desk = random_desk(&mut dice, 3);
        let plan = holding(&desk);
        for stream in &plan.streams {
            let Some(window) = fast::busy_window(plan, stream, LIMIT) else {
                continue;
            };
            for mode in MODES {
                assert_eq!(mode.busy_window(plan, stream, window), Some(window));
                assert_eq!(mode.busy_window(plan, stream, window - 1), None);
            }
        }
    }
}

/// The calls themselves, asked in both modes.
#[test]
fn whole_desks() {
    for seed in 0..400 {
        let mut dice = Dice::new(3_000_000 + seed);
        let desk = random_desk(&mut dice, 3);
        let ask = |mode, id| asked(&desk, |desk| desk.response(mode, id));
        for stream in &holding(&desk).streams {
            let fast = ask(Mode::Fast, stream.id);
            // A search to the horizon by single steps takes too long to be done often.
            if fast != Err(Refusal::Endless) {
                assert_eq!(fast, ask(Mode::Brute, stream.id));
            }
            let window = fast::busy_window(holding(&desk), stream, HORIZON);
            assert_eq!(window.is_none(), fast == Err(Refusal::Endless));
        }
        let stairs = |mode| asked(&desk, |desk| desk.stairs(mode));
        assert_eq!(stairs(Mode::Brute), stairs(Mode::Fast));
    }
}
