//! How the cost of the core's calls grows with slots and streams.
use crate::pair::{least, shown};
use crate::plans::{octets, open, plan, Both};
use crate::PASSES;
use ghritpoma::Desk;
use std::time::Duration;

const LENGTH: u64 = 34_567_890;

/// Times of reading, adding the last slot, stairs, interference, and response of a stream of the lowest priority.
fn times(plan: &[u8], both: &Both) -> [Duration; 5] {
    let core = &both.core;
    let slot = *open(&both.model).slots.last().expect("a slot");
    let lowest = open(&both.model).streams.iter().min_by_key(|s| s.priority).expect("a stream").id;
    let mut shorter = core.clone();
    shorter.remove_slot(slot.start).expect("a slot held");
    let mut add = || {
        let mut desk = shorter.clone();
        desk.add_slot(slot.start, slot.end).map(|()| desk)
    };
    [
        least(&mut || Desk::read(plan)),
        least(&mut add),
        least(&mut || core.stairs()),
        least(&mut || core.interference(LENGTH)),
        least(&mut || core.response(lowest)),
    ]
}

pub fn table() {
    let sizes = [(1, 64), (2, 64), (4, 64), (8, 64), (16, 64), (32, 64), (32, 1), (32, 4), (32, 16)];
    let plans = sizes.map(|(slots, streams)| octets(plan(slots, streams)));
    let desks: Vec<Both> = plans.iter().map(|plan| Both::read(plan)).collect();
    let mut best = [[Duration::MAX; 5]; 9];
    for _ in 0..PASSES {
        for ((plan, both), best) in plans.iter().zip(&desks).zip(&mut best) {
            let times = times(plan, both);
            *best = std::array::from_fn(|k| best[k].min(times[k]));
        }
    }
    println!("\n| slots | streams | stairs held | read | add the last slot | stairs | interference | response |");
    println!("|---|---|---|---|---|---|---|---|");
    for (((slots, streams), both), best) in sizes.iter().zip(&desks).zip(best) {
        println!("| {slots} | {streams} | {} | {} |", both.stairs(), best.map(shown).join(" | "));
    }
}
