//! The paper word by word: every cell, every pair, every number in turn. For small plans.

use crate::desk::Open;
use crate::records::{Load, Port, Run, Slot, Stair, Stream};

/// The cells of the circle, true where a slot blocks them.
pub fn blocked_cells(port: &Port, slots: &[Slot]) -> Vec<bool> {
    let cycle = port.cycle as i64;
    let mut blocked = vec![false; port.cycle as usize];
    for slot in slots {
        let from = slot.start as i64 - port.guard as i64;
        let to = slot.end as i64 + port.header as i64;
        for cell in from..to {
            blocked[cell.rem_euclid(cycle) as usize] = true;
        }
    }
    blocked
}

/// The blocked runs by rising start, or none if no cell is free.
pub fn runs(port: &Port, slots: &[Slot]) -> Option<Vec<Run>> {
    let blocked = blocked_cells(port, slots);
    let cycle = blocked.len();
    if blocked.iter().all(|&cell| cell) {
        return None;
    }
    let begins = |cell: usize| blocked[cell] && !blocked[(cell + cycle - 1) % cycle];
    let length = |from: usize| (from..).take_while(|cell| blocked[cell % cycle]).count();
    let run = |from| Run { start: from as u64, length: length(from) as u64 };
    Some((0..cycle).filter(|&cell| begins(cell)).map(run).collect())
}

/// The count from one run's start over a length: whole lengths of the runs, repeats included, that start in it.
fn count(cycle: u64, runs: &[Run], from: u64, length: u64) -> u64 {
    let mut sum = 0;
    for run in runs {
        let mut start = run.start;
        while start <= from + length {
            if from <= start {
                sum += run.length;
            }
            start += cycle;
        }
    }
    sum
}

/// V of one length: the largest count over all runs.
pub fn interference(cycle: u64, runs: &[Run], length: u64) -> u64 {
    let counts = runs.iter().map(|run| count(cycle, runs, run.start, length));
    counts.max().unwrap_or(0)
}

/// V(0), V(1), V(2) and so on: each run's count takes in the run, if any, that starts one cell further on.
pub fn interferences(cycle: u64, runs: &[Run]) -> impl Iterator<Item = u64> + '_ {
    let mut starting = vec![0; cycle as usize];
    for run in runs {
        starting[run.start as usize] = run.length;
    }
    let mut counts = vec![0; runs.len()];
    (0..).map(move |length: u64| {
        for (count, run) in counts.iter_mut().zip(runs) {
            *count += starting[((run.start + length) % cycle) as usize];
        }
        counts.iter().copied().max().unwrap_or(0)
    })
}

/// All pairs: from each run, the distance to the j-th run met and the total length of those j.
pub fn pairs(cycle: u64, runs: &[Run]) -> Vec<Stair> {
    let mut pairs = Vec::new();
    for first in 0..runs.len() {
        let mut total = 0;
        for met in 0..runs.len() {
            let last = runs[(first + met) % runs.len()];
            total += last.length;
            let distance = (last.start + cycle - runs[first].start) % cycle;
            pairs.push(Stair { distance, total });
        }
    }
    pairs
}

/// The distinct pairs that no other pair covers, by rising distance.
pub fn stairs(cycle: u64, runs: &[Run]) -> Vec<Stair> {
    let pairs = pairs(cycle, runs);
    let covers =
        |other: &Stair, pair: &Stair| other != pair && other.distance <= pair.distance && other.total >= pair.total;
    let uncovered = |pair: &&Stair| !pairs.iter().any(|other| covers(other, pair));
    let mut stairs: Vec<Stair> = pairs.iter().filter(uncovered).copied().collect();
    stairs.sort();
    stairs.dedup();
    stairs
}

/// The least x up to the limit that closes the stream's busy window, tried one by one.
pub fn busy_window(plan: &Open, stream: &Stream, limit: u64) -> Option<u64> {
    let load = Load::of(plan, stream);
    let runs = runs(&plan.port, &plan.slots).expect("a desk keeps a free cell");
    let mut lengths = (0..=limit).zip(interferences(plan.port.cycle, &runs));
    let closed = lengths.find(|&(x, v)| load.in_window(x) + v <= x);
    closed.map(|(x, _)| x)
}

/// The responses of all frames in the busy window, or none if the window has no end up to the limit.
pub fn responses(plan: &Open, stream: &Stream, limit: u64) -> Option<Vec<u64>> {
    let window = busy_window(plan, stream, limit)?;
    let load = Load::of(plan, stream);
    let runs = runs(&plan.port, &plan.slots).expect("a desk keeps a free cell");
    let response = |q: u64| {
        let interferences = interferences(plan.port.cycle, &runs).skip(load.own.wire as usize);
        let mut waits = (0..=window).zip(interferences);
        let wait = waits.find(|&(w, v)| load.before_frame(q, w) + v <= w);
        let (wait, _) = wait.expect("every frame of a busy window starts in it");
        assert!(wait + load.own.wire <= window, "frame {q} ends after its window");
        load.response(q, wait)
    };
    Some((1..=load.own.frames(window)).map(response).collect())
}
