//! The same answers for large plans: intervals for cells, the stairs for V, rising steps for least numbers.

use crate::desk::Open;
use crate::records::{Load, Port, Run, Slot, Stair, Stream};

/// Each slot's blocked stretch, cut in two where it crosses the cycle's end; none if one goes all the way round.
fn stretches(port: &Port, slots: &[Slot]) -> Option<Vec<(u64, u64)>> {
    let cycle = port.cycle;
    let mut stretches = Vec::new();
    for slot in slots {
        let length = port.guard + (slot.end - slot.start) + port.header;
        if length >= cycle {
            return None;
        }
        let from = (slot.start + cycle - port.guard % cycle) % cycle;
        let to = from + length;
        if to <= cycle {
            stretches.push((from, to));
        } else {
            stretches.push((from, cycle));
            stretches.push((0, to - cycle));
        }
    }
    Some(stretches)
}

/// Stretches on a line, joined where they overlap or touch, by rising start.
fn joined(mut stretches: Vec<(u64, u64)>) -> Vec<(u64, u64)> {
    stretches.sort();
    let mut joined: Vec<(u64, u64)> = Vec::new();
    for (from, to) in stretches {
        match joined.last_mut() {
            Some(last) if from <= last.1 => last.1 = last.1.max(to),
            _ => joined.push((from, to)),
        }
    }
    joined
}

/// The blocked runs by rising start, or none if no cell is free.
pub fn runs(port: &Port, slots: &[Slot]) -> Option<Vec<Run>> {
    let mut joined = joined(stretches(port, slots)?);
    if joined == [(0, port.cycle)] {
        return None;
    }
    let at_start = joined.first().is_some_and(|first| first.0 == 0);
    let at_end = joined.last().is_some_and(|last| last.1 == port.cycle);
    if at_start && at_end {
        let (_, to) = joined.remove(0);
        joined.last_mut().expect("two stretches at least").1 += to;
    }
    let run = |&(from, to): &(u64, u64)| Run { start: from, length: to - from };
    Some(joined.iter().map(run).collect())
}

/// The stairs: among all pairs by rising distance, of equal ones the largest total first, each that rises higher.
pub fn stairs(cycle: u64, runs: &[Run]) -> Vec<Stair> {
    let mut pairs = Vec::new();
    for (first, run) in runs.iter().enumerate() {
        let mut total = 0;
        for last in runs[first..].iter().chain(&runs[..first]) {
            total += last.length;
            let distance = (last.start + cycle - run.start) % cycle;
            pairs.push(Stair { distance, total });
        }
    }
    pairs.sort_by_key(|pair| (pair.distance, std::cmp::Reverse(pair.total)));
    let mut stairs: Vec<Stair> = Vec::new();
    for pair in pairs {
        if stairs.last().is_none_or(|last| last.total < pair.total) {
            stairs.push(pair);
        }
    }
    stairs
}

/// What V is read from.
pub struct Table {
    cycle: u64,
    blocked: u64,
    stairs: Vec<Stair>,
}

impl Table {
    pub fn new(cycle: u64, runs: &[Run]) -> Table {
        Table { cycle, blocked: runs.iter().map(|run| run.length).sum(), stairs: stairs(cycle, runs) }
    }

    fn of(plan: &Open) -> Table {
        let runs = runs(&plan.port, &plan.slots).expect("a desk keeps a free cell");
        Table::new(plan.port.cycle, &runs)
    }

    /// V of one length: whole cycles, and the last stair within the rest.
    pub fn interference(&self, length: u64) -> u64 {
        let rest = length % self.cycle;
        let within = self.stairs.partition_point(|stair| stair.distance <= rest);
        let top = self.stairs[..within].last().map_or(0, |stair| stair.total);
        length / self.cycle * self.blocked + top
    }
}

/// V of one length.
pub fn interference(cycle: u64, runs: &[Run], length: u64) -> u64 {
    Table::new(cycle, runs).interference(length)
}

/// The least x up to the limit with need(x) <= x. `from` must not be over it, and need must never fall.
///
/// As long as x is not over the least one, nor is need(x): so each step stays below it or hits it.
fn least(from: u64, limit: u64, need: impl Fn(u64) -> u64) -> Option<u64> {
    let mut x = from;
    while x <= limit {
        let next = need(x);
        if next <= x {
            return Some(x);
        }
        x = next;
    }
    None
}

/// The least x up to the limit that closes the stream's busy window.
pub fn busy_window(plan: &Open, stream: &Stream, limit: u64) -> Option<u64> {
    let load = Load::of(plan, stream);
    let table = Table::of(plan);
    least(0, limit, |x| load.in_window(x) + table.interference(x))
}

/// The responses of all frames in the busy window, or none if the window has no end up to the limit.
pub fn responses(plan: &Open, stream: &Stream, limit: u64) -> Option<Vec<u64>> {
    let window = busy_window(plan, stream, limit)?;
    let load = Load::of(plan, stream);
    let table = Table::of(plan);
    let mut responses = Vec::new();
    let mut wait = 0;
    for q in 1..=load.own.frames(window) {
        // A later frame has more before it, so it waits no less than the one before: a search may start there.
        let need = |w| load.before_frame(q, w) + table.interference(w + load.own.wire);
        wait = least(wait, window, need).expect("every frame of a busy window starts in it");
        assert!(wait + load.own.wire <= window, "frame {q} ends after its window");
        responses.push(load.response(q, wait));
    }
    Some(responses)
}
