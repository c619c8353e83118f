//! The findings of a plan, as the program prints them.

use crate::desk::{Desk, Open};
use crate::mode::Mode;
use crate::plan::read;
use crate::records::{Stair, Stream};
use crate::refusal::Refusal;

/// The program takes so many octets of its input and no more.
pub const FINDINGS_LIMIT: usize = 4_096;

/// The whole output for an input, each line ended by a newline.
pub fn findings(mode: Mode, input: &[u8]) -> String {
    let taken = &input[..input.len().min(FINDINGS_LIMIT)];
    match read(mode, taken) {
        (_, Err((refusal, place))) => format!("refused {} at {place}\n", refusal.number()),
        (Desk::Open(open), Ok(())) => accepted(mode, &open),
        (Desk::Bare, Ok(())) => unreachable!("a plan that was read has a port"),
    }
}

fn accepted(mode: Mode, open: &Open) -> String {
    let runs = open.runs(mode);
    let blocked: u64 = runs.iter().map(|run| run.length).sum();
    let cycle = open.port.cycle;
    let mut text = format!("blocked {blocked} of {cycle} in {}\n", runs.len());
    for Stair { distance, total } in mode.stairs(cycle, &runs) {
        text += &format!("stair {distance} {total}\n");
    }
    for stream in &open.streams {
        text += &verdict(mode, open, stream);
    }
    text
}

fn verdict(mode: Mode, open: &Open, stream: &Stream) -> String {
    let Stream { id, deadline, .. } = stream;
    match Desk::Open(open.clone()).response(mode, *id).1 {
        Ok(bound) => format!("stream {id} bound {bound} of {deadline}\n"),
        Err(Refusal::Late(bound)) => format!("stream {id} late {bound} of {deadline}\n"),
        Err(Refusal::Endless) => format!("stream {id} endless\n"),
        Err(refusal) => unreachable!("a held stream is not refused by {}", refusal.number()),
    }
}
