//! The proved core compared with the model of document 01 on random plans and calls. See rust/README.md.
//!
//! Every line that it prints is a line of a script for the console, a comment, or begins with `compare:`, so what it
//! prints can be replayed as it stands.
mod cases;
mod draw;
mod fault;
mod model;
mod pair;
mod plans;
mod tally;

use console::{Call, Line};
use fault::Fault;
use pair::{replay, shrunk, Difference, Pair};
use reference::Dice;
use std::process::ExitCode;
use std::time::{Duration, Instant};
use tally::Tally;

const USAGE: &str = "usage: compare [--seed N] [--seconds S] [--cases N] [--replay FILE] [--broken [FAULT]]";

/// One case in so many is a sequence of calls, the others are plans.
const PLANS_TO_A_SEQUENCE: u64 = 16;

/// What the command line asks for.
struct Wish {
    seed: u64,
    seconds: u64,
    cases: u64,
    replay: Option<String>,
    fault: Option<Fault>,
}

fn wish(args: impl Iterator<Item = String>) -> Option<Wish> {
    let mut wish = Wish { seed: 1, seconds: u64::MAX, cases: u64::MAX, replay: None, fault: None };
    let mut args = args.peekable();
    while let Some(name) = args.next() {
        let value = args.next_if(|value| !value.starts_with("--"));
        let number = || value.as_ref()?.parse().ok();
        match name.as_str() {
            "--seed" => wish.seed = number()?,
            "--seconds" => wish.seconds = number()?,
            "--cases" => wish.cases = number()?,
            "--replay" => wish.replay = Some(value?),
            "--broken" => wish.fault = Some(fault::named(value.as_deref().unwrap_or("figure"))?),
            _ => return None,
        }
    }
    if wish.seconds == u64::MAX && wish.cases == u64::MAX {
        wish.seconds = 60;
    }
    Some(wish)
}

/// Cases until one differs, or until there were enough of them, or for long enough.
fn compare(wish: &Wish, tally: &mut Tally) -> Option<Difference> {
    let begun = Instant::now();
    let mut dice = Dice::new(wish.seed);
    while tally.cases() < wish.cases && begun.elapsed() < Duration::from_secs(wish.seconds) {
        let brute = draw::once_in(&mut dice, 16);
        let sequence = draw::once_in(&mut dice, PLANS_TO_A_SEQUENCE);
        let mut pair = Pair::new(brute, wish.fault, tally);
        let case = if sequence { cases::one_sequence } else { cases::one_plan };
        let done = case(&mut dice, &mut pair);
        tally.case(sequence);
        if let Err(difference) = done {
            return Some(shrunk(difference, wish.fault));
        }
    }
    None
}

/// Ends the program where a case goes on for a minute after the time given, as a call that never returns would.
fn watch(seconds: u64) {
    let latest = Duration::from_secs(seconds.saturating_add(60));
    std::thread::spawn(move || {
        std::thread::sleep(latest);
        println!("compare: a case has not ended a minute after the time given");
        std::process::exit(1);
    });
}

fn show(difference: &Difference) {
    println!("# core and model differ at the end of this script; `compare --replay FILE` runs it");
    difference.script.iter().for_each(|call| println!("{call}"));
    difference.what.lines().for_each(|line| println!("# {line}"));
}

/// The calls of a script, or why it is none.
fn script(file: &str) -> Result<Vec<Call>, String> {
    let text = std::fs::read_to_string(file).map_err(|error| format!("{file}: {error}"))?;
    let mut calls = Vec::new();
    for (place, line) in text.lines().enumerate().filter(|(_, line)| !line.starts_with("compare:")) {
        match Line::parse(line) {
            Ok(Line::Call(call)) => calls.push(call),
            Ok(Line::Help | Line::Nothing) => {}
            Err(reason) => return Err(format!("{file}, line {}: {reason}", place + 1)),
        }
    }
    Ok(calls)
}

fn replay_file(file: &str, fault: Option<Fault>) -> ExitCode {
    let calls = match script(file) {
        Ok(calls) => calls,
        Err(reason) => return unable(&reason),
    };
    let difference = replay(&calls, fault);
    difference.iter().for_each(show);
    println!("compare: {} calls replayed, {} differences", calls.len(), difference.iter().count());
    ExitCode::from(u8::from(difference.is_some()))
}

/// The run cannot be made.
fn unable(reason: &str) -> ExitCode {
    eprintln!("compare: {reason}");
    ExitCode::from(2)
}

fn main() -> ExitCode {
    let Some(wish) = wish(std::env::args().skip(1)) else { return unable(USAGE) };
    if let Some(file) = &wish.replay {
        return replay_file(file, wish.fault);
    }
    println!("compare: seed {}", wish.seed);
    watch(wish.seconds);
    let mut tally = Tally::default();
    let difference = compare(&wish, &mut tally);
    difference.iter().for_each(show);
    tally.print();
    let (cases, missing) = (tally.cases(), tally.missing());
    if difference.is_some() {
        println!("compare: {cases} cases, 1 difference");
    } else if !missing.is_empty() {
        println!("compare: {cases} cases, 0 differences, but these refusals did not occur: {missing:?}");
    } else {
        println!("compare: {cases} cases, 0 differences");
        return ExitCode::SUCCESS;
    }
    ExitCode::FAILURE
}
