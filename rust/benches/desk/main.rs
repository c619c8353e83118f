//! The proved core, through the safe library, timed against the model's fast variant: ratios, growth and stack.
#![deny(unsafe_code)]
mod calls;
mod clock;
mod growth;
mod pair;
mod plans;
mod programs;
mod stack;

use pair::{shown, Times};
use plans::Both;
use reference::samples;
use std::hint::black_box;
use std::panic::catch_unwind;

const PASSES: usize = 12;

/// A task, the ratio that is accepted for it, and what times it.
struct Task<'a> {
    what: &'a str,
    limit: f64,
    time: Box<dyn Fn() -> Times + 'a>,
}

fn task<'a>(what: &'a str, limit: f64, time: impl Fn() -> Times + 'a) -> Task<'a> {
    Task { what, limit, time: Box::new(time) }
}

/// The plans that are timed, as octets and on both desks.
struct Plans {
    full: Both,
    full_octets: Vec<u8>,
    f: Both,
    f_octets: Vec<u8>,
    worst: Both,
    calm: Both,
}

fn plans() -> Plans {
    let data = |name: &str| {
        let file = format!("{}/../../bench/data/{name}", env!("CARGO_MANIFEST_DIR"));
        Both::read(&std::fs::read(file).expect("a plan of bench/data"))
    };
    let (full_octets, f_octets) = (plans::octets(plans::plan(32, 64)), samples::plan_f().0);
    let (full, f) = (Both::read(&full_octets), Both::read(&f_octets));
    Plans { full, full_octets, f, f_octets, worst: data("worst.plan"), calm: data("calm.plan") }
}

fn tasks(p: &Plans) -> Vec<Task<'_>> {
    let some = 34_567_890;
    vec![
        task("read a full plan", 1.0, || calls::read(&p.full_octets)),
        task("write a full plan", 1.0, || calls::write(&p.full)),
        task("add a slot to 31", 2.0, || calls::add_slot(&p.full)),
        task("stairs, full plan", 2.0, || calls::stairs(&p.full)),
        task("interference, full plan", 1.25, move || calls::interference(&p.full, some)),
        task("the same, the model's table built before", 1.25, move || calls::interference_kept(&p.full, some)),
        task("response, plan F, both streams", 1.0, || calls::response(&p.f)),
        task("response, full plan, all streams", 1.0, || calls::response(&p.full)),
        task("response, worst.plan, all streams", 1.0, || calls::response(&p.worst)),
        task("response, calm.plan, all streams", 1.0, || calls::response(&p.calm)),
        task("findings, plan F", 1.0, || programs::findings(&p.f_octets)),
        task("findings, full plan", 1.0, || programs::findings(&p.full_octets)),
        task("a call refused at once, full plan", 2.0, || calls::refused(&p.full)),
        task("the same, against a plain function of as many octets", 2.0, || calls::refused_by_value(&p.full)),
    ]
}

/// All tasks several times over and the least time of each, since other work on the machine comes and goes.
fn ratios() {
    let plans = plans();
    let tasks = tasks(&plans);
    let mut least: Vec<Times> = tasks.iter().map(|task| (task.time)()).collect();
    for _ in 1..PASSES {
        for (task, times) in tasks.iter().zip(&mut least).filter(|(_, times)| !times.long()) {
            *times = times.least((task.time)());
        }
    }
    println!("| what | core | model | ratio | accepted |\n|---|---|---|---|---|");
    for (Task { what, limit, .. }, times) in tasks.iter().zip(least) {
        let (core, model, ratio) = (shown(times.core), shown(times.model), times.ratio());
        let digits = if ratio < 0.1 { 4 } else { 2 };
        println!("| {what} | {core} | {model} | {ratio:.digits$} | {limit} |");
    }
}

fn main() {
    let checked = catch_unwind(|| black_box(255_u8) + black_box(1)).is_err();
    assert!(
        !checked,
        "overflow checks slow the model alone: run this by `cargo bench`, whose profile leaves them out"
    );
    ratios();
    growth::table();
    stack::table();
}
