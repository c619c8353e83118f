//! Each call of the desk, core against model. The model's calls take and hand back the desk by value too.
use crate::clock;
use crate::pair::{compare, Times};
use crate::plans::{core_told, model_told, open, Both, Told, FAST};
use ghritpoma::{Desk, MOST_OCTETS};
use reference::{Reply, Slot, HORIZON};
use std::hint::black_box;
use std::mem::take;

/// What a question that takes the desk by value answers; the desk goes back where it was.
fn ask<T>(held: &mut reference::Desk, question: impl FnOnce(reference::Desk) -> Reply<T>) -> Told<T> {
    let (desk, answer) = question(take(held));
    *held = desk;
    model_told(answer)
}

/// Reading. The core's desk has stairs, so the model computes them too.
pub fn read(plan: &[u8]) -> Times {
    Both::read(plan);
    compare(
        clock::thread,
        &mut || {
            black_box(Desk::read(plan)).expect("a good plan");
        },
        &mut || {
            let (desk, answer) = reference::read(FAST, plan);
            answer.expect("a good plan");
            black_box(desk.stairs(FAST).1).expect("an open desk");
        },
    )
}

pub fn write(both: &Both) -> Times {
    let mut held = both.model.clone();
    let (mut room, mut other) = ([0; MOST_OCTETS], [0; MOST_OCTETS]);
    compare(clock::thread, &mut || core_told(both.core.write(black_box(&mut room))), &mut || {
        ask(&mut held, |desk| desk.write(black_box(&mut other)))
    })
}

/// Takes a slot out, the last one, and adds it to a copy of the desk. The core stores the stairs at each addition, so
/// the model computes them too.
pub fn add_slot(both: &Both) -> Times {
    let slot: Slot = *open(&both.model).slots.last().expect("a slot");
    let mut core = both.core.clone();
    core.remove_slot(slot.start).expect("a slot held");
    let model = both.model.clone().remove_slot(slot.start).0;
    let added = || {
        let mut desk = core.clone();
        core_told(desk.add_slot(slot.start, slot.end)).map(|()| desk)
    };
    Both { core: added().expect("a good slot"), model: model.clone().add_slot(FAST, slot).0 }.agree();
    compare(clock::thread, &mut || black_box(added()).map(drop), &mut || {
        let (desk, answer) = model.clone().add_slot(FAST, slot);
        black_box(desk.stairs(FAST).1).expect("an open desk");
        model_told(answer)
    })
}

pub fn stairs(both: &Both) -> Times {
    let mut held = both.model.clone();
    compare(clock::thread, &mut || core_told(both.core.stairs()).map(|s| s.len()), &mut || {
        ask(&mut held, |desk| desk.stairs(FAST)).map(|s| s.len())
    })
}

pub fn interference(both: &Both, length: u64) -> Times {
    let mut held = both.model.clone();
    compare(clock::thread, &mut || core_told(both.core.interference(black_box(length))), &mut || {
        ask(&mut held, |desk| desk.interference(FAST, black_box(length)))
    })
}

/// The model's desk keeps no table and builds one for each V; here it is built before.
pub fn interference_kept(both: &Both, length: u64) -> Times {
    let open = open(&both.model);
    let table = reference::fast::Table::new(open.port.cycle, &open.runs(FAST));
    compare(clock::thread, &mut || both.core.interference(black_box(length)).ok(), &mut || {
        Some(table.interference(black_box(length)))
    })
}

/// A call that is refused before it does anything.
pub fn refused(both: &Both) -> Times {
    interference(both, HORIZON + 1)
}

/// As many octets as a desk has.
#[repr(C)]
#[derive(Clone, Copy)]
struct Octets([u64; size_of::<Desk>() / 8]);

#[repr(C)]
struct HandedBack {
    number: u64,
    octets: Octets,
}

#[inline(never)]
extern "C" fn hand_back(octets: Octets) -> HandedBack {
    HandedBack { number: 14, octets }
}

/// The same against a plain function that takes as many octets by value, by C's rule, and hands them back.
pub fn refused_by_value(both: &Both) -> Times {
    let octets = Octets([7; size_of::<Desk>() / 8]);
    compare(clock::thread, &mut || core_told(both.core.interference(HORIZON + 1)).map_err(|(n, _)| n), &mut || {
        let reply = hand_back(*black_box(&octets));
        black_box(&reply.octets);
        Err(reply.number)
    })
}

/// The bounds of all streams.
pub fn response(both: &Both) -> Times {
    let ids: Vec<u64> = open(&both.model).streams.iter().map(|stream| stream.id).collect();
    let mut held = both.model.clone();
    compare(
        clock::thread,
        &mut || ids.iter().map(|&id| core_told(both.core.response(id))).collect::<Vec<_>>(),
        &mut || ids.iter().map(|&id| ask(&mut held, |desk| desk.response(FAST, id))).collect(),
    )
}
