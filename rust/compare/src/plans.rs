//! Plans as octets: whole ones, and ones that are damaged or cut.
use crate::draw::{edge, once_in, pick, Style};
use ghritpoma::{Port, Stream};
use reference::{samples, Dice};
use std::sync::LazyLock;

/// The model's sample plans, some of which were worked out by hand.
static SAMPLES: LazyLock<Vec<Vec<u8>>> = LazyLock::new(|| samples::all().into_iter().map(|s| s.plan).collect());

/// One field: tag, length and numbers of so many octets. What does not fit into them is lost.
fn field(tag: u8, numbers: &[(u64, usize)]) -> Vec<u8> {
    let length: usize = numbers.iter().map(|(_, width)| width).sum();
    let mut octets = vec![tag, 0, length as u8];
    for &(number, width) in numbers {
        octets.extend(&number.to_be_bytes()[8 - width..]);
    }
    octets
}

fn port(p: Port) -> Vec<u8> {
    field(1, &[(p.rate, 1), (p.cycle, 4), (p.guard, 4), (p.header, 4)])
}

fn slot(start: u64, end: u64) -> Vec<u8> {
    field(2, &[(start, 4), (end, 4)])
}

fn stream(s: Stream) -> Vec<u8> {
    field(3, &[(s.id, 2), (s.priority, 1), (s.octets, 2), (s.period, 4), (s.jitter, 4), (s.deadline, 4)])
}

/// Slots by rising start, with gaps that let their stretches touch, overlap by a cell or just miss.
fn slots(dice: &mut Dice, style: &Style) -> Vec<Vec<u8>> {
    let Port { cycle, guard, header, .. } = style.port;
    let joining = guard + header;
    let most = pick(&[0, 1, dice.from(1, 8), dice.from(1, 33)], dice);
    let longest = (cycle / (3 * most.max(1))).max(1);
    let mut slots = Vec::new();
    let mut start = dice.from(0, joining.min(cycle));
    for _ in 0..most {
        let end = start + dice.from(1, longest);
        if end > cycle && !once_in(dice, 50) {
            break;
        }
        slots.push(slot(start, end));
        let apart = joining + dice.from(2, longest + 2);
        start = end + dice.one_of(&[0, joining - 1, joining, joining + 1, apart, apart, apart]);
    }
    slots
}

/// The fields of a plan that is accepted more often than not; streams of small plans are few.
fn fields(dice: &mut Dice, style: &Style) -> Vec<Vec<u8>> {
    let mut fields = slots(dice, style);
    if once_in(dice, 20) {
        let (start, cycle) = (dice.from(0, style.port.cycle), style.port.cycle);
        fields.push(slot(start, edge(dice, start, cycle)));
    }
    let most = pick(&[0, 1, 2, 4, dice.from(0, 16), if once_in(dice, 8) { 66 } else { 3 }], dice);
    let wide = Style { ids: 65_535, ..*style };
    for _ in 0..most {
        fields.push(stream(if once_in(dice, 20) { style.stream(dice) } else { wide.stream(dice) }));
    }
    dice.shuffle(&mut fields);
    fields.insert(0, port(style.port(dice)));
    fields
}

/// Moves, doubles or drops a field.
fn move_field(dice: &mut Dice, fields: &mut Vec<Vec<u8>>) {
    let last = fields.len() as u64 - 1;
    let (one, other) = (dice.from(0, last) as usize, dice.from(0, last) as usize);
    match dice.from(0, 2) {
        0 => fields.swap(one, other),
        1 => fields.insert(one, fields[other].clone()),
        _ => drop(fields.remove(one)),
    }
}

/// Changes, inserts or drops an octet, often one of a field's tag or length, or cuts the plan.
fn damage(dice: &mut Dice, plan: &mut Vec<u8>) {
    if plan.is_empty() {
        return plan.push(dice.from(0, 4) as u8);
    }
    let any = dice.from(0, plan.len() as u64 - 1) as usize;
    let tagged = dice.from(0, 2) as usize + dice.one_of(&[0, 16, 27, 36]);
    let place = dice.one_of(&[any, tagged.min(plan.len() - 1)]);
    let octet = pick(&[0, 1, 2, 3, 8, 13, 17, 255, dice.from(0, 255) as u8], dice);
    match dice.from(0, 5) {
        0 => plan[place] = octet,
        1 => plan[place] ^= 1 << dice.from(0, 7),
        2 => plan.insert(place, octet),
        3 => drop(plan.remove(place)),
        4 => plan.truncate(place),
        _ => plan.push(octet),
    }
}

/// One of the sample plans.
pub fn sample(dice: &mut Dice) -> Vec<u8> {
    SAMPLES[dice.from(0, SAMPLES.len() as u64 - 1) as usize].clone()
}

/// A plan: whole two times in five, else with fields moved or octets damaged.
pub fn plan(dice: &mut Dice, style: &Style) -> Vec<u8> {
    if once_in(dice, 16) {
        let mut plan = sample(dice);
        (0..dice.from(0, 2)).for_each(|_| damage(dice, &mut plan));
        return plan;
    }
    let mut fields = fields(dice, style);
    let kind = dice.from(0, 9);
    if (4..=6).contains(&kind) {
        move_field(dice, &mut fields);
    }
    let mut plan = fields.concat();
    if kind >= 6 {
        for _ in 0..dice.from(1, 3) {
            damage(dice, &mut plan);
        }
    }
    if once_in(dice, 500) {
        plan.resize(dice.from(1_648, 6_000) as usize, dice.from(0, 3) as u8);
    }
    plan
}
