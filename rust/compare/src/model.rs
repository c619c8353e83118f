//! The model's reply to a call, in the console's terms.
use console::{pattern, Call, Reply, Values};
use reference::{read, Desk, Mode, Open, Port, Refusal, Slot, Stream};
use std::mem::take;

/// The model's desk, and whether it goes cell by cell and number by number where that is quick.
#[derive(Clone, Default)]
pub struct Model {
    pub desk: Desk,
    pub brute: bool,
}

fn reply(answer: Result<Values, Refusal>) -> Reply {
    match answer {
        Ok(values) => Reply { number: 0, values },
        Err(Refusal::Late(bound)) => Reply { number: 13, values: Values::Figure(bound) },
        Err(refusal) => Reply { number: refusal.number(), values: Values::Nothing },
    }
}

/// Whether cells may be looked at one by one.
fn few_cells(cycle: u64, guard: u64, header: u64) -> bool {
    cycle <= 5_000 && guard + header <= 10_000
}

/// Whether the model has a brute answer to this call on this desk that takes a millisecond or two at most.
fn quick(open: &Open, call: &Call) -> bool {
    let port = open.port;
    few_cells(port.cycle, port.guard, port.header)
        && open.slots.len() <= 16
        && match call {
            Call::Interference(length) => *length <= 20 * port.cycle,
            Call::Response(id) => open.stream(*id).is_some_and(|stream| {
                let window = Mode::Fast.busy_window(open, stream, 30_000);
                window.is_some_and(|b| (b + stream.jitter) / stream.period < 5)
            }),
            Call::Slot { .. } | Call::Runs | Call::Stairs => true,
            _ => false,
        }
}

/// The same of a plan, by the port that it begins with.
fn quick_plan(plan: &[u8]) -> bool {
    let number = |from: usize| plan[from..from + 4].iter().fold(0, |sum, &octet| sum << 8 | u64::from(octet));
    (16..=300).contains(&plan.len()) && few_cells(number(4), number(8), number(12))
}

impl Model {
    /// How the model finds its answer to this call.
    pub fn mode(&self, call: &Call) -> Mode {
        let quick = self.brute
            && match (call, &self.desk) {
                (Call::Read(plan), _) => quick_plan(plan),
                (_, Desk::Open(open)) => quick(open, call),
                (_, Desk::Bare) => false,
            };
        if quick {
            Mode::Brute
        } else {
            Mode::Fast
        }
    }

    /// Makes the call on the model's desk.
    pub fn make(&mut self, mode: Mode, call: &Call) -> Reply {
        let (desk, reply) = self.edit(mode, call);
        self.desk = desk;
        reply
    }

    fn edit(&mut self, mode: Mode, call: &Call) -> (Desk, Reply) {
        let desk = take(&mut self.desk);
        let (desk, answer) = match *call {
            Call::Open(p) => desk.open_port(Port { rate: p.rate, cycle: p.cycle, guard: p.guard, header: p.header }),
            Call::Slot { start, end } => desk.add_slot(mode, Slot { start, end }),
            Call::Unslot(start) => desk.remove_slot(start),
            Call::Stream(ghritpoma::Stream { id, priority, octets, period, jitter, deadline }) => {
                desk.add_stream(Stream { id, priority, octets, period, jitter, deadline })
            }
            Call::Unstream(id) => desk.remove_stream(id),
            Call::Bare => (Desk::Bare, Ok(())),
            Call::Read(ref plan) => return read_plan(mode, plan),
            _ => return ask(mode, desk, call),
        };
        (desk, reply(answer.map(|()| Values::Nothing)))
    }
}

fn read_plan(mode: Mode, plan: &[u8]) -> (Desk, Reply) {
    match read(mode, plan) {
        (desk, Ok(())) => (desk, Reply { number: 0, values: Values::Nothing }),
        (desk, Err((refusal, place))) => {
            (desk, Reply { number: refusal.number(), values: Values::Figure(place as u64) })
        }
    }
}

/// A call that only asks.
fn ask(mode: Mode, desk: Desk, call: &Call) -> (Desk, Reply) {
    let (desk, answer) = match *call {
        Call::Runs => {
            let (desk, runs) = desk.runs(mode);
            (desk, runs.map(|runs| Values::Pairs(runs.iter().map(|run| (run.start, run.length)).collect())))
        }
        Call::Stairs => {
            let (desk, stairs) = desk.stairs(mode);
            (desk, stairs.map(|stairs| Values::Pairs(stairs.iter().map(|s| (s.distance, s.total)).collect())))
        }
        Call::Interference(length) => {
            let (desk, figure) = desk.interference(mode, length);
            (desk, figure.map(Values::Figure))
        }
        Call::Response(id) => {
            let (desk, bound) = desk.response(mode, id);
            (desk, bound.map(Values::Figure))
        }
        Call::Write(room) => {
            let mut room = pattern(room);
            let (desk, count) = desk.write(&mut room);
            let number = count.err().map_or(0, Refusal::number);
            return (desk, Reply { number, values: Values::Room(count.unwrap_or(0), room) });
        }
        _ => unreachable!("{call} is an edit"),
    };
    (desk, reply(answer))
}
