//! The desk and its calls, with refusals in the paper's order.

use crate::mode::Mode;
use crate::records::{Port, Run, Slot, Stair, Stream, HORIZON, MOST_SLOTS, MOST_STREAMS};
use crate::refusal::Refusal;

/// A desk: bare, or open with what it holds. Equal exactly when the paper calls two desks the same: stairs follow
/// from port and slots, and neither order of entry nor freed places show.
#[derive(Clone, Debug, Default, PartialEq, Eq)]
pub enum Desk {
    #[default]
    Bare,
    Open(Open),
}

/// What an open desk holds: slots by rising start, streams by rising id.
#[derive(Clone, Debug, PartialEq, Eq)]
pub struct Open {
    pub port: Port,
    pub slots: Vec<Slot>,
    pub streams: Vec<Stream>,
}

/// Every call hands a desk back, the given one if it refuses or only asks.
pub type Reply<T> = (Desk, Result<T, Refusal>);

fn refuse_if(wrong: bool, refusal: Refusal) -> Result<(), Refusal> {
    if wrong {
        return Err(refusal);
    }
    Ok(())
}

impl Open {
    /// The runs of a desk, which always keeps a free cell.
    pub fn runs(&self, mode: Mode) -> Vec<Run> {
        let runs = mode.runs(&self.port, &self.slots);
        runs.expect("a desk keeps a free cell")
    }

    pub fn stream(&self, id: u64) -> Option<&Stream> {
        self.streams.iter().find(|stream| stream.id == id)
    }

    /// 5, 7, 6, 10.
    fn with_slot(&self, mode: Mode, slot: Slot) -> Result<Open, Refusal> {
        refuse_if(!slot.in_range(self.port.cycle), Refusal::OutOfRange)?;
        refuse_if(self.slots.len() >= MOST_SLOTS, Refusal::Full)?;
        let overlap = self.slots.iter().any(|held| held.overlaps(&slot));
        refuse_if(overlap, Refusal::Overlap)?;
        let mut next = self.clone();
        next.slots.push(slot);
        next.slots.sort_by_key(|slot| slot.start);
        let runs = mode.runs(&next.port, &next.slots);
        refuse_if(runs.is_none(), Refusal::NoFreeCell)?;
        Ok(next)
    }

    fn without_slot(&self, start: u64) -> Result<Open, Refusal> {
        let held = self.slots.iter().any(|slot| slot.start == start);
        refuse_if(!held, Refusal::NotHeld)?;
        let mut next = self.clone();
        next.slots.retain(|slot| slot.start != start);
        Ok(next)
    }

    /// 5, 7, 8.
    fn with_stream(&self, stream: Stream) -> Result<Open, Refusal> {
        refuse_if(!stream.in_range(), Refusal::OutOfRange)?;
        refuse_if(self.streams.len() >= MOST_STREAMS, Refusal::Full)?;
        refuse_if(self.stream(stream.id).is_some(), Refusal::IdHeld)?;
        let mut next = self.clone();
        next.streams.push(stream);
        next.streams.sort_by_key(|stream| stream.id);
        Ok(next)
    }

    fn without_stream(&self, id: u64) -> Result<Open, Refusal> {
        refuse_if(self.stream(id).is_none(), Refusal::NotHeld)?;
        let mut next = self.clone();
        next.streams.retain(|stream| stream.id != id);
        Ok(next)
    }

    /// 9, 12, 13: the bound, the largest response of the stream's frames.
    fn bound(&self, mode: Mode, id: u64) -> Result<u64, Refusal> {
        let stream = self.stream(id).ok_or(Refusal::NotHeld)?;
        let responses = mode.responses(self, stream, HORIZON);
        let responses = responses.ok_or(Refusal::Endless)?;
        let bound = responses.into_iter().max().expect("a window has a frame");
        refuse_if(bound > stream.deadline, Refusal::Late(bound))?;
        Ok(bound)
    }
}

impl Desk {
    pub fn open_port(self, port: Port) -> Reply<()> {
        if self != Desk::Bare {
            return (self, Err(Refusal::WrongState));
        }
        if !port.in_range() {
            return (self, Err(Refusal::OutOfRange));
        }
        let open = Open { port, slots: Vec::new(), streams: Vec::new() };
        (Desk::Open(open), Ok(()))
    }

    /// Asks an open desk; a bare one refuses with 4.
    fn ask<T>(self, question: impl FnOnce(&Open) -> Result<T, Refusal>) -> Reply<T> {
        let answer = match &self {
            Desk::Bare => Err(Refusal::WrongState),
            Desk::Open(open) => question(open),
        };
        (self, answer)
    }

    /// Puts an edited desk in the place of an open one; a bare one refuses with 4.
    fn edit(self, change: impl FnOnce(&Open) -> Result<Open, Refusal>) -> Reply<()> {
        match self.ask(change) {
            (_, Ok(next)) => (Desk::Open(next), Ok(())),
            (desk, Err(refusal)) => (desk, Err(refusal)),
        }
    }

    pub fn add_slot(self, mode: Mode, slot: Slot) -> Reply<()> {
        self.edit(|open| open.with_slot(mode, slot))
    }

    pub fn remove_slot(self, start: u64) -> Reply<()> {
        self.edit(|open| open.without_slot(start))
    }

    pub fn add_stream(self, stream: Stream) -> Reply<()> {
        self.edit(|open| open.with_stream(stream))
    }

    pub fn remove_stream(self, id: u64) -> Reply<()> {
        self.edit(|open| open.without_stream(id))
    }

    pub fn runs(self, mode: Mode) -> Reply<Vec<Run>> {
        self.ask(|open| Ok(open.runs(mode)))
    }

    pub fn stairs(self, mode: Mode) -> Reply<Vec<Stair>> {
        self.ask(|open| Ok(mode.stairs(open.port.cycle, &open.runs(mode))))
    }

    /// V of a length up to the horizon.
    pub fn interference(self, mode: Mode, length: u64) -> Reply<u64> {
        self.ask(|open| {
            refuse_if(length > HORIZON, Refusal::OverHorizon)?;
            Ok(mode.interference(open.port.cycle, &open.runs(mode), length))
        })
    }

    /// The stream's bound, if it is neither endless nor late.
    pub fn response(self, mode: Mode, id: u64) -> Reply<u64> {
        self.ask(|open| open.bound(mode, id))
    }

    /// Writes the plan to the front of the room and answers how many octets it took.
    pub fn write(self, room: &mut [u8]) -> Reply<usize> {
        self.ask(|open| {
            let plan = crate::plan::octets(open);
            let front = room.get_mut(..plan.len()).ok_or(Refusal::NoRoom)?;
            front.copy_from_slice(&plan);
            Ok(plan.len())
        })
    }
}
