//! The core and the model side by side: every call is made on both, and replies and desks have to be the same.
use crate::fault::{plant, Fault};
use crate::model::Model;
use crate::tally::Tally;
use console::{make, Call, Reply, Values};
use ghritpoma::{Desk, MOST_OCTETS};
use reference::Mode;
use std::panic::{catch_unwind, set_hook, AssertUnwindSafe};
use std::time::{Duration, Instant};

/// The room of the writes that look at a desk, longer than any plan.
const LOOK_ROOM: u64 = MOST_OCTETS as u64 + 2;

/// Two desks that are meant to be the same, and the calls that led there from the bare one.
pub struct Pair<'a> {
    core: Desk,
    pub model: Model,
    script: Vec<Call>,
    fault: Option<Fault>,
    tally: &'a mut Tally,
}

/// Where the two differ: the last call of the script shows it.
pub struct Difference {
    pub script: Vec<Call>,
    pub what: String,
}

/// What tells two replies apart.
fn apart(core: &Reply, model: &Reply) -> String {
    if let (Values::Room(_, ours), Values::Room(_, theirs)) = (&core.values, &model.values) {
        if let Some(place) = (0..ours.len()).find(|&place| ours[place] != theirs[place]) {
            let (one, other) = (ours[place], theirs[place]);
            return format!("octet {place} of the room: core {one:02x}, model {other:02x}");
        }
    }
    format!("core:  {core}\nmodel: {model}")
}

impl<'a> Pair<'a> {
    /// Both bare.
    pub fn new(brute: bool, fault: Option<Fault>, tally: &'a mut Tally) -> Pair<'a> {
        let model = Model { brute, ..Model::default() };
        Pair { core: Desk::bare(), model, script: Vec::new(), fault, tally }
    }

    fn differ<T>(&self, what: &str) -> Result<T, Difference> {
        Err(Difference { script: self.script.clone(), what: what.to_string() })
    }

    /// Both replies to the last call of the script, which have to be one.
    fn reply(&mut self, call: &Call) -> Result<Reply, Difference> {
        let before = self.fault.map(|fault| (fault, self.core.clone()));
        let mode = self.model.mode(call);
        self.tally.brute += u64::from(mode == Mode::Brute);
        let both = catch_unwind(AssertUnwindSafe(|| {
            let (mut core, _) = make(&mut self.core, call);
            if let Some((fault, before)) = before {
                plant(fault, call, &before, &mut self.core, &mut core);
            }
            (core, self.model.make(mode, call))
        }));
        match both {
            Ok((core, model)) if core == model => Ok(core),
            Ok((core, model)) => self.differ(&apart(&core, &model)),
            Err(_) => self.differ("one of the two panicked"),
        }
    }

    /// Both replies to a question that is no part of the script unless they differ.
    fn aside(&mut self, question: Call) -> Result<usize, Difference> {
        self.script.push(question.clone());
        let reply = self.reply(&question)?;
        self.script.pop();
        Ok(if let Values::Pairs(pairs) = reply.values { pairs.len() } else { 0 })
    }

    /// Asks both for all that they hold: the plan they write has every number.
    fn look(&mut self) -> Result<(), Difference> {
        let (runs, stairs) = (self.aside(Call::Runs)?, self.aside(Call::Stairs)?);
        self.aside(Call::Write(LOOK_ROOM))?;
        if let reference::Desk::Open(open) = &self.model.desk {
            self.tally.mark([open.slots.len(), runs, stairs, open.streams.len()]);
        }
        Ok(())
    }

    /// Makes the call on both. A call that is refused or only asks may not change a desk.
    pub fn make(&mut self, call: Call) -> Result<Reply, Difference> {
        let (core, model) = (self.core.clone(), self.model.desk.clone());
        self.script.push(call.clone());
        let reply = self.reply(&call)?;
        self.tally.count(&call, reply.number);
        let edits =
            !matches!(call, Call::Runs | Call::Stairs | Call::Interference(_) | Call::Response(_) | Call::Write(_));
        if matches!(call, Call::Read(_)) || (edits && reply.number == 0) {
            self.look()?;
        } else if self.core != core {
            return self.differ("the core's desk is changed by this call, which may not change it");
        } else if self.model.desk != model {
            return self.differ("the model's desk is changed by this call, which may not change it");
        }
        Ok(reply)
    }

    /// The core's desk is, in every place of its struct, the one that its written plan reads back as.
    pub fn reads_back(&mut self) -> Result<(), Difference> {
        let mut room = [0; MOST_OCTETS];
        let written = self.core.write(&mut room).map(|count| Desk::read(&room[..count]));
        match written {
            Ok(Ok(desk)) if desk == self.core => Ok(()),
            Err(_) if self.core == Desk::bare() => Ok(()),
            _ => self.differ("the core's plan does not read back as the core's desk"),
        }
    }
}

/// The first difference that a script of calls shows, of the model's two ways.
pub fn replay(script: &[Call], fault: Option<Fault>) -> Option<Difference> {
    [false, true].into_iter().find_map(|brute| {
        let mut tally = Tally::default();
        let mut pair = Pair::new(brute, fault, &mut tally);
        let made = script.iter().try_for_each(|call| pair.make(call.clone()).map(|_| ()));
        made.and_then(|()| pair.reads_back()).err()
    })
}

/// The difference without the calls that it does not need, as far as that is found in some seconds.
pub fn shrunk(found: Difference, fault: Option<Fault>) -> Difference {
    // a panic has been told once
    set_hook(Box::new(|_| {}));
    let begun = Instant::now();
    let Some(mut least) = replay(&found.script, fault) else { return found };
    let mut place = least.script.len();
    while place > 0 && begun.elapsed() < Duration::from_secs(20) {
        place -= 1;
        let mut shorter = least.script.clone();
        shorter.remove(place);
        if let Some(difference) = replay(&shorter, fault) {
            least = difference;
            place = place.min(least.script.len());
        }
    }
    least
}
