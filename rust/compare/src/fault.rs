//! Wrong answers to plant on the core's side, to see that the comparison finds them.
use console::{Call, Reply, Values};
use ghritpoma::Desk;

/// A fault by what it does.
#[derive(Clone, Copy, Debug, PartialEq, Eq)]
pub enum Fault {
    /// Interference is too low by one.
    Figure,
    /// The bound of a late stream is too low by one.
    Bound,
    /// A room's last octet is changed, behind what is written or though the call is refused.
    Octet,
    /// The place in a refused plan is one too far on.
    Place,
    /// The removal of a slot is answered and not made.
    Kept,
    /// A slot that overlaps another is refused, and the desk is changed.
    Changed,
    /// An answer never comes: the call panics.
    Panic,
}

const FAULTS: [(&str, Fault); 7] = [
    ("figure", Fault::Figure),
    ("bound", Fault::Bound),
    ("octet", Fault::Octet),
    ("place", Fault::Place),
    ("kept", Fault::Kept),
    ("changed", Fault::Changed),
    ("panic", Fault::Panic),
];

/// The fault of this name.
pub fn named(name: &str) -> Option<Fault> {
    FAULTS.iter().find(|fault| fault.0 == name).map(|fault| fault.1)
}

/// Spoils the core's right reply to a call and the desk after it; `before` is the desk before it.
pub fn plant(fault: Fault, call: &Call, before: &Desk, desk: &mut Desk, reply: &mut Reply) {
    match (fault, call, reply.number, &mut reply.values) {
        (Fault::Figure, Call::Interference(_), 0, Values::Figure(figure)) => *figure = figure.saturating_sub(1),
        (Fault::Bound, Call::Response(_), 13, Values::Figure(bound)) => *bound -= 1,
        (Fault::Octet, Call::Write(_), number, Values::Room(count, room)) if number != 0 || *count < room.len() => {
            if let Some(last) = room.last_mut() {
                *last ^= 1;
            }
        }
        (Fault::Place, Call::Read(_), 1.., Values::Figure(place)) => *place += u64::from(*place > 0),
        (Fault::Kept, Call::Unslot(_), 0, _) => *desk = before.clone(),
        (Fault::Changed, Call::Slot { .. }, 6, _) => *desk = Desk::bare(),
        (Fault::Panic, Call::Response(_), 12, _) => panic!("a planted panic"),
        _ => {}
    }
}
