//! A reply: document 01's number and what goes with it.
use crate::hex_of;
use std::fmt;

/// What a call answers.
#[derive(Clone, Debug, PartialEq, Eq)]
pub struct Reply {
    /// The refusal's number, 0 where the call is accepted.
    pub number: u64,
    pub values: Values,
}

/// What goes with the number.
#[derive(Clone, Debug, PartialEq, Eq)]
pub enum Values {
    Nothing,
    /// Interference, a bound, or the place in a plan that was refused.
    Figure(u64),
    /// Runs as start and length, stairs as distance and total.
    Pairs(Vec<(u64, u64)>),
    /// How many octets were written, and every octet of the room after the call.
    Room(usize, Vec<u8>),
}

/// What stands in a room before it is written to: octets that tell the places and the lengths of rooms apart.
pub fn pattern(room: u64) -> Vec<u8> {
    (0..room).map(|place| (place as u8).wrapping_mul(37) ^ (place >> 8) as u8 ^ room as u8).collect()
}

impl fmt::Display for Reply {
    /// The number and the values, separated by blanks. Of a room, the octets written alone.
    fn fmt(&self, f: &mut fmt::Formatter<'_>) -> fmt::Result {
        write!(f, "{}", self.number)?;
        match &self.values {
            Values::Nothing => Ok(()),
            Values::Figure(figure) => write!(f, " {figure}"),
            Values::Pairs(pairs) => pairs.iter().try_for_each(|(one, other)| write!(f, " {one},{other}")),
            Values::Room(..) if self.number != 0 => Ok(()),
            Values::Room(count, room) => write!(f, " {count} {}", hex_of(room.get(..*count).unwrap_or(room))),
        }
    }
}
