//! What is refused, with document 01's numbers and words.
use std::error::Error;
use std::fmt;

/// Why a call was refused; one case for each line of document 01's table.
#[derive(Clone, Copy, Debug, PartialEq, Eq)]
pub enum Refusal {
    CutShort,
    UnknownTag,
    WrongLength,
    OutOfTurn,
    OutOfRange,
    Overlap,
    Full,
    IdHeld,
    NotHeld,
    NoFreeCell,
    NoRoom,
    Endless,
    /// The bound is over the deadline.
    Late {
        bound: u64,
    },
    OverHorizon,
}

impl Refusal {
    /// Document 01's number of this refusal, 1 to 14.
    pub fn number(self) -> u64 {
        match self {
            Refusal::CutShort => 1,
            Refusal::UnknownTag => 2,
            Refusal::WrongLength => 3,
            Refusal::OutOfTurn => 4,
            Refusal::OutOfRange => 5,
            Refusal::Overlap => 6,
            Refusal::Full => 7,
            Refusal::IdHeld => 8,
            Refusal::NotHeld => 9,
            Refusal::NoFreeCell => 10,
            Refusal::NoRoom => 11,
            Refusal::Endless => 12,
            Refusal::Late { .. } => 13,
            Refusal::OverHorizon => 14,
        }
    }

    /// The refusal with this number, and none for 0. `bound` is what 13 carries.
    pub(crate) fn told(number: u64, bound: u64) -> Option<Refusal> {
        Some(match number {
            0 => return None,
            1 => Refusal::CutShort,
            2 => Refusal::UnknownTag,
            3 => Refusal::WrongLength,
            4 => Refusal::OutOfTurn,
            5 => Refusal::OutOfRange,
            6 => Refusal::Overlap,
            7 => Refusal::Full,
            8 => Refusal::IdHeld,
            9 => Refusal::NotHeld,
            10 => Refusal::NoFreeCell,
            11 => Refusal::NoRoom,
            12 => Refusal::Endless,
            13 => Refusal::Late { bound },
            14 => Refusal::OverHorizon,
            _ => unreachable!("the core is proved to answer no number over 14, and it answered {number}"),
        })
    }
}

impl fmt::Display for Refusal {
    fn fmt(&self, f: &mut fmt::Formatter<'_>) -> fmt::Result {
        f.write_str(match self {
            Refusal::CutShort => "the input ends inside a field",
            Refusal::UnknownTag => "unknown tag",
            Refusal::WrongLength => "the length is not the tag's",
            Refusal::OutOfTurn => "the desk is bare, or it is open already; a plan begins with its PORT",
            Refusal::OutOfRange => "a number is outside its range",
            Refusal::Overlap => "the slot overlaps one held",
            Refusal::Full => "32 slots or 64 streams are held already",
            Refusal::IdHeld => "the stream id is held already",
            Refusal::NotHeld => "the slot start or stream id is not held",
            Refusal::NoFreeCell => "no free cell would be left",
            Refusal::NoRoom => "the output room is too short",
            Refusal::Endless => "the stream is endless",
            Refusal::Late { bound } => return write!(f, "the stream is late: its bound is {bound} ns"),
            Refusal::OverHorizon => "the length is over the horizon",
        })
    }
}

impl Error for Refusal {}

/// A plan that was refused, and the place of the refused field's first octet (0 for an empty plan).
#[derive(Clone, Copy, Debug, PartialEq, Eq)]
pub struct RefusedPlan {
    pub refusal: Refusal,
    pub place: usize,
}

impl fmt::Display for RefusedPlan {
    fn fmt(&self, f: &mut fmt::Formatter<'_>) -> fmt::Result {
        write!(f, "at octet {}: {}", self.place, self.refusal)
    }
}

impl Error for RefusedPlan {
    fn source(&self) -> Option<&(dyn Error + 'static)> {
        Some(&self.refusal)
    }
}

#[cfg(test)]
mod tests {
    use super::*;

    #[test]
    fn numbers_go_there_and_back() {
        assert_eq!(Refusal::told(0, 7), None);
        for number in 1..=14 {
            let refusal = Refusal::told(number, 44_000).unwrap();
            assert_eq!(refusal.number(), number);
            assert!(!refusal.to_string().is_empty());
        }
        assert_eq!(Refusal::told(13, 44_000), Some(Refusal::Late { bound: 44_000 }));
    }

    #[test]
    fn words() {
        let refused = RefusedPlan { refusal: Refusal::WrongLength, place: 16 };
        assert_eq!(refused.to_string(), "at octet 16: the length is not the tag's");
        assert_eq!(Refusal::Late { bound: 7 }.to_string(), "the stream is late: its bound is 7 ns");
    }
}
