//! What is refused, with the paper's numbers.

/// Why a call was refused; one case for each line of the paper's table.
#[derive(Clone, Copy, Debug, PartialEq, Eq)]
pub enum Refusal {
    /// The input ends inside a field.
    Cut,
    UnknownTag,
    /// The length is not the tag's.
    WrongLength,
    /// A call on a bare desk, opening an open one, or a plan that does not begin with PORT.
    WrongState,
    /// A number outside its range.
    OutOfRange,
    /// The slot overlaps one held.
    Overlap,
    /// 32 slots or 64 streams are held already.
    Full,
    /// The stream id is held already.
    IdHeld,
    /// The slot start or stream id is not held.
    NotHeld,
    /// No free cell would be left.
    NoFreeCell,
    /// The output room is too short.
    NoRoom,
    Endless,
    /// The bound is over the deadline; it is carried along.
    Late(u64),
    /// The length is over the horizon.
    OverHorizon,
}

impl Refusal {
    /// The paper's number of this refusal.
    pub fn number(self) -> u64 {
        match self {
            Refusal::Cut => 1,
            Refusal::UnknownTag => 2,
            Refusal::WrongLength => 3,
            Refusal::WrongState => 4,
            Refusal::OutOfRange => 5,
            Refusal::Overlap => 6,
            Refusal::Full => 7,
            Refusal::IdHeld => 8,
            Refusal::NotHeld => 9,
            Refusal::NoFreeCell => 10,
            Refusal::NoRoom => 11,
            Refusal::Endless => 12,
            Refusal::Late(_) => 13,
            Refusal::OverHorizon => 14,
        }
    }
}
