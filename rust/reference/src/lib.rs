//! Document 01 in plain Rust, written from the paper and not from the proved core, to try that core against.
//!
//! Every figure can be had in two ways ([`Mode`]): [`brute`] follows the paper's words cell by cell and number by
//! number, [`fast`] answers large plans. Nothing here is proved; it is meant to be read beside the paper.

pub mod brute;
mod desk;
mod dice;
pub mod fast;
mod findings;
mod mode;
mod plan;
mod records;
mod refusal;
pub mod samples;

pub use desk::{Desk, Open, Reply};
pub use dice::Dice;
pub use findings::{findings, FINDINGS_LIMIT};
pub use mode::Mode;
pub use plan::{read, ReadReply};
pub use records::{wire_time, Load, Port, Run, Slot, Source, Stair, Stream, HORIZON, MOST_SLOTS, MOST_STREAMS};
pub use refusal::Refusal;
