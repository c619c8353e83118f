//! The console's lines: a call as one line of text, what the proved core replies to it, and the reply as one line.
//!
//! The program `console` reads such lines, and the comparison of the core with a model writes and replays them.

mod call;
mod desk;
mod reply;

pub use call::{Call, Line, MOST_ROOM, USAGE};
pub use desk::make;
pub use reply::{pattern, Reply, Values};

/// The octets that a row of hex digits stands for, or why it stands for none.
fn octets_of(digits: &[u8]) -> Result<Vec<u8>, String> {
    if digits.len() % 2 != 0 {
        return Err("HEX has half an octet".to_string());
    }
    let value = |digit: u8| char::from(digit).to_digit(16).map(|v| v as u8);
    let octet = |pair: &[u8]| Some(value(pair[0])? << 4 | value(pair[1])?);
    let octets: Option<Vec<u8>> = digits.chunks(2).map(octet).collect();
    octets.ok_or_else(|| "HEX has a digit that is none".to_string())
}

/// Octets as hex digits.
fn hex_of(octets: &[u8]) -> String {
    octets.iter().map(|octet| format!("{octet:02x}")).collect()
}
