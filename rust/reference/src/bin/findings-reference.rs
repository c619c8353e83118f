//! Prints the findings of the plan on standard input.

use reference::{findings, Mode, FINDINGS_LIMIT};
use std::io::{self, Read, Write};

fn main() -> io::Result<()> {
    let mut plan = Vec::new();
    // A failing input counts as ended: what was read up to then is judged.
    let _ = io::stdin().take(FINDINGS_LIMIT as u64).read_to_end(&mut plan);
    io::stdout().write_all(findings(Mode::Fast, &plan).as_bytes())
}
