//! One call a line on standard input, one reply a line on standard output. See rust/README.md for the lines.
//!
//! At a terminal it prompts, and says a refusal in words behind its reply.
use console::{make, Line, USAGE};
use ghritpoma::Desk;
use std::io::{self, BufRead, ErrorKind, IsTerminal, Read, Write};
use std::process::ExitCode;

/// The longest line that is taken, its newline included: a longer one is passed over as a whole.
const MOST_LINE: u64 = 1 << 20;

/// The next line as octets, at most so many, or none at the input's end.
fn part(input: &mut impl BufRead) -> io::Result<Option<Vec<u8>>> {
    let mut part = Vec::new();
    let count = input.by_ref().take(MOST_LINE).read_until(b'\n', &mut part)?;
    Ok((count > 0).then_some(part))
}

/// Whether the line goes on after this part of it; if so the rest of it is passed over.
fn goes_on(input: &mut impl BufRead, first: &[u8]) -> io::Result<bool> {
    let open = |part: &[u8]| part.len() as u64 == MOST_LINE && !part.ends_with(b"\n");
    if !open(first) {
        return Ok(false);
    }
    while part(input)?.is_some_and(|rest| open(&rest)) {}
    Ok(true)
}

/// What to print for a line, which may change the desk; nothing for an empty line or a comment.
fn answer(desk: &mut Desk, line: &[u8], terminal: bool) -> Option<String> {
    Some(match Line::parse(&String::from_utf8_lossy(line)) {
        Err(reason) => format!("? {reason}"),
        Ok(Line::Nothing) => return None,
        Ok(Line::Help) => USAGE.join(if terminal { "\n" } else { "; " }),
        Ok(Line::Call(call)) => match make(desk, &call) {
            (reply, Some(refusal)) if terminal => format!("{reply} ({refusal})"),
            (reply, _) => reply.to_string(),
        },
    })
}

fn run(input: &mut impl BufRead, output: &mut impl Write, terminal: bool) -> io::Result<()> {
    let mut desk = Desk::bare();
    loop {
        if terminal {
            write!(output, "> ")?;
            output.flush()?;
        }
        let Some(line) = part(input)? else { break };
        if goes_on(input, &line)? {
            writeln!(output, "? the line is too long")?;
        } else if let Some(text) = answer(&mut desk, &line, terminal) {
            writeln!(output, "{text}")?;
        }
    }
    if terminal {
        writeln!(output)?;
    }
    output.flush()
}

fn main() -> ExitCode {
    let terminal = io::stdin().is_terminal();
    match run(&mut io::stdin().lock(), &mut io::stdout().lock(), terminal) {
        Ok(()) => ExitCode::SUCCESS,
        // whoever read the replies has gone: nothing is left to do
        Err(error) if error.kind() == ErrorKind::BrokenPipe => ExitCode::SUCCESS,
        Err(error) => {
            let _ = writeln!(io::stderr(), "console: {error}");
            ExitCode::FAILURE
        }
    }
}

#[cfg(test)]
mod tests {
    use super::*;

    fn at_terminal(lines: &str) -> String {
        let mut output = Vec::new();
        run(&mut lines.as_bytes(), &mut output, true).unwrap();
        String::from_utf8(output).unwrap()
    }

    #[test]
    fn a_terminal_is_prompted_and_told_in_words() {
        assert_eq!(
            at_terminal("runs\nread 01000c\n\nbare\n"),
            "> 4 (the desk is bare, or it is open already; a plan begins with its PORT)\n\
             > 3 0 (the length is not the tag's)\n> > 0\n> \n"
        );
        assert!(at_terminal("help\n").starts_with("> open RATE CYCLE GUARD HEADER\nslot START END\n"));
    }

    #[test]
    fn a_line_too_long_is_passed_over_whole() {
        let mut input = vec![b'#'; MOST_LINE as usize + 5];
        input.extend(b"\nbare\n");
        let mut output = Vec::new();
        run(&mut input.as_slice(), &mut output, false).unwrap();
        assert_eq!(output, b"? the line is too long\n0\n");
    }
}
