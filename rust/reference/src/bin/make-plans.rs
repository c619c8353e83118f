//! Writes the sample plans to a directory: NAME.plan, and NAME.txt with the findings expected of it.

use reference::{findings, samples, Mode};
use std::path::PathBuf;
use std::{env, fs, io, process};

fn main() -> io::Result<()> {
    let Some(directory) = env::args_os().nth(1).map(PathBuf::from) else {
        eprintln!("usage: make-plans DIR");
        process::exit(2);
    };
    fs::create_dir_all(&directory)?;
    for sample in samples::all() {
        let text = findings(Mode::Fast, &sample.plan);
        if let Some(expected) = sample.expected {
            assert_eq!(text, expected, "{}: worked out by hand otherwise", sample.name);
        }
        fs::write(directory.join(format!("{}.plan", sample.name)), &sample.plan)?;
        fs::write(directory.join(format!("{}.txt", sample.name)), text)?;
    }
    Ok(())
}
