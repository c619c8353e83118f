//! Findings end to end: the two programs as processes, from start to end.
use crate::clock;
use crate::pair::{compare, Times};
use std::io::Write;
use std::path::{Path, PathBuf};
use std::process::{Command, Stdio};

/// A program under the project's root, and the command that builds it.
fn program(path: &str, built_by: &str) -> PathBuf {
    let program = Path::new(env!("CARGO_MANIFEST_DIR")).join("../..").join(path);
    assert!(program.exists(), "{path} is not there: run `{built_by}`");
    program
}

fn run(program: &Path, plan: &[u8]) -> String {
    let mut command = Command::new(program);
    let mut child = command.stdin(Stdio::piped()).stdout(Stdio::piped()).spawn().expect("a program that starts");
    child.stdin.take().expect("a pipe").write_all(plan).expect("a program that reads");
    let output = child.wait_with_output().expect("a program that ends");
    String::from_utf8(output.stdout).expect("findings in ASCII")
}

/// Processor time of the processes, their start and end included.
pub fn findings(plan: &[u8]) -> Times {
    let core = program("crates/findings/out/findings", "(cd crates/findings && rt run </dev/null)");
    let model = "cargo build --offline --profile bench --bin findings-reference";
    let model = program("rust/target/release/findings-reference", model);
    compare(clock::children, &mut || run(&core, plan), &mut || run(&model, plan))
}
