//! The comparison finds nothing in the core as it is, and each fault that is planted on it.
use std::process::{Command, Output};

fn compare(args: &[&str]) -> (Option<i32>, String) {
    let Output { status, stdout, .. } = Command::new(env!("CARGO_BIN_EXE_compare")).args(args).output().unwrap();
    (status.code(), String::from_utf8(stdout).unwrap())
}

#[test]
fn no_difference() {
    let (code, text) = compare(&["--seed", "7", "--cases", "4000"]);
    assert_eq!(text.lines().last(), Some("compare: 4000 cases, 0 differences"));
    assert_eq!(code, Some(0));
    assert!(text.starts_with("compare: seed 7\n"));
    assert!(text.contains("compare: every number from 1 to 14 occurred\n"));
}

#[test]
fn too_few_cases_to_see_every_refusal() {
    let (code, text) = compare(&["--cases", "3"]);
    assert!(text.lines().last().unwrap().contains("but these refusals did not occur"));
    assert_eq!(code, Some(1));
}

/// A planted fault is found, and what is printed replays: with the fault it differs, and without it does not.
fn found(fault: &str, last_call: &str) {
    let (code, text) = compare(&["--broken", fault, "--cases", "20000"]);
    assert_eq!(code, Some(1), "{fault}");
    assert!(text.lines().last().unwrap().ends_with(" cases, 1 difference"), "{fault}");
    let mut calls = text.lines().filter(|line| !line.starts_with("compare:") && !line.starts_with('#'));
    assert!(calls.next_back().unwrap().starts_with(last_call), "{fault}");
    let file = std::env::temp_dir().join(format!("compare-{}-{fault}", std::process::id()));
    std::fs::write(&file, text).unwrap();
    let name = file.to_str().unwrap();
    let (broken, sound) = (compare(&["--replay", name, "--broken", fault]), compare(&["--replay", name]));
    std::fs::remove_file(&file).unwrap();
    assert_eq!((broken.0, sound.0), (Some(1), Some(0)), "{fault}");
    assert!(sound.1.ends_with(" calls replayed, 0 differences\n"), "{fault}");
}

#[test]
fn planted_faults() {
    let faults = [("figure", "interference "), ("bound", "response "), ("octet", "write "), ("place", "read ")];
    for (fault, last_call) in faults {
        found(fault, last_call);
    }
    for (fault, last_call) in [("kept", "runs"), ("changed", "slot "), ("panic", "response ")] {
        found(fault, last_call);
    }
}

#[test]
fn what_it_cannot_do() {
    for args in [&["--seed"][..], &["--seed", "x"], &["--broken", "nothing"], &["--replay", "/no/such/file"], &["7"]]
    {
        assert_eq!(compare(args).0, Some(2), "{args:?}");
    }
    assert_eq!(compare(&["--broken"]).0, Some(1));
}
