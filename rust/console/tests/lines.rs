//! Scripts into the console, lines out of it.
use std::io::Write;
use std::process::{Command, Output, Stdio};

const PLAN_F: &str = "01000d02000186a0000003e8000001f402000800002710000036b00200080000753000007ef4\
                      0200080000ea6000010b94030011000106007500030d40000000000000c350\
                      03001100020300f200061a800000000000009c40";

fn run(input: &[u8]) -> Output {
    let mut program = Command::new(env!("CARGO_BIN_EXE_console"));
    program.stdin(Stdio::piped()).stdout(Stdio::piped()).stderr(Stdio::piped());
    let mut child = program.spawn().unwrap();
    let mut stdin = child.stdin.take().unwrap();
    stdin.write_all(input).unwrap();
    drop(stdin);
    child.wait_with_output().unwrap()
}

/// Each line of the script is a call, `=>` and its reply.
fn check(script: &str) {
    let pairs: Vec<(&str, &str)> = script.lines().filter_map(|line| line.split_once("=>")).collect();
    let input: String = pairs.iter().map(|(call, _)| format!("{call}\n")).collect();
    let output = run(input.as_bytes());
    let replies = String::from_utf8(output.stdout).unwrap();
    assert!(output.status.success() && output.stderr.is_empty());
    assert_eq!(replies.lines().count(), pairs.len());
    for ((call, reply), line) in pairs.iter().zip(replies.lines()) {
        assert_eq!(line, reply.trim(), "{call}");
    }
}

#[test]
fn plan_f() {
    check(&format!(
        "open 2 100000 1000 500 => 0
        slot 10000 14000 => 0
        slot 60000 68500 => 0
        slot 30000 32500 => 0
        stream 2 3 242 400000 0 40000 => 0
        stream 1 6 117 200000 0 50000 => 0
        runs => 0 9000,5500 29000,4000 59000,10000
        stairs => 0 0,10000 30000,14000 50000,19500
        interference 0 => 0 10000
        interference 130000 => 0 33500
        response 1 => 0 44000
        response 2 => 13 44000
        write 89 => 0 89 {PLAN_F}
        write 65536 => 0 89 {PLAN_F}
        bare => 0
        runs => 4
        read {PLAN_F} => 0
        response 2 => 13 44000"
    ));
}

#[test]
fn refusals_with_their_numbers() {
    check(
        "slot 0 1 => 4
        unslot 0 => 4
        stream 1 1 64 10000 0 1 => 4
        unstream 1 => 4
        runs => 4
        stairs => 4
        interference 0 => 4
        response 1 => 4
        write 65536 => 4
        open 3 1000 0 50 => 5
        open 18446744073709551615 1000 100 50 => 5
        open 3 1000 100 50 => 0
        open 3 1000 100 50 => 4
        slot 0 850 => 10
        slot 0 849 => 0
        slot 800 900 => 6
        slot 1 1001 => 5
        unslot 1 => 9
        unslot 0 => 0
        runs => 0
        stairs => 0
        stream 7 3 1242 10000 0 1 => 0
        stream 7 3 64 10000 0 1 => 8
        stream 4294967303 3 64 10000 0 1 => 5
        response 7 => 12
        response 8 => 9
        unstream 8 => 9
        unstream 7 => 0
        interference 100000000 => 0 0
        interference 100000001 => 14
        write 15 => 11
        write 16 => 0 16 01000d03000003e80000006400000032
        write 0 => 11",
    );
    let slots: String = (0..32).map(|k| format!("slot {k} {} => 0\n", k + 1)).collect();
    check(&format!("open 1 1000 1 0 => 0\n{slots}slot 40 41 => 7"));
}

#[test]
fn plans_that_are_refused_leave_the_bare_desk() {
    check(
        "open 3 1000 100 50 => 0
        read => 4 0
        runs => 4
        read 01 => 1 0
        read 090000 => 2 0
        read 01000C => 3 0
        read 020008 00000000 00000001 => 4 0
        read 01000d 03 000003e8 00000064 00000032 02 => 1 16
        read 01 000D 03 000003E8 00000064 00000032 => 0
        runs => 0",
    );
}

#[test]
fn lines_that_are_not_understood_change_nothing() {
    check(
        "open 3 1000 100 50 => 0
        close => ? no such call; help lists them
        OPEN 3 1000 100 50 => ? no such call; help lists them
        slot 1 => ? the call is: slot START END
        runs 1 => ? the call is: runs
        slot 1 2 3 => ? the call is: slot START END
        slot +1 2 => ? START is not a decimal number
        slot 1 0x2 => ? END is not a decimal number
        response 18446744073709551616 => ? ID is over 64 bits
        response 18446744073709551615 => 9
        write 65537 => ? ROOM is over 65536
        read 010 => ? HEX has half an octet
        read 0g => ? HEX has a digit that is none
        runs => 0",
    );
}

#[test]
fn empty_lines_comments_line_ends_and_help() {
    let output = run(b"\n  \t\n# runs\n#\n\r\nopen 3 1000 100 50\r\n  runs  \nhelp\nstairs");
    let replies = String::from_utf8(output.stdout).unwrap();
    let lines: Vec<&str> = replies.lines().collect();
    assert_eq!((lines.len(), lines[0], lines[1], lines[3]), (4, "0", "0", "0"));
    assert!(lines[2].starts_with("open RATE CYCLE GUARD HEADER; slot START END; "));
    assert!(lines[2].ends_with("; read HEX; bare; help"));
}

#[test]
fn octets_that_are_no_text() {
    let output = run(b"\xff\xfe\nread \xff\xff\nslot \xc3 1\n\0\nbare\n");
    assert!(output.status.success() && output.stderr.is_empty());
    let replies = String::from_utf8(output.stdout).unwrap();
    assert_eq!(replies.lines().map(|line| &line[..1]).collect::<String>(), "????0");
}

#[test]
fn whoever_reads_the_replies_may_leave() {
    let mut program = Command::new(env!("CARGO_BIN_EXE_console"));
    program.stdin(Stdio::piped()).stdout(Stdio::piped()).stderr(Stdio::piped());
    let mut child = program.spawn().unwrap();
    drop(child.stdout.take());
    let mut stdin = child.stdin.take().unwrap();
    // the console may have left before all is written
    let _ = stdin.write_all("bare\n".repeat(10_000).as_bytes());
    drop(stdin);
    let output = child.wait_with_output().unwrap();
    assert!(output.status.success() && output.stderr.is_empty());
}
