//! The line tool says what the proved program says, on the proved program's own test lines.

use std::fs::{self, File};
use std::io::Write;
use std::path::Path;
use std::process::{Command, Output, Stdio};

fn proved(name: &str) -> std::path::PathBuf {
    Path::new(env!("CARGO_MANIFEST_DIR")).join("../crates/judge_lines").join(name)
}

fn judge(args: &[&str], lines: &str) -> Output {
    let mut child = Command::new(env!("CARGO_BIN_EXE_judge"))
        .args(args)
        .stdin(Stdio::piped())
        .stdout(Stdio::piped())
        .stderr(Stdio::piped())
        .spawn()
        .unwrap();
    // with options that are none the tool ends without reading, and the pipe may be gone
    let _ = child.stdin.take().unwrap().write_all(lines.as_bytes());
    child.wait_with_output().unwrap()
}

fn text(bytes: Vec<u8>) -> String {
    String::from_utf8(bytes).unwrap()
}

/// The proved program has messages among its answers; here they are on standard error, and an answer `error` stands for
/// each. Standard input is a file, so that its lines are counted and it is put back.
#[test]
fn the_proved_programs_answers() {
    let stdin = File::open(proved("stdin")).unwrap();
    let output = Command::new(env!("CARGO_BIN_EXE_judge")).stdin(stdin).output().unwrap();
    let stored = fs::read_to_string(proved("stdout")).unwrap();
    let is_message = |line: &str| line.starts_with("line ");
    let answers: Vec<_> = stored.lines().map(|line| if is_message(line) { "error" } else { line }).collect();
    let messages: Vec<_> = stored.lines().filter(|line| is_message(line)).collect();
    assert!(answers.len() > 200 && messages.len() > 20);
    assert_eq!(text(output.stdout).lines().collect::<Vec<_>>(), answers);
    assert_eq!(text(output.stderr).lines().collect::<Vec<_>>(), messages);
    assert_eq!(output.status.code(), Some(1));
}

#[test]
fn the_example_and_its_trailing_space() {
    let output = judge(&[], "11 03060205030002030201\n");
    assert_eq!(text(output.stdout), "both 3 0 | 1 0 2 | \n");
    assert_eq!(text(output.stderr), "");
    assert_eq!(output.status.code(), Some(0));
}

#[test]
fn a_last_line_without_a_line_feed_counts() {
    assert_eq!(text(judge(&[], "3 010100\n5 -").stdout), "both 1 0 | 1 | \nno claim\n");
}

#[test]
fn time_adds_microseconds() {
    let said = text(judge(&["--time"], "3 010100\n").stdout);
    let time = said.strip_prefix("both 1 0 | 1 |  ").unwrap().strip_suffix(" us\n").unwrap();
    assert!(time.parse::<u64>().is_ok(), "{said}");
}

#[test]
fn memory_is_a_limit() {
    let line = "3000 010100\n";
    assert_eq!(text(judge(&[], line).stdout), "both 1 0 | 1 | \n");
    assert_eq!(text(judge(&["--memory", "1"], line).stdout), "too much memory: 9875672 words\n");
    assert_eq!(judge(&["--memory"], line).status.code(), Some(2));
    assert_eq!(judge(&["lines"], line).status.code(), Some(2));
}
