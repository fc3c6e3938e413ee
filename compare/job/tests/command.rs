//! The program `job`: files, pipes, exit status.

use std::io::Write;
use std::path::PathBuf;
use std::process::{Command, Output, Stdio};

fn job(words: &[&str], input: &[u8]) -> Output {
    let mut child = Command::new(env!("CARGO_BIN_EXE_job"))
        .args(words)
        .stdin(Stdio::piped())
        .stdout(Stdio::piped())
        .stderr(Stdio::piped())
        .spawn()
        .expect("the program starts");
    let mut pipe = child.stdin.take().expect("it was asked for");
    // A program that needs no input may have closed it.
    let _ = pipe.write_all(input);
    drop(pipe);
    child.wait_with_output().expect("the program ends")
}

fn file(name: &str) -> PathBuf {
    PathBuf::from(env!("CARGO_TARGET_TMPDIR")).join(name)
}

#[test]
fn pipes_and_files_give_the_same() {
    let text = b"head 1\nedge 5 0 - -\n";
    let piped = job(&["assemble"], text);
    assert_eq!(piped.status.code(), Some(0));
    assert_eq!(piped.stdout.len(), 32);
    let (from, to) = (file("from.txt"), file("to.job"));
    std::fs::write(&from, text).expect("a text is written");
    let (from, to) = (from.to_str().expect("text"), to.to_str().expect("text"));
    assert_eq!(
        job(&["assemble", from, "-o", to], b"").status.code(),
        Some(0)
    );
    assert_eq!(std::fs::read(to).expect("it was written"), piped.stdout);
    assert_eq!(job(&["show", to], b"").stdout, text);
    assert_eq!(job(&["show", "-"], &piped.stdout).stdout, text);
}

#[test]
fn wrong_lines_are_named_and_nothing_is_written() {
    let (from, to) = (file("wrong.txt"), file("never.job"));
    std::fs::write(&from, "head x\n\nhaed 1\n").expect("a text is written");
    let (from, to) = (from.to_str().expect("text"), to.to_str().expect("text"));
    let output = job(&["assemble", from, "-o", to], b"");
    assert_eq!(output.status.code(), Some(2));
    let told = String::from_utf8(output.stderr).expect("text");
    let lines: Vec<&str> = told.lines().collect();
    assert_eq!(lines[0], format!("{from}:1: `x` is not a number"));
    assert!(lines[1].starts_with(&format!("{from}:3: no record is called `haed`")));
    assert_eq!(lines.len(), 2);
    assert!(!PathBuf::from(to).exists());
    let piped = job(&["assemble"], b"head x");
    assert_eq!(
        piped.stderr,
        b"standard input:1: `x` is not a number\n".to_vec()
    );
    assert!(piped.stdout.is_empty());
}

#[test]
fn what_cannot_be_done_is_said_in_a_line() {
    for words in [
        &["assemble", "no-such-file.txt"][..],
        &["show", "a", "b"],
        &["show", "--odd"],
        &["convert", "no-such-file.job"],
        &["assemble", "-o"],
        &["knit"],
        &[],
    ] {
        let output = job(words, b"");
        assert_eq!(output.status.code(), Some(2), "{words:?}");
        assert!(!output.stderr.is_empty(), "{words:?}");
        assert!(output.stdout.is_empty(), "{words:?}");
    }
}

#[test]
fn an_older_job_is_converted() {
    let older = job(&["assemble"], b"head 1\n4 7 0 0\n").stdout;
    let output = job(&["convert"], &older);
    assert_eq!(output.status.code(), Some(0));
    assert_eq!(
        job(&["show"], &output.stdout).stdout,
        b"head 1\nface 7 0 0 0 0\n"
    );
}
