//! Sews a part file and prints the listing of its body.
//!
//! usage: list FILE.job
//!
//! The exit status is 0 if the part is sewn, 1 if it is refused, 2 if the file cannot be used.
use std::env;
use std::fs;
use std::io::{self, Write};
use std::process::ExitCode;

fn main() -> ExitCode {
    let mut names = env::args_os().skip(1);
    let (Some(name), None) = (names.next(), names.next()) else {
        eprintln!("usage: list FILE.job");
        return ExitCode::from(2);
    };
    let job = match fs::read(&name) {
        Ok(job) => job,
        Err(why) => {
            eprintln!("list: {}: {why}", name.display());
            return ExitCode::from(2);
        }
    };
    let (text, status) = match zaxclover::listing(&job) {
        Ok(text) => (text, 0),
        Err(refusal) => {
            eprintln!("list: {}: {refusal}", name.display());
            (format!("refused {} {}\n", refusal.number, refusal.place), 1)
        }
    };
    if let Err(why) = io::stdout().write_all(text.as_bytes()) {
        eprintln!("list: standard output: {why}");
        return ExitCode::from(2);
    }
    ExitCode::from(status)
}
