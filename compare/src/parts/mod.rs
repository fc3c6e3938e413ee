//! `parts`: the tester's run. Every file of a folder goes through the program
//! under test and through the reference; what differs is told by kind and part.

mod answers;
mod csv;
mod disc;
mod find;
mod hold;
mod kinds;
mod loops;
mod options;
mod page;
mod progress;
mod report;
mod run;
mod split;
mod totals;
mod words;

#[cfg(test)]
mod tests;

use crate::cli::{Failed, say};
use options::Options;
use std::ffi::OsString;
use std::path::Path;

/// Carries the command out; false if a part differs.
pub fn parts(words: &[OsString]) -> Result<bool, Failed> {
    let options = Options::parse(words)?;
    let reports = [&options.csv, &options.html];
    let found = find::find(&options.paths, &reports)?;
    for file in reports.into_iter().flatten() {
        writable(file)?;
    }
    // A program that stops is told as a difference, not on standard error.
    std::panic::set_hook(Box::new(|_| {}));
    let run = run::run(found, &answers::PROGRAMS);
    let _ = std::panic::take_hook();
    for line in report::lines(&run) {
        say!("{line}");
    }
    if let Some(file) = &options.csv {
        write(file, &csv::table(&run))?;
    }
    if let Some(file) = &options.html {
        write(file, &page::page(&run))?;
    }
    if run.parts.is_empty() {
        return Err("no part was found".to_string());
    }
    Ok(run.differing().next().is_none())
}

/// Tells early, before a long run, that a report could not be written.
fn writable(file: &Path) -> Result<(), Failed> {
    let mut open = std::fs::OpenOptions::new();
    let opened = open.append(true).create(true).open(file);
    opened
        .map(|_| ())
        .map_err(|error| format!("{}: {error}", file.display()))
}

fn write(file: &Path, text: &str) -> Result<(), Failed> {
    std::fs::write(file, text).map_err(|error| format!("{}: {error}", file.display()))
}
