//! `run`: generates jobs and holds both implementations against each other.

use crate::cli::say;
use crate::compare::{Compared, compare};
use crate::generate::rng::Rng;
use crate::generate::{self, Expected, Sample, print_shop as drawn_for_print, tables as drawn};
use crate::print_shop;
use crate::summary::Summary;
use crate::tables;
use crate::twice;
use std::sync::Mutex;
use std::sync::atomic::{AtomicU64, Ordering};

/// Disagreements shown at most.
const SHOWN: usize = 40;

/// Compares a generated job; loading must also come to what it should, and to 45
/// just where a face is selected twice.
pub fn judge(sample: &Sample) -> Compared {
    let mut compared = compare(&sample.job, sample.room);
    let found = compared.refusal.filter(|_| compared.job.is_none());
    let wrong = match sample.expected {
        Expected::Unknown => None,
        Expected::Loads => found.map(|refusal| format!("should load, second {refusal}")),
        Expected::Refused(wanted) if found == Some(wanted) => None,
        Expected::Refused(wanted) => Some(match found {
            None => format!("should be {wanted}, second loads"),
            Some(refusal) => format!("should be {wanted}, second {refusal}"),
        }),
    };
    compared.differences.extend(wrong);
    let twice = twice::unlike(&sample.job, found);
    compared.differences.extend(twice);
    compared
}

/// Job number `index` of a seed as it is supplied with a table.
pub fn with_table(job: &[u8], table: &drawn::Drawn, seed: u64, index: u64) -> Vec<u8> {
    drawn::suited(job, table, &mut Rng::new(seed, index).apart(49))
}

/// The sample with the table drawn for it.
pub fn judge_table(sample: &Sample, seed: u64, index: u64) -> tables::Held {
    let table = drawn::of_job(seed, index);
    let job = with_table(&sample.job, &table, seed, index);
    tables::hold(&job, sample.room, &table)
}

/// Job number `index` of a seed as it is sewn for a print shop.
pub fn for_print(job: &[u8], seed: u64, index: u64) -> Vec<u8> {
    drawn_for_print::suited(job, &mut Rng::new(seed, index).apart(41))
}

/// The sample, as it was compared, for a print shop. A job made of it is compared
/// with the reference too.
pub fn judge_print(
    sample: &Sample,
    compared: &Compared,
    seed: u64,
    index: u64,
) -> print_shop::Held {
    let job = for_print(&sample.job, seed, index);
    if job == sample.job {
        return print_shop::hold(&job, sample.room, compared);
    }
    let compared = compare(&job, sample.room);
    let mut held = print_shop::hold(&job, sample.room, &compared);
    held.differences.extend(compared.differences);
    held
}

/// A job with what was found about it.
struct Judged {
    sample: Sample,
    compared: Compared,
    with_table: Option<tables::Held>,
    for_print: Option<print_shop::Held>,
}

impl Judged {
    /// The first difference, in words.
    fn told(&self) -> Option<String> {
        let ordinary = self.compared.differences.first().cloned();
        let with_table = self.with_table.as_ref().and_then(|held| {
            let told = held.differences.first()?;
            Some(format!("with table {:?}: {told}", held.table))
        });
        let for_print = self.for_print.as_ref().and_then(|held| {
            let told = held.differences.first()?;
            Some(format!("for print: {told}"))
        });
        ordinary.or(with_table).or(for_print)
    }
}

/// Draws a job and compares it, ordinarily, with a table and for print. Drawing
/// sews as well, to know the questions.
fn draw_and_judge(seed: u64, index: u64) -> Judged {
    let drawn = std::panic::catch_unwind(|| {
        let sample = generate::sample(seed, index);
        let compared = judge(&sample);
        let with_table = Some(judge_table(&sample, seed, index));
        let for_print = Some(judge_print(&sample, &compared, seed, index));
        Judged {
            sample,
            compared,
            with_table,
            for_print,
        }
    });
    drawn.unwrap_or_else(|_| {
        let sample = Sample {
            class: "not drawn",
            job: Vec::new(),
            room: 0,
            expected: Expected::Unknown,
        };
        let stopped = "the second implementation stopped by itself".to_string();
        let compared = Compared {
            differences: vec![stopped],
            ..Compared::default()
        };
        Judged {
            sample,
            compared,
            with_table: None,
            for_print: None,
        }
    })
}

pub fn run(seed: u64, jobs: u64) -> bool {
    let started = std::time::Instant::now();
    let summary = Mutex::new(Summary::default());
    let next = AtomicU64::new(0);
    let workers = std::thread::available_parallelism().map_or(1, |n| n.get());
    std::thread::scope(|scope| {
        for _ in 0..workers {
            scope.spawn(|| {
                loop {
                    let index = next.fetch_add(1, Ordering::Relaxed);
                    if index >= jobs {
                        return;
                    }
                    one(seed, index, jobs, &summary);
                }
            });
        }
    });
    let summary = summary.into_inner().expect("no worker stopped");
    eprintln!();
    say!("seed {seed}, {:.1} s", started.elapsed().as_secs_f64());
    for line in summary.lines_of_run() {
        say!("{line}");
    }
    summary.agrees()
}

fn one(seed: u64, index: u64, jobs: u64, summary: &Mutex<Summary>) {
    let judged = draw_and_judge(seed, index);
    let sample = &judged.sample;
    let mut summary = summary.lock().expect("no worker stopped");
    summary.add(sample.class, &sample.job, &judged.compared);
    let with_table = judged.with_table.iter();
    with_table.for_each(|held| summary.tables.add(held));
    let for_print = judged.for_print.iter();
    for_print.for_each(|held| summary.prints.add(held));
    let unlike = summary.all_unlike();
    if let Some(told) = judged.told()
        && unlike <= SHOWN
    {
        let length = sample.job.len();
        say!("job {index} ({}, {length} bytes): {told}", sample.class);
    }
    if summary.jobs.is_multiple_of(1_000) {
        eprint!("\r{} of {jobs} jobs, {unlike} disagree", summary.jobs);
    }
}
