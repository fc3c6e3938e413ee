//! `program`: runs outside programs on jobs and compares what they print.

use crate::answer::{Wanted, answer, entries_of};
use crate::cli::{self, Args, Failed, say};
use crate::compare::ROOM;
use crate::generate::rng::Rng;
use crate::generate::{self, tables};
use crate::run::{for_print, with_table};
use crate::second::Stage;
use crate::vectors;
use std::io::Write;
use std::path::Path;
use std::process::{Command, Stdio};
use std::sync::Mutex;
use std::sync::atomic::{AtomicUsize, Ordering};

/// Differences shown at most.
const SHOWN: usize = 40;

/// A job, what to call it, tables to supply with it, and the job for a print shop.
struct Named {
    name: String,
    job: Vec<u8>,
    tables: Vec<Vec<u8>>,
    for_print: Vec<u8>,
}

struct Programs<'a> {
    listing: Option<&'a str>,
    stage: Option<&'a str>,
}

pub fn program(args: &Args) -> Result<bool, Failed> {
    args.no_others()?;
    let programs = Programs {
        listing: args.option("listing"),
        stage: args.option("stage"),
    };
    if programs.listing.is_none() && programs.stage.is_none() {
        return Err("name a program with --listing or --stage".to_string());
    }
    for path in [programs.listing, programs.stage].into_iter().flatten() {
        if !Path::new(path).is_file() {
            return Err(format!("{path}: no such program"));
        }
    }
    let jobs = jobs(args)?;
    let counts = Mutex::new((0, 0));
    let next = AtomicUsize::new(0);
    let failed = Mutex::new(None);
    let workers = std::thread::available_parallelism().map_or(1, |n| n.get());
    std::thread::scope(|scope| {
        for _ in 0..workers {
            scope.spawn(|| {
                while let Some(job) = jobs.get(next.fetch_add(1, Ordering::Relaxed)) {
                    if let Err(error) = one(&programs, job, &counts) {
                        *failed.lock().expect("no worker stopped") = Some(error);
                        return;
                    }
                }
            });
        }
    });
    if let Some(error) = failed.into_inner().expect("no worker stopped") {
        return Err(error);
    }
    let (runs, unlike) = counts.into_inner().expect("no worker stopped");
    say!("jobs {}, runs {runs}, differences {unlike}", jobs.len());
    Ok(unlike == 0)
}

fn jobs(args: &Args) -> Result<Vec<Named>, Failed> {
    if let Some(path) = args.option("vectors") {
        let bytes = cli::read_file(Path::new(path))?;
        let stored = vectors::stored(&bytes).map_err(|error| format!("{path}: {error}"))?;
        let named = stored.into_iter().enumerate().map(|(i, (job, answers))| {
            let of_sewing = answers
                .into_iter()
                .filter(|(operation, _)| *operation == 14);
            Named {
                name: format!("vector {i}"),
                tables: of_sewing.map(|(_, table)| table).collect(),
                for_print: job.clone(),
                job,
            }
        });
        return Ok(named.collect());
    }
    if let Some(path) = args.option("parts") {
        let files = cli::job_files(&[path.to_string()])?;
        let named = |(i, file): (usize, std::path::PathBuf)| {
            let table = tables::some(&mut Rng::new(48, i as u64)).bytes;
            let job = cli::read_job(&file)?;
            Ok(Named {
                name: file.display().to_string(),
                tables: vec![table],
                for_print: job.clone(),
                job,
            })
        };
        return files.into_iter().enumerate().map(named).collect();
    }
    let (seed, jobs) = (args.wanted_number("seed")?, args.wanted_number("jobs")?);
    let sample = |i| {
        let table = tables::of_job(seed, i);
        let job = generate::sample(seed, i).job;
        Named {
            name: format!("job {i}"),
            for_print: for_print(&job, seed, i),
            job: with_table(&job, &table, seed, i),
            tables: vec![table.bytes],
        }
    };
    Ok((0..jobs).map(sample).collect())
}

/// Runs both programs on a job, ordinarily and with its tables, and listing for a
/// print shop; counts runs and differences.
fn one(programs: &Programs, job: &Named, counts: &Mutex<(usize, usize)>) -> Result<(), Failed> {
    // No word of text says some faulty tables.
    let tables = job.tables.iter().filter_map(|table| entries_of(table));
    let tables: Vec<String> = tables.collect();
    let all = (&job.name[..], &job.job[..]);
    if let Some(path) = programs.listing {
        check(path, &[], &["sew"], all, counts)?;
        for entries in &tables {
            let words = ["table", entries];
            check(path, &words, &["sew", "table", entries], all, counts)?;
        }
        let for_print = (&job.name[..], &job.for_print[..]);
        check(
            path,
            &["print-shop"],
            &["sew", "print-shop"],
            for_print,
            counts,
        )?;
    }
    if let Some(path) = programs.stage {
        for stage in Stage::ALL {
            check(path, &[stage.name()], &[stage.name()], all, counts)?;
        }
        for entries in &tables {
            let words = ["walk", "table", entries];
            check(path, &words, &words, all, counts)?;
        }
    }
    Ok(())
}

/// Holds what a program prints, called with some words, against what `answer`
/// prints with its own.
fn check(
    path: &str,
    arguments: &[&str],
    wanted: &[&str],
    (name, job): (&str, &[u8]),
    counts: &Mutex<(usize, usize)>,
) -> Result<(), Failed> {
    let printed = printed(path, arguments, job).map_err(|error| format!("{path}: {error}"))?;
    let words: Vec<String> = wanted.iter().map(|word| word.to_string()).collect();
    let expected = answer(job, Wanted::of_words(&words)?, ROOM);
    let mut counts = counts.lock().expect("no worker stopped");
    counts.0 += 1;
    if printed != expected.as_bytes() {
        counts.1 += 1;
        if counts.1 <= SHOWN {
            let printed = String::from_utf8_lossy(&printed);
            let what = wanted.join(" ");
            say!("{name}, {what}: {}", first_unlike(&expected, &printed));
        }
    }
    Ok(())
}

/// What a program prints when given the job.
fn printed(path: &str, arguments: &[&str], job: &[u8]) -> std::io::Result<Vec<u8>> {
    let mut child = Command::new(path)
        .args(arguments)
        .stdin(Stdio::piped())
        .stdout(Stdio::piped())
        .spawn()?;
    let mut input = child.stdin.take().expect("it was asked for");
    std::thread::scope(|scope| {
        // A program that stops early closes its input; its output shows that.
        scope.spawn(move || {
            let _ = input.write_all(job);
        });
        child.wait_with_output().map(|output| output.stdout)
    })
}

/// The first line in which two texts differ.
fn first_unlike(expected: &str, printed: &str) -> String {
    let (mut ours, mut theirs) = (expected.lines(), printed.lines());
    for line in 1.. {
        let (a, b) = (ours.next(), theirs.next());
        if a != b || a.is_none() {
            let shown =
                |text: Option<&str>| text.map_or("nothing".to_string(), |t| format!("`{t}`"));
            return format!("line {line}: expected {}, printed {}", shown(a), shown(b));
        }
    }
    unreachable!("texts end")
}
