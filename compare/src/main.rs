//! The judge: holds the published sewing against a second implementation.

mod answer;
#[cfg(feature = "library")]
mod bench;
mod cli;
mod compare;
mod compared;
mod demand;
mod features;
mod generate;
mod parts;
mod print_shop;
mod program;
mod run;
mod second;
mod summary;
mod table;
mod tables;
mod text;
mod twice;
mod vectors;

#[cfg(test)]
mod tests;

use cli::{Args, Failed, say};
use job_text::records;
use std::ffi::OsString;
use std::io::Write;

const USAGE: &str = "\
usage: judge run --seed S --jobs N
       judge parts DIR [--csv FILE] [--html FILE]
       judge answer STAGE [table ENTRIES | print-shop] [--room N] < job
                                     (STAGE: sew, a stage, loop N; a table with sew and walk,
                                      print-shop with sew)
       judge make --seed S --job I [--table ENTRIES | print-shop] > job
       judge vectors --seed S OUT
       judge table --seed S OUT
       judge program [--listing PATH] [--stage PATH]
                     (--seed S --jobs N | --vectors FILE | --parts DIR)
       judge bench [--save DIR] [FILE..]";

fn main() {
    let args: Vec<OsString> = std::env::args_os().skip(1).collect();
    let Some((command, rest)) = args.split_first() else {
        eprintln!("{USAGE}");
        std::process::exit(2);
    };
    let done = match command.to_str() {
        Some("parts") => parts::parts(rest),
        _ => words(&args).and_then(|words| obey(&words[0], &words[1..])),
    };
    let status = match done {
        Ok(true) => 0,
        Ok(false) => 1,
        Err(line) => {
            eprintln!("judge: {line}");
            2
        }
    };
    std::process::exit(status);
}

/// Arguments that must be text.
fn words(args: &[OsString]) -> Result<Vec<String>, Failed> {
    let word = |arg: &OsString| {
        let text = arg.to_str().map(str::to_string);
        text.ok_or(format!("{}: not text in UTF-8", arg.display()))
    };
    args.iter().map(word).collect()
}

/// Carries out a command; false if something disagreed.
fn obey(command: &str, rest: &[String]) -> Result<bool, Failed> {
    match command {
        "run" => run_jobs(&Args::parse(rest, &["seed", "jobs"])?),
        "answer" => print_answer(&Args::parse(rest, &["room"])?),
        "make" => print_generated(&Args::parse(rest, &["seed", "job", "table"])?),
        "vectors" => write_vectors(&Args::parse(rest, &["seed"])?),
        "table" => write_table(&Args::parse(rest, &["seed"])?),
        "program" => {
            let known = ["listing", "stage", "seed", "jobs", "vectors", "parts"];
            program::program(&Args::parse(rest, &known)?)
        }
        #[cfg(feature = "library")]
        "bench" => bench::bench(&Args::parse(rest, &["save"])?).map(|()| true),
        #[cfg(not(feature = "library"))]
        "bench" => Err("built without the proved library: run tools/compare bench".to_string()),
        _ => Err(format!("{command}: no such command")),
    }
}

fn run_jobs(args: &Args) -> Result<bool, Failed> {
    args.no_others()?;
    let (seed, jobs) = (args.wanted_number("seed")?, args.wanted_number("jobs")?);
    Ok(run::run(seed, jobs))
}

fn print_answer(args: &Args) -> Result<bool, Failed> {
    let wanted = answer::Wanted::of_words(&args.others)?;
    let room = args.number("room")?.unwrap_or(compare::ROOM as u64);
    let job = cli::read_input()?;
    print(answer::answer(&job, wanted, room as usize).as_bytes())
}

fn print_generated(args: &Args) -> Result<bool, Failed> {
    let (seed, job) = (args.wanted_number("seed")?, args.wanted_number("job")?);
    let drawn = generate::sample(seed, job).job;
    let Some(entries) = args.option("table") else {
        return match &args.others[..] {
            [word] if word == "print-shop" => print(&run::for_print(&drawn, seed, job)),
            _ => args.no_others().and_then(|()| print(&drawn)),
        };
    };
    args.no_others()?;
    let table = generate::tables::Drawn {
        bytes: answer::table_of(entries),
        fault: None,
    };
    print(&run::with_table(&drawn, &table, seed, job))
}

fn write_vectors(args: &Args) -> Result<bool, Failed> {
    let seed = args.wanted_number("seed")?;
    let [path] = &args.others[..] else {
        return Err("name the file to write".to_string());
    };
    let packed = vectors::vectors(seed)?;
    std::fs::write(path, &packed.bytes).map_err(|error| format!("{path}: {error}"))?;
    say!("{} jobs, {} bytes", packed.jobs, packed.bytes.len());
    Ok(true)
}

fn write_table(args: &Args) -> Result<bool, Failed> {
    let seed = args.wanted_number("seed")?;
    let [path] = &args.others[..] else {
        return Err("name the file to write".to_string());
    };
    let (module, said) = table::table(seed)?;
    std::fs::write(path, module).map_err(|error| format!("{path}: {error}"))?;
    say!("{said}");
    Ok(true)
}

fn print(bytes: &[u8]) -> Result<bool, Failed> {
    let written = std::io::stdout().write_all(bytes);
    written
        .map(|()| true)
        .map_err(|error| format!("standard output: {error}"))
}
