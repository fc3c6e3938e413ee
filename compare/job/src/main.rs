//! `job assemble` and `job show`: a job's text to bytes and back; `job convert`:
//! an older job in the form of today.

use job_text::{assemble, convert, kinds, show};
use std::ffi::OsString;
use std::io::{ErrorKind, IsTerminal, Read, Write};
use std::path::{Path, PathBuf};
use std::process::ExitCode;

const USAGE: &str = "\
usage: job assemble [FILE.txt] [-o FILE.job]    text to bytes
       job show [FILE.job] [-o FILE.txt]        bytes to text
       job convert [FILE] [-o FILE]             an older job, bytes or text, whose faces have three
                                                fields: each gets body 0 and its own number
Without a file, or with `-`, standard input is read; without -o, standard output is written.";

const MORE: &str = "\
A number before fields writes a record of any kind with any fields; `bytes 0a ff ..` writes
bytes as they are. `-` stands for no vertex at the ends of an edge, `#` begins a comment.";

/// Lines for standard error.
type Failed = Vec<String>;

struct Args {
    input: Option<PathBuf>,
    output: Option<PathBuf>,
}

fn main() -> ExitCode {
    let args: Vec<OsString> = std::env::args_os().skip(1).collect();
    let Some((command, rest)) = args.split_first() else {
        eprintln!("{USAGE}");
        return ExitCode::from(2);
    };
    let done = match command.to_str() {
        Some("assemble") => parse(rest).and_then(|args| assemble_file(&args)),
        Some("show") => parse(rest).and_then(|args| show_file(&args)),
        Some("convert") => parse(rest).and_then(|args| convert_file(&args)),
        Some("help" | "--help" | "-h") => put(&Args::none(), help().as_bytes()),
        _ => Err(vec![format!(
            "job: {}: no such command\n{USAGE}",
            command.display()
        )]),
    };
    let Err(lines) = done else {
        return ExitCode::SUCCESS;
    };
    for line in lines {
        let _ = writeln!(std::io::stderr(), "{line}");
    }
    ExitCode::from(2)
}

impl Args {
    fn none() -> Self {
        Self {
            input: None,
            output: None,
        }
    }

    fn input_name(&self) -> String {
        match &self.input {
            Some(path) => path.display().to_string(),
            None => "standard input".to_string(),
        }
    }
}

fn parse(words: &[OsString]) -> Result<Args, Failed> {
    let mut args = Args::none();
    let mut input = None;
    let mut words = words.iter();
    while let Some(word) = words.next() {
        if word == "-o" {
            let file = words.next().ok_or(vec!["job: -o needs a file".into()])?;
            args.output = Some(file.into());
        } else if word.as_encoded_bytes().starts_with(b"-") && word != "-" {
            return Err(vec![format!("job: no option {} here", word.display())]);
        } else if input.replace(word).is_some() {
            return Err(vec!["job: name one file at a time".into()]);
        }
    }
    args.input = input.filter(|word| *word != "-").map(PathBuf::from);
    Ok(args)
}

/// Bytes are not for a terminal.
fn away_from_terminal(args: &Args) -> Result<(), Failed> {
    if args.output.is_none() && std::io::stdout().is_terminal() {
        return Err(vec![
            "job: bytes are not for a terminal: write to a file with -o or >".into(),
        ]);
    }
    Ok(())
}

fn assemble_file(args: &Args) -> Result<(), Failed> {
    away_from_terminal(args)?;
    let name = args.input_name();
    let told = |wrong: job_text::Wrong| format!("{name}:{}: {}", wrong.line, wrong.reason);
    let job = assemble(&get(args)?);
    put(
        args,
        &job.map_err(|all| all.into_iter().map(told).collect::<Failed>())?,
    )
}

fn show_file(args: &Args) -> Result<(), Failed> {
    put(args, show(&get(args)?).as_bytes())
}

fn convert_file(args: &Args) -> Result<(), Failed> {
    let converted = convert(&get(args)?);
    if converted.contains(&0) {
        away_from_terminal(args)?;
    }
    put(args, &converted)
}

fn help() -> String {
    let mut text = format!("{USAGE}\n\nA line for each record, by name and fields:\n");
    for kind in &kinds::JOB {
        text += &format!("  {}\n", kind.form());
    }
    text + MORE + "\n"
}

fn get(args: &Args) -> Result<Vec<u8>, Failed> {
    let bytes = match &args.input {
        Some(path) => std::fs::read(path),
        None => {
            let mut bytes = Vec::new();
            std::io::stdin().read_to_end(&mut bytes).map(|_| bytes)
        }
    };
    bytes.map_err(|error| vec![format!("job: {}: {error}", args.input_name())])
}

fn put(args: &Args, bytes: &[u8]) -> Result<(), Failed> {
    let Some(path) = &args.output else {
        return put_out(bytes);
    };
    let told = |error| vec![format!("job: {}: {error}", Path::new(path).display())];
    std::fs::write(path, bytes).map_err(told)
}

/// Whoever closed standard output does not want the rest.
fn put_out(bytes: &[u8]) -> Result<(), Failed> {
    let mut out = std::io::stdout();
    match out.write_all(bytes).and_then(|()| out.flush()) {
        Err(error) if error.kind() != ErrorKind::BrokenPipe => {
            Err(vec![format!("job: standard output: {error}")])
        }
        _ => Ok(()),
    }
}
