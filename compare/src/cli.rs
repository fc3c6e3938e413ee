//! Arguments, files and errors of the commands.

use job_text::Wrong;
use std::path::{Path, PathBuf};

/// A command's failure in one line.
pub type Failed = String;

/// Options of the form `--name value`, and the other arguments.
pub struct Args {
    options: Vec<(String, String)>,
    pub others: Vec<String>,
}

impl Args {
    /// Takes the arguments apart; only the options named are known.
    pub fn parse(args: &[String], known: &[&str]) -> Result<Self, Failed> {
        let mut parsed = Self {
            options: Vec::new(),
            others: Vec::new(),
        };
        let mut rest = args.iter();
        while let Some(arg) = rest.next() {
            match arg.strip_prefix("--") {
                None => parsed.others.push(arg.clone()),
                Some(name) if known.contains(&name) => {
                    let value = rest.next().ok_or(format!("--{name} needs a value"))?;
                    parsed.options.push((name.to_string(), value.clone()));
                }
                Some(_) => return Err(format!("no option {arg} here")),
            }
        }
        Ok(parsed)
    }

    pub fn option(&self, name: &str) -> Option<&str> {
        let found = self.options.iter().find(|(option, _)| option == name);
        found.map(|(_, value)| value.as_str())
    }

    pub fn number(&self, name: &str) -> Result<Option<u64>, Failed> {
        let Some(value) = self.option(name) else {
            return Ok(None);
        };
        let number = value.parse();
        number
            .map(Some)
            .map_err(|_| format!("--{name} {value}: not a number"))
    }

    pub fn wanted_number(&self, name: &str) -> Result<u64, Failed> {
        self.number(name)?.ok_or(format!("--{name} is missing"))
    }

    pub fn no_others(&self) -> Result<(), Failed> {
        match self.others.first() {
            None => Ok(()),
            Some(arg) => Err(format!("{arg}: not expected here")),
        }
    }
}

/// Prints a line; whoever closed standard output does not want it.
macro_rules! say {
    ($($line:tt)*) => {{
        use std::io::Write;
        let _ = writeln!(std::io::stdout(), $($line)*);
    }};
}
pub(crate) use say;

pub fn read_file(path: &Path) -> Result<Vec<u8>, Failed> {
    std::fs::read(path).map_err(|error| format!("{}: {error}", path.display()))
}

pub fn read_input() -> Result<Vec<u8>, Failed> {
    let mut bytes = Vec::new();
    std::io::Read::read_to_end(&mut std::io::stdin(), &mut bytes)
        .map_err(|error| format!("standard input: {error}"))?;
    Ok(bytes)
}

/// A job from a file of its bytes (`.job`) or of its text (`.txt`).
pub fn read_job(path: &Path) -> Result<Vec<u8>, Failed> {
    let bytes = read_file(path)?;
    match extension(path) {
        "job" => Ok(bytes),
        "txt" => {
            let first = |wrong: Vec<Wrong>| {
                let Wrong { line, reason } = &wrong[0];
                format!("{}:{line}: {reason}", path.display())
            };
            job_text::assemble(&bytes).map_err(first)
        }
        _ => Err(format!("{}: not a job (.job or .txt)", path.display())),
    }
}

fn extension(path: &Path) -> &str {
    let extension = path.extension().and_then(|extension| extension.to_str());
    extension.unwrap_or("")
}

/// The job files named, those of folders in order of their names.
pub fn job_files(paths: &[String]) -> Result<Vec<PathBuf>, Failed> {
    if paths.is_empty() {
        return Err("name a job file or a folder of job files".to_string());
    }
    let mut files = Vec::new();
    for path in paths {
        let path = PathBuf::from(path);
        if path.is_dir() {
            files.extend(folder(&path)?);
        } else {
            files.push(path);
        }
    }
    Ok(files)
}

fn folder(path: &Path) -> Result<Vec<PathBuf>, Failed> {
    let shown = path.display();
    let entries = std::fs::read_dir(path).map_err(|error| format!("{shown}: {error}"))?;
    let mut files: Vec<PathBuf> = entries
        .filter_map(|entry| entry.ok().map(|entry| entry.path()))
        .filter(|file| ["job", "txt"].contains(&extension(file)))
        .collect();
    files.sort();
    if files.is_empty() {
        return Err(format!("{shown}: no .job or .txt file in this folder"));
    }
    Ok(files)
}
