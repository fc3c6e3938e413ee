//! The parts of a folder, and the files there that are none.

use crate::cli::Failed;
use crate::second::load::MAX_BYTES;
use std::io::Read;
use std::path::{Path, PathBuf};

/// Bytes of a text at most. A job's longest text is far shorter.
const LONGEST_TEXT: u64 = 16 << 20;

/// A file under a folder that was named, and what to call it.
pub struct Found {
    pub name: String,
    pub path: PathBuf,
    /// Why it is no part, if that shows before it is read.
    pub odd: Option<String>,
}

/// A part's job.
pub struct Job {
    pub bytes: Vec<u8>,
    /// Length of the whole job, of which no more than the limit and a byte is read.
    pub length: u64,
}

/// All files of the folders named, with those of the folders in them, in the
/// order of their names; but for the reports of an earlier run.
pub fn find(paths: &[PathBuf], reports: &[&Option<PathBuf>]) -> Result<Vec<Found>, Failed> {
    let whole = |path: &PathBuf| path.canonicalize().ok();
    let reports: Vec<PathBuf> = reports
        .iter()
        .filter_map(|report| report.as_ref().and_then(whole))
        .collect();
    let mut found = Vec::new();
    for path in paths {
        let known = std::fs::metadata(path);
        let known = known.map_err(|error| format!("{}: {error}", path.display()))?;
        if !known.is_dir() {
            found.push(file(path, None));
            continue;
        }
        let start = (paths.len() == 1).then_some(&**path);
        folder(path, start, &mut found).map_err(|error| format!("{}: {error}", path.display()))?;
    }
    found.retain(|file| whole(&file.path).is_none_or(|path| !reports.contains(&path)));
    Ok(found)
}

/// Adds what is under a folder. Names are told from the folder `start` on.
fn folder(path: &Path, start: Option<&Path>, found: &mut Vec<Found>) -> std::io::Result<()> {
    let mut inside: Vec<PathBuf> = Vec::new();
    for entry in std::fs::read_dir(path)? {
        match entry {
            Ok(entry) => inside.push(entry.path()),
            Err(error) => found.push(odd(path, start, error.to_string())),
        }
    }
    inside.sort();
    for path in inside {
        // A link to a folder is not followed: it may lead back.
        let is_folder = path.symlink_metadata().is_ok_and(|known| known.is_dir());
        if !is_folder {
            found.push(file(&path, start));
        } else if let Err(error) = folder(&path, start, found) {
            found.push(odd(&path, start, error.to_string()));
        }
    }
    Ok(())
}

fn file(path: &Path, start: Option<&Path>) -> Found {
    match std::fs::metadata(path) {
        Err(error) if path.is_symlink() => odd(path, start, format!("a broken link: {error}")),
        Err(error) => odd(path, start, error.to_string()),
        Ok(known) if known.is_dir() => odd(path, start, "a link to a folder".to_string()),
        Ok(known) if !known.is_file() => odd(path, start, "not a file".to_string()),
        Ok(_) if !is_job(path) && !is_text(path) => {
            odd(path, start, "neither .job nor .txt".to_string())
        }
        Ok(_) => Found {
            name: name(path, start),
            path: path.to_path_buf(),
            odd: None,
        },
    }
}

fn odd(path: &Path, start: Option<&Path>, why: String) -> Found {
    Found {
        name: name(path, start),
        path: path.to_path_buf(),
        odd: Some(why),
    }
}

/// A name on one line; characters that would spoil the line are escaped.
fn name(path: &Path, start: Option<&Path>) -> String {
    let short = start.and_then(|start| path.strip_prefix(start).ok());
    let shown = short.unwrap_or(path).to_string_lossy();
    let mut name = String::new();
    for c in shown.chars() {
        if c.is_control() {
            name.extend(c.escape_default());
        } else {
            name.push(c);
        }
    }
    name
}

fn has_extension(path: &Path, wanted: &str) -> bool {
    let extension = path.extension();
    extension.is_some_and(|extension| extension.eq_ignore_ascii_case(wanted))
}

fn is_job(path: &Path) -> bool {
    has_extension(path, "job")
}

fn is_text(path: &Path) -> bool {
    has_extension(path, "txt")
}

/// The job of a part, or why there is none.
pub fn read(path: &Path) -> Result<Job, String> {
    let file = std::fs::File::open(path).map_err(|error| error.to_string())?;
    if is_job(path) {
        let bytes = first(&file, MAX_BYTES as u64 + 1)?;
        let known = file.metadata().map_err(|error| error.to_string())?;
        let length = known.len().max(bytes.len() as u64);
        return Ok(Job { bytes, length });
    }
    let text = first(&file, LONGEST_TEXT + 1)?;
    if text.len() as u64 > LONGEST_TEXT {
        return Err("a text that is too long".to_string());
    }
    let bytes = job_text::assemble(&text).map_err(|wrong| told(&wrong))?;
    let length = bytes.len() as u64;
    Ok(Job { bytes, length })
}

fn first(file: &std::fs::File, count: u64) -> Result<Vec<u8>, String> {
    let mut bytes = Vec::new();
    let read = file.take(count).read_to_end(&mut bytes);
    read.map(|_| bytes).map_err(|error| error.to_string())
}

/// The first wrong line of a text, and how many more there are.
fn told(wrong: &[job_text::Wrong]) -> String {
    let first = format!("line {}: {}", wrong[0].line, wrong[0].reason);
    match wrong.len() - 1 {
        0 => first,
        more => format!("{first} (and {more} more)"),
    }
}
