//! `bench`: the proved library's sewing beside the reference, on the same jobs, in one run.

mod clock;
mod parts;

use crate::cli::{self, Args, Failed, say};
use crate::second;
use clock::Times;
use parts::Part;
use std::path::Path;

pub fn bench(args: &Args) -> Result<(), Failed> {
    let parts = match args.others.is_empty() {
        true => parts::all(),
        false => named(&args.others)?,
    };
    if let Some(folder) = args.option("save") {
        return save(&parts, Path::new(folder));
    }
    say!(
        "| Part | Bytes | Uses | Answers | Joins | Ending | Rust, load and rebuild, µs | Rust, rebuild alone, µs | `sew`, µs | Ratio | Ratio to rebuild alone |"
    );
    say!("|---|---|---|---|---|---|---|---|---|---|---|");
    for part in parts {
        say!("{}", row(&part));
    }
    Ok(())
}

/// Writes the jobs into a folder, for a closer look at one of them.
fn save(parts: &[Part], folder: &Path) -> Result<(), Failed> {
    for (i, part) in parts.iter().enumerate() {
        let path = folder.join(format!("{i:02}.job"));
        std::fs::write(&path, &part.job).map_err(|error| format!("{}: {error}", path.display()))?;
        say!("{}: {}", path.display(), part.name);
    }
    Ok(())
}

fn named(paths: &[String]) -> Result<Vec<Part>, Failed> {
    let part = |path: std::path::PathBuf| {
        let job = cli::read_job(&path)?;
        let name = path.display().to_string();
        Ok(Part { name, job })
    };
    cli::job_files(paths)?.into_iter().map(part).collect()
}

/// A row of the table. A job that does not load has no time in the reference, which has no loader.
fn row(part: &Part) -> String {
    let job = &part.job;
    let times = clock::times(job, second::load(job).is_ok());
    let (uses, answers, joins, ending) = figures(job);
    format!(
        "| {} | {} | {uses} | {answers} | {joins} | {ending} | {} |",
        part.name,
        job.len(),
        columns(&times)
    )
}

fn columns(times: &Times) -> String {
    let ours = times.sew;
    match times.reference {
        None => format!("– | – | {ours:.1} | – | –"),
        Some((whole, alone)) => format!(
            "{whole:.1} | {alone:.1} | {ours:.1} | {:.1} | {:.1}",
            whole / ours,
            alone / ours
        ),
    }
}

/// Uses, answers and joins of a job, and how it ends.
fn figures(job: &[u8]) -> (usize, usize, u32, String) {
    let loaded = match second::load(job) {
        Ok(loaded) => loaded,
        Err(refusal) => return (0, 0, 0, refusal.to_string()),
    };
    let trail = second::sew(&loaded, &mut &loaded.answers);
    let joins = trail.joined.as_ref().map_or(0, |joined| joined.joins);
    let ending = match trail.refusal {
        None => "accepted".to_string(),
        Some(refusal) => refusal.to_string(),
    };
    (loaded.use_count, loaded.answers.len(), joins, ending)
}
