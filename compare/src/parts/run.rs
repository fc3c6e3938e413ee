//! The run over all files, on all processors.

use super::answers::Programs;
use super::find::{self, Found};
use super::hold::{Held, hold};
use super::progress::Progress;
use std::sync::Mutex;
use std::sync::atomic::{AtomicUsize, Ordering};

/// Stack of each worker; the library takes about half a megabyte.
const STACK: usize = 16 << 20;

pub struct Part {
    /// Place among all files of the run.
    pub number: usize,
    pub name: String,
    /// Bytes of the job.
    pub length: u64,
    pub held: Held,
}

impl Part {
    pub fn differs(&self) -> bool {
        !self.held.differences.is_empty()
    }
}

/// A file that is no part, and why.
pub struct Odd {
    pub name: String,
    pub why: String,
}

pub struct Run {
    /// What the program under test is called.
    pub tested: &'static str,
    pub parts: Vec<Part>,
    pub odd: Vec<Odd>,
    pub seconds: f64,
}

impl Run {
    pub fn differing(&self) -> impl Iterator<Item = &Part> {
        self.parts.iter().filter(|part| part.differs())
    }
}

pub fn run(found: Vec<Found>, programs: &Programs) -> Run {
    let started = std::time::Instant::now();
    let mut run = Run {
        tested: programs.name,
        parts: Vec::new(),
        odd: Vec::new(),
        seconds: 0.0,
    };
    for result in all(&found, programs) {
        match result {
            Ok(part) => run.parts.push(part),
            Err(odd) => run.odd.push(odd),
        }
    }
    run.seconds = started.elapsed().as_secs_f64();
    run
}

/// What each file gives, in the order of the files.
fn all(found: &[Found], programs: &Programs) -> Vec<Result<Part, Odd>> {
    let next = AtomicUsize::new(0);
    let progress = Mutex::new(Progress::new(found.len()));
    let results = Mutex::new(Vec::new());
    let work = || {
        loop {
            let index = next.fetch_add(1, Ordering::Relaxed);
            let Some(file) = found.get(index) else {
                return;
            };
            let result = one(index, file, programs);
            let differs = result.as_ref().is_ok_and(Part::differs);
            progress.lock().expect("no worker stopped").step(differs);
            let mut results = results.lock().expect("no worker stopped");
            results.push((index, result));
        }
    };
    std::thread::scope(|scope| {
        for _ in 0..std::thread::available_parallelism().map_or(1, |n| n.get()) {
            let worker = std::thread::Builder::new().stack_size(STACK);
            worker.spawn_scoped(scope, work).expect("a worker starts");
        }
    });
    progress.into_inner().expect("no worker stopped").end();
    let mut results = results.into_inner().expect("no worker stopped");
    results.sort_by_key(|(index, _)| *index);
    results.into_iter().map(|(_, result)| result).collect()
}

fn one(number: usize, file: &Found, programs: &Programs) -> Result<Part, Odd> {
    let read = match &file.odd {
        Some(why) => Err(why.clone()),
        None => find::read(&file.path),
    };
    let name = file.name.clone();
    match read {
        Err(why) => Err(Odd { name, why }),
        Ok(job) => Ok(Part {
            number,
            name,
            length: job.length,
            held: hold(&job.bytes, programs),
        }),
    }
}
