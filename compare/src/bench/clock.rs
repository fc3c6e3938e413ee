//! Medians of interleaved samples.

use crate::compare::ROOM;
use std::time::{Duration, Instant};

/// A sample lasts at least so long.
const SAMPLE: Duration = Duration::from_millis(4);

const SAMPLES: usize = 21;

/// Microseconds for one job.
pub struct Times {
    pub sew: f64,
    /// Load and rebuild, and rebuild alone; none for a job that does not load.
    pub reference: Option<(f64, f64)>,
}

pub fn times(job: &[u8], loads: bool) -> Times {
    let mut out = vec![0; ROOM];
    let sewing = Rounds::of(|n| sew(job, &mut out, n));
    if !loads {
        let mut samples: Vec<f64> = (0..SAMPLES)
            .map(|_| sewing.sample(|n| sew(job, &mut out, n)))
            .collect();
        return Times {
            sew: median(&mut samples),
            reference: None,
        };
    }
    let prepared = reference::prepare(job);
    let rebuilding = Rounds::of(|n| whole(job, &prepared, n));
    let mut samples: [Vec<f64>; 3] = Default::default();
    for _ in 0..SAMPLES {
        samples[0].push(sewing.sample(|n| sew(job, &mut out, n)));
        samples[1].push(rebuilding.sample(|n| whole(job, &prepared, n)));
        samples[2].push(rebuilding.sample(|n| alone(job, &prepared, n)));
    }
    let [sew, whole, alone] = &mut samples;
    Times {
        sew: median(sew),
        reference: Some((median(whole), median(alone))),
    }
}

fn sew(job: &[u8], out: &mut [u8], rounds: u32) -> Duration {
    let started = Instant::now();
    for _ in 0..rounds {
        let _ = std::hint::black_box(zaxclover::sew(std::hint::black_box(job), out));
    }
    started.elapsed()
}

fn whole(job: &[u8], prepared: &reference::Prepared, rounds: u32) -> Duration {
    let started = Instant::now();
    for _ in 0..rounds {
        std::hint::black_box(reference::load(job, prepared).rebuild());
    }
    started.elapsed()
}

/// Loads outside the time taken.
fn alone(job: &[u8], prepared: &reference::Prepared, rounds: u32) -> Duration {
    let mut spent = Duration::ZERO;
    for _ in 0..rounds {
        let loaded = reference::load(job, prepared);
        let started = Instant::now();
        std::hint::black_box(loaded.rebuild());
        spent += started.elapsed();
    }
    spent
}

/// How many rounds make a sample.
struct Rounds(u32);

impl Rounds {
    fn of(mut run: impl FnMut(u32) -> Duration) -> Self {
        let mut rounds = 1;
        while run(rounds) < SAMPLE {
            rounds *= 2;
        }
        Self(rounds)
    }

    /// Microseconds of one round.
    fn sample(&self, mut run: impl FnMut(u32) -> Duration) -> f64 {
        run(self.0).as_secs_f64() * 1e6 / f64::from(self.0)
    }
}

fn median(samples: &mut [f64]) -> f64 {
    samples.sort_by(f64::total_cmp);
    samples[samples.len() / 2]
}
