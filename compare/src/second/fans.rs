//! Fans: kept uses with ends, joined round the corner where they start.

use super::job::Job;
use super::partition::Partition;
use super::read::Use;
use super::walk::Step;

pub struct Fans {
    /// Fan and point of each kept use with ends, by use.
    pub of_use: Vec<Option<Fan>>,
}

#[derive(Clone, Copy, Debug)]
pub struct Fan {
    /// Its lowest use.
    pub number: usize,
    pub point: u32,
}

pub fn fans(job: &Job, uses: &[Use], twins: &[usize], steps: &[Option<Step>]) -> Fans {
    let start_of = |h: usize| {
        let u = &uses[h];
        job.edges[u.edge]
            .ends_of_use(u.sense)
            .map(|(start, _)| start)
    };
    let mut parts = Partition::new(uses.len());
    for (h, step) in steps.iter().enumerate() {
        if let (Some(step), Some(_)) = (step, start_of(h)) {
            parts.join(step.successor, twins[h]);
        }
    }
    let fan = |h: usize| {
        let vertex = start_of(h)?;
        steps[h].map(|_| Fan {
            number: parts.lowest(h),
            point: job.vertices[vertex],
        })
    };
    Fans {
        of_use: (0..uses.len()).map(fan).collect(),
    }
}
