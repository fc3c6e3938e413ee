//! Loops: the cycles of the walks, by ascending start.

use super::merge::Merged;
use super::read::Use;
use super::walk::Step;

#[derive(Clone, Debug)]
pub struct UseLoop {
    /// Merged face.
    pub face: usize,
    pub uses: Vec<usize>,
}

pub fn loops(uses: &[Use], merged: &Merged, steps: &[Option<Step>]) -> Vec<UseLoop> {
    let mut visited = vec![false; uses.len()];
    let mut loops = Vec::new();
    for start in 0..uses.len() {
        if steps[start].is_some() && !visited[start] {
            let walked = walk_from(start, steps);
            for &h in &walked {
                visited[h] = true;
            }
            loops.push(UseLoop {
                face: merged.number[uses[start].face],
                uses: walked,
            });
        }
    }
    loops
}

/// Successors from a start until they lead back to it.
fn walk_from(start: usize, steps: &[Option<Step>]) -> Vec<usize> {
    let next = |h: usize| steps[h].map(|step| step.successor);
    std::iter::successors(Some(start), |&h| next(h).filter(|&n| n != start))
        .take(steps.len())
        .collect()
}
