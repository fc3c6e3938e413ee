//! Reading: the uses of the selected faces, numbered by face, loop and
//! traversal after any reversal.

use super::job::{Job, Loop, Sense};

#[derive(Clone, Debug)]
pub struct Use {
    pub edge: usize,
    /// Selected face.
    pub face: usize,
    pub sense: Sense,
    /// Old successor: the next use in the loop as read, cyclically.
    pub successor: usize,
}

pub struct Reading {
    pub uses: Vec<Use>,
    /// Stored sense of each selected face: own times selected.
    pub senses: Vec<Sense>,
}

pub fn read(job: &Job) -> Reading {
    let mut uses = Vec::new();
    for (face, data) in job.faces.iter().enumerate() {
        for l in &data.loops {
            if let Loop::Uses(stored) = l {
                append_loop(&mut uses, face, as_selected(stored, data.selected));
            }
        }
    }
    let stored = job.faces.iter().map(|face| face.own.product(face.selected));
    Reading {
        uses,
        senses: stored.collect(),
    }
}

/// A face selected Reversed has its uses reversed in order and sense.
fn as_selected(stored: &[(usize, Sense)], selected: Sense) -> Vec<(usize, Sense)> {
    match selected {
        Sense::Same => stored.to_vec(),
        Sense::Reversed => stored
            .iter()
            .rev()
            .map(|&(edge, sense)| (edge, sense.reverse()))
            .collect(),
    }
}

fn append_loop(uses: &mut Vec<Use>, face: usize, items: Vec<(usize, Sense)>) {
    let first = uses.len();
    let last = first + items.len() - 1;
    for (edge, sense) in items {
        let this = uses.len();
        uses.push(Use {
            edge,
            face,
            sense,
            successor: if this == last { first } else { this + 1 },
        });
    }
}

/// The uses of each edge of the job, ascending.
pub fn uses_of_edges(job: &Job, uses: &[Use]) -> Vec<Vec<usize>> {
    let mut lists = vec![Vec::new(); job.edges.len()];
    for (h, u) in uses.iter().enumerate() {
        lists[u.edge].push(h);
    }
    lists
}
