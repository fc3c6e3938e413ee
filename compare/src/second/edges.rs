//! Edges: one per kept pair, with fans as ends, and the loops over them.

use super::fans::Fans;
use super::job::{Job, Sense};
use super::loops::UseLoop;
use super::merge::Merged;
use super::read::Use;
use super::walk::Step;

#[derive(Clone, Debug)]
pub struct NewEdge {
    pub curve: u32,
    pub sense: Sense,
    /// Start and end fan; none for a ring.
    pub ends: Option<(usize, usize)>,
    /// The merged faces beside it, the lower first.
    pub faces: (usize, usize),
    pub active: bool,
}

impl NewEdge {
    /// Where an item of this edge ends.
    pub fn end_of_item(&self, sense: Sense) -> Option<usize> {
        self.ends.map(|(start, end)| match sense {
            Sense::Same => end,
            Sense::Reversed => start,
        })
    }
}

#[derive(Clone, Copy, PartialEq, Eq, Debug)]
pub struct Item {
    pub edge: usize,
    pub sense: Sense,
}

#[derive(Clone, Debug)]
pub struct ItemLoop {
    /// Merged face.
    pub face: usize,
    pub items: Vec<Item>,
}

#[derive(Clone, Debug)]
pub struct EdgeTable {
    pub edges: Vec<NewEdge>,
    pub loops: Vec<ItemLoop>,
}

pub struct Walked<'a> {
    pub job: &'a Job,
    pub uses: &'a [Use],
    pub twins: &'a [usize],
    pub merged: &'a Merged,
    pub steps: &'a [Option<Step>],
    pub loops: &'a [UseLoop],
    pub fans: &'a Fans,
}

pub fn edges(walked: &Walked) -> EdgeTable {
    let mut edges = Vec::new();
    let mut edge_of_use = vec![usize::MAX; walked.uses.len()];
    for (h, step) in walked.steps.iter().enumerate() {
        let twin = walked.twins[h];
        if let Some(step) = step
            && h < twin
        {
            edge_of_use[h] = edges.len();
            edge_of_use[twin] = edges.len();
            edges.push(new_edge(h, *step, walked));
        }
    }
    let item = |&h: &usize| Item {
        edge: edge_of_use[h],
        sense: walked.uses[h].sense,
    };
    let loops = walked.loops.iter().map(|l| ItemLoop {
        face: l.face,
        items: l.uses.iter().map(item).collect(),
    });
    EdgeTable {
        loops: loops.collect(),
        edges,
    }
}

/// The edge of a kept pair with lower use `h`.
fn new_edge(h: usize, step: Step, walked: &Walked) -> NewEdge {
    let u = &walked.uses[h];
    let edge = &walked.job.edges[u.edge];
    let fan = |h: usize| walked.fans.of_use[h].map(|fan| fan.number);
    let along = fan(h).zip(fan(step.successor));
    let ends = match u.sense {
        Sense::Same => along,
        Sense::Reversed => along.map(|(start, end)| (end, start)),
    };
    let a = walked.merged.number[u.face];
    let b = walked.merged.number[walked.uses[walked.twins[h]].face];
    NewEdge {
        curve: edge.curve,
        sense: edge.sense,
        ends,
        faces: (a.min(b), a.max(b)),
        active: true,
    }
}
