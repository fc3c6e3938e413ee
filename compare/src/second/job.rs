//! A job after loading.

use super::questions::{Question, Reply};
use std::collections::BTreeMap;
use std::ops::Range;

/// Written where there is no vertex or no fan.
pub const NONE: u32 = u32::MAX;

#[derive(Clone, Copy, PartialEq, Eq, Debug)]
pub enum Sense {
    Same,
    Reversed,
}

impl Sense {
    /// Sense of a field known to be 0 or 1.
    pub fn of(field: u32) -> Self {
        if field == 0 {
            Self::Same
        } else {
            Self::Reversed
        }
    }

    pub fn field(self) -> u32 {
        match self {
            Self::Same => 0,
            Self::Reversed => 1,
        }
    }

    pub fn reverse(self) -> Self {
        match self {
            Self::Same => Self::Reversed,
            Self::Reversed => Self::Same,
        }
    }

    pub fn product(self, other: Self) -> Self {
        if self == other {
            Self::Same
        } else {
            Self::Reversed
        }
    }
}

#[derive(Clone, Copy, Debug)]
pub struct Edge {
    pub curve: u32,
    pub sense: Sense,
    /// Start and end vertex; none for a ring.
    pub ends: Option<(usize, usize)>,
}

impl Edge {
    /// Where a use of this edge starts and ends.
    pub fn ends_of_use(&self, sense: Sense) -> Option<(usize, usize)> {
        self.ends.map(|(start, end)| match sense {
            Sense::Same => (start, end),
            Sense::Reversed => (end, start),
        })
    }
}

#[derive(Clone, Debug)]
pub struct Face {
    pub surface: u32,
    pub own: Sense,
    pub selected: Sense,
    /// The body that it was selected from, 0 or 1, and its number there.
    pub body: u32,
    pub source: u32,
    pub loops: Vec<Loop>,
}

#[derive(Clone, Debug)]
pub enum Loop {
    /// Edge and sense of each use, as stored.
    Uses(Vec<(usize, Sense)>),
    Vertex(usize),
}

#[derive(Clone, Debug, Default)]
pub struct Job {
    /// Head says that every shell is outer.
    pub proven: bool,
    /// Point of each vertex.
    pub vertices: Vec<u32>,
    pub edges: Vec<Edge>,
    pub faces: Vec<Face>,
    /// Bytes of the payload of each loop, both sorts, in order.
    pub payloads: Vec<Range<usize>>,
    /// Uses of all loops.
    pub use_count: usize,
    pub answers: BTreeMap<Question, Reply>,
}
