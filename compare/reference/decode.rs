//! Builds the model of a job that is known to load.

use crate::numbers::{Decider, MarkLog};
use crate::recipe::Origin;
use crate::shapes::{CurveId, PointId, SurfaceId};
use crate::stages::Selection;
use crate::topology::{
    Coedge, CoedgeId, Edge, EdgeId, Face, FaceId, Loop, LoopId, Vertex, VertexId,
};
use crate::{Model, Sense};
use std::collections::BTreeMap;

pub(crate) struct Decoded {
    pub(crate) model: Model,
    pub(crate) selection: Selection,
    pub(crate) proven: bool,
    /// The job's surface number of each selected face.
    pub(crate) surfaces: Vec<u32>,
    pub(crate) decider: Decider,
}

pub(crate) fn decode(job: &[u8]) -> Decoded {
    let mut decoded = Decoded {
        model: Model::default(),
        selection: Selection {
            faces: Vec::new(),
            coincident: BTreeMap::new(),
            intersection: false,
            marks: MarkLog::new(),
        },
        proven: false,
        surfaces: Vec::new(),
        decider: Decider::default(),
    };
    let mut rest = job;
    while !rest.is_empty() {
        let length = u32::from_le_bytes([rest[0], rest[1], rest[2], rest[3]]) as usize;
        let kind = u16::from_le_bytes([rest[4], rest[5]]);
        let fields: Vec<u32> = rest[6..6 + length]
            .chunks_exact(4)
            .map(|b| u32::from_le_bytes([b[0], b[1], b[2], b[3]]))
            .collect();
        decoded.record(u32::from(kind), &fields);
        rest = &rest[6 + length..];
    }
    decoded.decider.selected = decoded.model.faces.len();
    decoded
}

fn sense(field: u32) -> Sense {
    if field == 0 {
        Sense::Same
    } else {
        Sense::Reversed
    }
}

fn end(field: u32) -> Option<VertexId> {
    (field != u32::MAX).then_some(VertexId(field as usize))
}

impl Decoded {
    fn record(&mut self, kind: u32, f: &[u32]) {
        match kind {
            1 => self.proven = f[0] == 1,
            2 => self.model.vertices.push(Vertex {
                point: PointId::Job(f[0]),
            }),
            3 => self.model.edges.push(Edge {
                curve: CurveId(f[0]),
                sense: sense(f[1]),
                start: end(f[2]),
                end: end(f[3]),
            }),
            4 => self.face(f),
            5 => self.edge_loop(f),
            6 => self.add_loop(Loop::Vertex(VertexId(f[0] as usize))),
            _ => self.answer(kind, f),
        }
    }

    /// Body and source face have no counterpart.
    fn face(&mut self, f: &[u32]) {
        let number = self.surfaces.len();
        self.surfaces.push(f[0]);
        let face = Face {
            surface: SurfaceId(number as u32),
            sense: sense(f[1]),
            loops: Vec::new(),
        };
        let id = self.model.add_named_face(face, vec![Origin(number)]);
        self.selection.faces.push((id, sense(f[2])));
    }

    fn edge_loop(&mut self, f: &[u32]) {
        let mut coedges: Vec<CoedgeId> = Vec::new();
        for item in f.chunks_exact(2) {
            coedges.push(self.model.add_coedge(Coedge {
                edge: EdgeId(item[0] as usize),
                sense: sense(item[1]),
            }));
        }
        self.add_loop(Loop::Coedges(coedges));
    }

    fn add_loop(&mut self, l: Loop) {
        let id: LoopId = self.model.add_loop(l);
        let FaceId(latest) = self.selection.faces[self.selection.faces.len() - 1].0;
        self.model.faces[latest].loops.push(id);
    }

    /// Splits an answer into its question and what is said.
    fn answer(&mut self, kind: u32, f: &[u32]) {
        let numbers = match kind {
            7 | 8 | 12 => 1,
            11 => 4,
            _ => 2,
        };
        let mut question = f[..numbers].to_vec();
        if kind == 9 || kind == 10 {
            question.sort_unstable();
        }
        question.insert(0, kind);
        self.decider.answers.insert(question, f[numbers..].to_vec());
    }
}
