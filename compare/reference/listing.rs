//! The body records of a rebuilt model.

use crate::decode::Decoded;
use crate::shapes::PointId;
use crate::topology::{BodyId, BodyKind, EdgeId, FaceId, Loop, VertexId};
use crate::{Model, Sense};

/// Uses, removed, passed in total, joins, rings.
pub(crate) type Totals = [u32; 5];

/// How many vertices, edges and faces of the job stand before the body's own.
pub(crate) struct Base {
    pub(crate) vertices: usize,
    pub(crate) edges: usize,
    pub(crate) faces: usize,
}

impl Base {
    pub(crate) fn of(model: &Model) -> Self {
        Self {
            vertices: model.vertices.len(),
            edges: model.edges.len(),
            faces: model.faces.len(),
        }
    }
}

pub(crate) fn field(sense: Sense) -> u32 {
    u32::from(sense == Sense::Reversed)
}

pub(crate) fn point_number(point: PointId) -> u32 {
    match point {
        PointId::Job(number) => number,
        other => panic!("{other:?} is no point of the job"),
    }
}

struct Writer(Vec<u8>);

impl Writer {
    fn record(&mut self, kind: u16, fields: &[u32]) {
        self.0.extend((4 * fields.len() as u32).to_le_bytes());
        self.0.extend(kind.to_le_bytes());
        for field in fields {
            self.0.extend(field.to_le_bytes());
        }
    }
}

pub(crate) fn body_bytes(
    model: &Model,
    body: BodyId,
    base: &Base,
    decoded: &Decoded,
    totals: Totals,
) -> Vec<u8> {
    let mut out = Writer(Vec::new());
    let [uses, removed, passed, joins, rings] = totals;
    let solid = u32::from(model.body(body).kind == BodyKind::Solid);
    out.record(21, &[solid, uses, removed, passed, joins, rings]);
    for vertex in &model.vertices[base.vertices..] {
        out.record(22, &[point_number(vertex.point)]);
    }
    let end = |id: Option<VertexId>| id.map_or(u32::MAX, |v| (v.0 - base.vertices) as u32);
    for edge in &model.edges[base.edges..] {
        let fields = [
            edge.curve.0,
            field(edge.sense),
            end(edge.start),
            end(edge.end),
        ];
        out.record(23, &fields);
    }
    for face in &model.faces[base.faces..] {
        let surface = decoded.surfaces[face.surface.0 as usize];
        out.record(24, &[surface, field(face.sense)]);
        for &id in &face.loops {
            write_loop(&mut out, model, base, model.loop_(id));
        }
    }
    for &lump in &model.body(body).lumps {
        out.record(27, &[]);
        for &shell in &model.lump(lump).shells {
            let number = |face: &FaceId| (face.0 - base.faces) as u32;
            let faces: Vec<u32> = model.shell(shell).faces.iter().map(number).collect();
            out.record(28, &faces);
        }
    }
    out.0
}

fn write_loop(out: &mut Writer, model: &Model, base: &Base, l: &Loop) {
    match l {
        Loop::Vertex(vertex) => out.record(26, &[point_number(model.vertex(*vertex).point)]),
        Loop::Coedges(coedges) => {
            let mut fields = Vec::new();
            for &id in coedges {
                let coedge = model.coedge(id);
                let EdgeId(edge) = coedge.edge;
                fields.extend([(edge - base.edges) as u32, field(coedge.sense)]);
            }
            out.record(25, &fields);
        }
    }
}
