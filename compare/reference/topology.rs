//! Stand-in for the model: plain lists, to which sewing appends its result.

use crate::numbers::MarkLog;
use crate::recipe::{EdgeName, Origin};
use crate::shapes::{CurveId, Geom, PointId, SurfaceId};

macro_rules! id {
    ($($name:ident),*) => {$(
        #[derive(Clone, Copy, PartialEq, Eq, PartialOrd, Ord, Debug)]
        pub(crate) struct $name(pub(crate) usize);
    )*};
}
id!(
    VertexId, EdgeId, CoedgeId, LoopId, FaceId, ShellId, LumpId, BodyId
);

#[derive(Clone, Copy, PartialEq, Eq, Debug)]
pub(crate) enum Sense {
    Same,
    Reversed,
}

#[derive(Clone)]
pub(crate) struct Vertex {
    pub(crate) point: PointId,
}

#[derive(Clone)]
pub(crate) struct Edge {
    pub(crate) curve: CurveId,
    pub(crate) sense: Sense,
    pub(crate) start: Option<VertexId>,
    pub(crate) end: Option<VertexId>,
}

#[derive(Clone)]
pub(crate) struct Coedge {
    pub(crate) edge: EdgeId,
    pub(crate) sense: Sense,
}

#[derive(Clone)]
pub(crate) enum Loop {
    Coedges(Vec<CoedgeId>),
    Vertex(VertexId),
}

#[derive(Clone)]
pub(crate) struct Face {
    pub(crate) surface: SurfaceId,
    pub(crate) sense: Sense,
    pub(crate) loops: Vec<LoopId>,
}

#[derive(Clone)]
pub(crate) struct Shell {
    pub(crate) faces: Vec<FaceId>,
}

#[derive(Clone)]
pub(crate) struct Lump {
    pub(crate) shells: Vec<ShellId>,
}

#[derive(Clone, Copy, PartialEq, Eq)]
pub(crate) enum BodyKind {
    Empty,
    Solid,
}

#[derive(Clone)]
pub(crate) struct Body {
    pub(crate) kind: BodyKind,
    pub(crate) lumps: Vec<LumpId>,
    pub(crate) marks: MarkLog,
}

pub(crate) struct Fault {
    pub(crate) code: &'static str,
    pub(crate) detail: &'static str,
}

#[derive(Clone, Default)]
pub(crate) struct Model {
    geom: Geom,
    pub(crate) vertices: Vec<Vertex>,
    pub(crate) edges: Vec<Edge>,
    pub(crate) coedges: Vec<Coedge>,
    pub(crate) loops: Vec<Loop>,
    pub(crate) faces: Vec<Face>,
    pub(crate) origins: Vec<Vec<Origin>>,
    shells: Vec<Shell>,
    lumps: Vec<Lump>,
    bodies: Vec<Body>,
}

/// Appends and gives the number.
fn add<T>(list: &mut Vec<T>, item: T) -> usize {
    list.push(item);
    list.len() - 1
}

impl Model {
    pub(crate) fn geom(&self) -> &Geom {
        &self.geom
    }
    pub(crate) fn geom_mut(&mut self) -> &mut Geom {
        &mut self.geom
    }

    pub(crate) fn vertex(&self, id: VertexId) -> &Vertex {
        &self.vertices[id.0]
    }
    pub(crate) fn edge(&self, id: EdgeId) -> &Edge {
        &self.edges[id.0]
    }
    pub(crate) fn coedge(&self, id: CoedgeId) -> &Coedge {
        &self.coedges[id.0]
    }
    pub(crate) fn loop_(&self, id: LoopId) -> &Loop {
        &self.loops[id.0]
    }
    pub(crate) fn face(&self, id: FaceId) -> &Face {
        &self.faces[id.0]
    }
    pub(crate) fn shell(&self, id: ShellId) -> &Shell {
        &self.shells[id.0]
    }
    pub(crate) fn lump(&self, id: LumpId) -> &Lump {
        &self.lumps[id.0]
    }
    pub(crate) fn body(&self, id: BodyId) -> &Body {
        &self.bodies[id.0]
    }

    pub(crate) fn add_vertex(&mut self, vertex: Vertex) -> VertexId {
        VertexId(add(&mut self.vertices, vertex))
    }
    pub(crate) fn add_edge(&mut self, edge: Edge) -> EdgeId {
        EdgeId(add(&mut self.edges, edge))
    }
    pub(crate) fn add_coedge(&mut self, coedge: Coedge) -> CoedgeId {
        CoedgeId(add(&mut self.coedges, coedge))
    }
    pub(crate) fn add_loop(&mut self, l: Loop) -> LoopId {
        LoopId(add(&mut self.loops, l))
    }
    pub(crate) fn add_named_face(&mut self, face: Face, origins: Vec<Origin>) -> FaceId {
        self.origins.push(origins);
        FaceId(add(&mut self.faces, face))
    }
    pub(crate) fn add_shell(&mut self, shell: Shell) -> ShellId {
        ShellId(add(&mut self.shells, shell))
    }
    pub(crate) fn add_lump(&mut self, lump: Lump) -> LumpId {
        LumpId(add(&mut self.lumps, lump))
    }
    pub(crate) fn add_body(&mut self, body: Body) -> BodyId {
        BodyId(add(&mut self.bodies, body))
    }

    pub(crate) fn face_origins(&self, id: FaceId) -> &[Origin] {
        &self.origins[id.0]
    }
    pub(crate) fn edge_constructions(&self, _: EdgeId) -> &[EdgeName] {
        &[]
    }
    pub(crate) fn record_edge_constructions(&mut self, _: EdgeId, _: Vec<EdgeName>) {}

    /// Only asked by an entry point that the judge does not use.
    pub(crate) fn faces_of_body(&self, _: BodyId) -> Vec<FaceId> {
        Vec::new()
    }

    /// The publication check is left out.
    pub(crate) fn check(&self, _: BodyId) -> Vec<Fault> {
        Vec::new()
    }
}
