//! The reference: `sewing.rs` of catallax as published, with stand-ins for
//! everything it calls. The stand-ins answer each geometric question from the
//! records of a job and note the questions in the order they are put.

extern crate self as catallax_intersect;
extern crate self as catallax_numbers;
extern crate self as catallax_recipe;
extern crate self as catallax_shapes;
extern crate self as catallax_topology;

mod containment;
mod decode;
mod geometry;
mod germ;
mod intersect;
mod listing;
mod numbers;
mod observe;
mod places;
mod points;
mod recipe;
mod region;
mod shapes;
mod stages;
mod topology;

/// The published file. It holds entry points that the judge does not use.
#[allow(dead_code)]
mod sewing {
    include!(concat!(env!("OUT_DIR"), "/sewing.rs"));
}

// The published file finds these by the names of the crates they come from.
pub(crate) use containment::Containment;
pub(crate) use intersect::{Component, SurfacePair, intersect_surfaces, same_curve, tangent_at};
pub(crate) use numbers::{
    Answer, Answered, Decider, GEOMETRIC_GAP_UNPROVEN, MarkLog, Outcome, Refusal, Sign,
};
pub(crate) use recipe::{EdgeName, Origin};
pub(crate) use shapes::{Curve, CurveId, GeomKey, PointId, SurfaceId};
pub(crate) use topology::{
    Body, BodyId, BodyKind, Coedge, Edge, EdgeId, Face, FaceId, Loop, Lump, Model, Sense, Shell,
    Vertex, VertexId,
};

/// Working ahead is left out: nothing is ever run on a worker.
macro_rules! run_ahead {
    ($decider:expr, $count:expr) => {
        crate::numbers::Ahead::new($count)
    };
}
pub(crate) use run_ahead;

pub use observe::{Ending, Observed, Records, Verdict, observe};

/// What the stand-ins know the questions by, looked up in advance; for timing.
pub struct Prepared {
    decider: Decider,
}

pub fn prepare(job: &[u8]) -> Prepared {
    Prepared {
        decider: observe::prepared(job),
    }
}

/// A job's model, selection and answers, ready for `rebuild`.
pub struct Loaded {
    decoded: decode::Decoded,
    decider: Decider,
}

/// Builds the model of a job; its fields are not checked.
pub fn load(job: &[u8], prepared: &Prepared) -> Loaded {
    Loaded {
        decoded: decode::decode(job),
        decider: prepared.decider.clone(),
    }
}

impl Loaded {
    /// True if it was accepted.
    pub fn rebuild(self) -> bool {
        let Self {
            decoded,
            mut decider,
        } = self;
        let mut model = decoded.model;
        sewing::open::whole(&mut model, &decoded.selection, decoded.proven, &mut decider).is_ok()
    }
}
