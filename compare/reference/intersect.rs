//! Stand-ins for intersections.

use crate::numbers::{Answer, Answered, Decider, Outcome, Refusal};
use crate::shapes::{CurveId, Geom, PointId, SurfaceId, Vector3};

#[allow(dead_code)]
pub(crate) enum Component {
    Point,
    Curve {
        singular: Vec<PointId>,
        closed: bool,
    },
}

#[allow(dead_code)]
pub(crate) enum SurfacePair {
    Apart,
    Meets(Vec<Component>),
}

/// Two supports meet in one curve with one node, which stands for the question.
pub(crate) fn intersect_surfaces(
    _: &mut Geom,
    a: SurfaceId,
    b: SurfaceId,
    _: &mut Decider,
) -> Answered<SurfacePair> {
    let curve = Component::Curve {
        singular: vec![PointId::Node(a, b)],
        closed: false,
    };
    Ok(Answer::exact(SurfacePair::Meets(vec![curve])))
}

/// Kind 10.
pub(crate) fn same_curve(_: &Geom, a: CurveId, b: CurveId, dec: &mut Decider) -> Outcome<()> {
    if dec.probing {
        return Outcome::Proven(());
    }
    dec.same(10, a.0, b.0)
}

pub(crate) fn tangent_at(
    _: &Geom,
    _: CurveId,
    _: PointId,
    _: &mut Decider,
) -> Result<[Vector3; 2], Refusal> {
    Ok([Vector3, Vector3])
}
