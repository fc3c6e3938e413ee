//! Stand-ins for points, curves and surfaces.

use crate::numbers::{Decider, Outcome, Refusal};
use crate::{EdgeId, FaceId};
use std::cell::Cell;

/// A curve's number in the job.
#[derive(Clone, Copy, PartialEq, Eq, PartialOrd, Ord, Debug)]
pub(crate) struct CurveId(pub(crate) u32);

/// A support: the number of the selected face it belongs to. The job's own
/// surface number is looked up when the body is listed.
#[derive(Clone, Copy, PartialEq, Eq, PartialOrd, Ord, Debug)]
pub(crate) struct SurfaceId(pub(crate) u32);

#[derive(Clone, Copy, PartialEq, Eq, PartialOrd, Ord, Debug)]
pub(crate) enum PointId {
    /// A point's number in the job.
    Job(u32),
    /// A sample on an edge; it tells the edge of a radial question.
    OnEdge(EdgeId),
    /// A sample within a face; it tells the probe of a containment question.
    Within(FaceId),
    /// The singular node that two supports are said to have; holding it
    /// against a point is the singular question.
    Node(SurfaceId, SurfaceId),
}

/// A place within a face.
pub(crate) struct Point3 {
    pub(crate) face: FaceId,
}

/// Names the parties of incidence facts, which are left out.
#[allow(dead_code)]
#[derive(Clone, Copy)]
pub(crate) enum GeomKey {
    Point(PointId),
    Curve(CurveId),
    Surface(SurfaceId),
}

pub(crate) struct IntersectionCurve {
    pub(crate) surfaces: [SurfaceId; 2],
}

/// Every curve is `Other`, so the supports of an edge are those of its faces.
#[allow(dead_code)]
pub(crate) enum Curve {
    Intersection(IntersectionCurve),
    Other,
}

pub(crate) struct Surface;

impl Surface {
    pub(crate) fn normal_at(&self, _: &Point3, _: &mut Decider) -> Result<Vector3, Refusal> {
        Ok(Vector3)
    }
}

/// Vectors carry nothing: every decision on them is an answer of the job.
#[derive(Clone)]
pub(crate) struct Vector3;

impl Vector3 {
    pub(crate) fn cross(&self, _: &Self) -> Self {
        Self
    }
    pub(crate) fn dot(&self, _: &Self) -> Real {
        Real
    }
    pub(crate) fn plus(&self, _: &Self) -> Self {
        Self
    }
    pub(crate) fn scaled(&self, _: &Real) -> Self {
        Self
    }
}

pub(crate) struct Real;

impl From<u32> for Real {
    fn from(_: u32) -> Self {
        Self
    }
}

#[derive(Clone, Default)]
pub(crate) struct Geom {
    /// The curve fetched last: the one a singular question is about.
    pub(crate) fetched: Cell<Option<CurveId>>,
}

impl Geom {
    pub(crate) fn curve(&self, curve: CurveId) -> &Curve {
        self.fetched.set(Some(curve));
        &Curve::Other
    }

    pub(crate) fn surface(&self, _: SurfaceId) -> &Surface {
        &Surface
    }

    pub(crate) fn normal(
        &self,
        _: SurfaceId,
        _: PointId,
        _: &mut Decider,
    ) -> Result<Vector3, Refusal> {
        Ok(Vector3)
    }

    /// Kind 8, for the next pair that has to be asked.
    pub(crate) fn same_surface(
        &self,
        a: SurfaceId,
        b: SurfaceId,
        dec: &mut Decider,
    ) -> Outcome<()> {
        let Some(next) = dec.surfaces.pop_front() else {
            return Outcome::Refused(Refusal::out_of_step("a surface question too many"));
        };
        if next.supports != [a, b] {
            return Outcome::Refused(Refusal::out_of_step("surface question of another pair"));
        }
        match dec.value(8, &[next.lower_use]) {
            Err(refusal) => Outcome::Refused(refusal),
            Ok(0) => Outcome::Proven(()),
            Ok(4) => Outcome::NotExact(crate::numbers::NotExact(8)),
            Ok(value) => {
                dec.surface_value = value;
                Outcome::ProvenCoincident(())
            }
        }
    }

    /// Kind 9, or kind 11 where one of the two is a singular node.
    pub(crate) fn same_point(&self, a: PointId, b: PointId, dec: &mut Decider) -> Outcome<()> {
        match (a, b) {
            (PointId::Job(a), PointId::Job(b)) => dec.same(9, a, b),
            (PointId::Node(s, t), PointId::Job(point)) => self.singular(s, t, point, dec),
            _ => Outcome::Refused(Refusal::out_of_step("points of other kinds")),
        }
    }

    fn singular(&self, s: SurfaceId, t: SurfaceId, point: u32, dec: &mut Decider) -> Outcome<()> {
        if dec.probing {
            return Outcome::ProvenCoincident(());
        }
        let (Some(curve), Some(lower), Some(higher)) =
            (self.fetched.get(), dec.merged_face(s), dec.merged_face(t))
        else {
            return Outcome::Refused(Refusal::out_of_step("a node of no edge"));
        };
        dec.coincidence(11, &[curve.0, lower, higher, point])
    }
}
