//! Stand-ins for sample points.

use crate::numbers::{Decider, Refusal};
use crate::shapes::{CurveId, Point3, PointId};
use crate::{FaceId, Model};

/// A sample on an edge is named by the edge's ends.
pub(crate) fn curve_sample(
    _: &mut Model,
    _: CurveId,
    from: Option<PointId>,
    _: Option<PointId>,
    _: &mut Decider,
) -> Result<PointId, Refusal> {
    from.ok_or_else(|| Refusal::out_of_step("a sample of no edge"))
}

/// Tries one sample within the face.
pub(crate) fn find<T>(
    model: &mut Model,
    face: FaceId,
    dec: &mut Decider,
    mut accept: impl FnMut(&mut Model, PointId, &Point3, &mut Decider) -> Result<Option<T>, Refusal>,
) -> Result<T, Refusal> {
    accept(model, PointId::Within(face), &Point3 { face }, dec)?
        .ok_or_else(|| Refusal::out_of_step("a sample was not accepted"))
}
