//! Stand-ins for the shared geometric helpers.

use crate::numbers::{Decider, NotExact, Outcome, Refusal, Sign};
use crate::shapes::{GeomKey, PointId, Real, SurfaceId, Vector3};
use crate::{EdgeId, Model, Sense};

pub(crate) const DIRECTION_ATTEMPTS: u32 = 1;

pub(crate) fn reverse(sense: Sense) -> Sense {
    match sense {
        Sense::Same => Sense::Reversed,
        Sense::Reversed => Sense::Same,
    }
}

pub(crate) fn product(a: Sense, b: Sense) -> Sense {
    if a == b { Sense::Same } else { Sense::Reversed }
}

pub(crate) fn refusal(code: &'static str, detail: impl Into<String>) -> Refusal {
    Refusal::new(code, detail)
}

pub(crate) fn undecided(code: &'static str, decision: NotExact) -> Refusal {
    Refusal::from(decision).with_code(code)
}

/// As published: only a proven coincidence is a yes.
pub(crate) fn coincident<T>(outcome: Outcome<T>, code: &'static str) -> Result<bool, Refusal> {
    match outcome {
        Outcome::Proven(_) => Ok(false),
        Outcome::ProvenCoincident(_) => Ok(true),
        Outcome::NotExact(n) => Err(undecided(code, n)),
        Outcome::Refused(r) => Err(r),
    }
}

/// Sign of the two normals' product, as the latest surface answer has it.
pub(crate) fn sign(_: &Real, dec: &mut Decider, _: &'static str) -> Result<Sign, Refusal> {
    match dec.surface_value {
        1 => Ok(Sign::Positive),
        2 => Ok(Sign::Negative),
        3 => Ok(Sign::Zero),
        _ => Err(Refusal::out_of_step("a sign before any surface answer")),
    }
}

pub(crate) fn oriented(vector: &Vector3, _: Sense) -> Vector3 {
    vector.clone()
}

pub(crate) fn perpendicular(
    vector: &Vector3,
    _: &mut Decider,
    _: &'static str,
) -> Result<Vector3, Refusal> {
    Ok(vector.clone())
}

pub(crate) fn probe_parameters(k: u32) -> (u32, u32) {
    (k, k)
}

/// A sample within a face lies on no other face.
pub(crate) fn on_surface(
    _: &Model,
    _: SurfaceId,
    _: PointId,
    _: &mut Decider,
    _: &'static str,
) -> Result<bool, Refusal> {
    Ok(false)
}

/// Ends that tell the edge, for the sample taken between them.
pub(crate) fn natural_ends(_: &Model, edge: EdgeId) -> (Option<PointId>, Option<PointId>) {
    (Some(PointId::OnEdge(edge)), Some(PointId::OnEdge(edge)))
}

/// Incidence facts are left out.
pub(crate) fn record_incident(_: &mut Model, _: GeomKey, _: GeomKey) {}
