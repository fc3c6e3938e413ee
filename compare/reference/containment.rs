//! Stand-ins for rays and containment, kinds 12 and 13.

use crate::numbers::{Decider, NotExact, Outcome, Refusal};
use crate::shapes::{Point3, Vector3};
use crate::{FaceId, Model};

pub(crate) enum Containment {
    Inside,
    Outside,
}

/// Number of a merged face: the model holds the selected faces before them.
fn number(face: FaceId, dec: &Decider) -> u32 {
    (face.0 - dec.selected) as u32
}

/// A ray leaving an outer shell ends outside; one leaving a void, inside.
pub(crate) fn ray_parity(
    _: &mut Model,
    faces: &[FaceId],
    point: &Point3,
    _: &Vector3,
    dec: &mut Decider,
) -> Result<Option<bool>, Refusal> {
    if point.face != faces[0] {
        return Err(Refusal::out_of_step("a ray from another face"));
    }
    let shell: Vec<u32> = faces.iter().map(|&face| number(face, dec)).collect();
    let lowest = shell[0];
    dec.shells.push(shell);
    if dec.probing {
        return Ok(Some(false));
    }
    Ok(Some(!dec.yes(12, &[lowest])?))
}

pub(crate) fn faces(
    _: &mut Model,
    container: &[FaceId],
    point: &Point3,
    dec: &mut Decider,
) -> Outcome<Containment> {
    let numbers = [number(point.face, dec), number(container[0], dec)];
    match dec.value(13, &numbers) {
        Err(refusal) => Outcome::Refused(refusal),
        Ok(0) => Outcome::Proven(Containment::Outside),
        Ok(1) => Outcome::Proven(Containment::Inside),
        Ok(_) => Outcome::NotExact(NotExact(13)),
    }
}
