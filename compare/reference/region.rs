//! Stand-in for places in a face; never reached, since no sample is on another
//! face's surface.

use crate::numbers::{Decider, Refusal};
use crate::shapes::PointId;
use crate::{FaceId, Model};

#[derive(PartialEq, Eq)]
pub(crate) enum Location {
    Outside,
}

pub(crate) fn locate(
    _: &mut Model,
    _: FaceId,
    _: PointId,
    _: &mut Decider,
) -> Result<Location, Refusal> {
    Ok(Location::Outside)
}
