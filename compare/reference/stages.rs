//! Stand-ins for what the stages before sewing hand over.

use crate::numbers::MarkLog;
use crate::shapes::PointId;
use crate::{BodyId, FaceId, Sense};
use std::collections::{BTreeMap, BTreeSet};

pub(crate) struct Imprinted {
    pub(crate) a: BodyId,
    pub(crate) b: BodyId,
    pub(crate) singular: BTreeSet<PointId>,
}

#[derive(Clone)]
pub(crate) struct Selection {
    pub(crate) faces: Vec<(FaceId, Sense)>,
    pub(crate) coincident: BTreeMap<FaceId, FaceId>,
    pub(crate) intersection: bool,
    pub(crate) marks: MarkLog,
}
