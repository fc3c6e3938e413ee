//! Stand-in for the radial order, kind 7.

use crate::numbers::{Decider, NotExact, Refusal};
use crate::shapes::{PointId, SurfaceId, Vector3};
use crate::{EdgeId, Model};

#[derive(Clone)]
pub(crate) struct Germ {
    pub(crate) key: usize,
    point: PointId,
}

pub(crate) fn surface_germ(
    _: &Model,
    _: SurfaceId,
    point: PointId,
    _: Vector3,
    key: usize,
    _: &mut Decider,
) -> Result<Germ, Refusal> {
    Ok(Germ { key, point })
}

/// Puts the germs into the order of the edge's radial record.
pub(crate) fn sort(
    _: &Model,
    germs: &mut [Germ],
    _: &Vector3,
    dec: &mut Decider,
    _: &'static str,
) -> Result<(), Refusal> {
    let PointId::OnEdge(EdgeId(edge)) = germs[0].point else {
        return Err(Refusal::out_of_step("germs of no edge"));
    };
    let order = dec.ask(7, &[edge as u32])?;
    if order.is_empty() {
        return Err(NotExact(7).into());
    }
    let mut listed = order.clone();
    listed.sort_unstable();
    let mut present: Vec<u32> = germs.iter().map(|germ| germ.key as u32).collect();
    present.sort_unstable();
    if listed != present {
        return Err(Refusal::stand_in(23, edge as u32));
    }
    germs.sort_by_key(|germ| order.iter().position(|&h| h as usize == germ.key));
    Ok(())
}
