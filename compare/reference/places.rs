//! Number and place of a refusal. The published refusals carry words only;
//! the place is found from the tables that led to them.

use crate::Model;
use crate::numbers::{Decider, Refusal};
use crate::observe::Ending;
use crate::sewing::open;
use crate::stages::Selection;
use std::collections::{BTreeMap, BTreeSet};

/// Number of a refusal; none for those that document 01 gives no number.
pub(crate) fn number(refusal: &Refusal) -> Option<u32> {
    if let Some((number, _)) = refusal.stand_in {
        return Some(number);
    }
    Some(match refusal.detail.as_str() {
        "kept edge uses do not have opposite senses" => 10,
        "kept boundary does not close in edge pairs" => 11,
        "radial kept faces do not bound disjoint material wedges" => 12,
        "a kept coedge has no sewn partner" => 13,
        "coincident surface normals vanished" => 22,
        "one edge-connected boundary touches itself along an edge" => 30,
        "kept faces at a vertex form multiple cycles in one connected boundary" => 31,
        "vertex contact joins two boundary cycles of one lump" => 32,
        "curve contact belongs to one connected material lump" => 33,
        "void shell has no proven enclosing outer shell" => 34,
        _ => return None,
    })
}

/// Number and place of a refusal by pairing.
pub(crate) fn pairing(
    refusal: &Refusal,
    model: &mut Model,
    selection: &Selection,
    dec: &Decider,
) -> Option<Ending> {
    if refusal.stand_in.is_some() {
        return refusal.stand_in;
    }
    let number = number(refusal)?;
    let place = if number == 13 {
        untwinned(model, selection, dec)?
    } else {
        refused_edge(number, model, selection, dec)?
    };
    Some((number, place as u32))
}

/// The lowest edge that `pair` refuses with this number when given it alone.
fn refused_edge(
    wanted: u32,
    model: &mut Model,
    selection: &Selection,
    dec: &Decider,
) -> Option<usize> {
    for edge in open::uses_by_edge(model, selection).into_keys() {
        let alone = open::pair_edge(model, selection, edge, &mut dec.clone());
        match alone.err().as_ref().and_then(number) {
            // Uses of the edges left out have no twin.
            None | Some(13) => {}
            Some(n) => return (n == wanted).then_some(edge),
        }
    }
    None
}

/// The lowest use that lacks a twin: one whose own partner is missed when all
/// other uses are helped, while no use below it lacks one.
fn untwinned(model: &mut Model, selection: &Selection, dec: &Decider) -> Option<usize> {
    let count = open::uses(model, selection).len();
    (0..count).find(|&h| {
        let others = (0..count).filter(|&other| other != h);
        open::pair_helped(model, selection, others, &mut dec.clone()).is_err()
    })
}

/// The lowest key at which a label occurs twice.
pub(crate) fn first_repeat<L: Ord>(places: BTreeMap<u32, Vec<L>>) -> Option<u32> {
    places.into_iter().find_map(|(place, labels)| {
        let count = labels.len();
        let distinct: BTreeSet<L> = labels.into_iter().collect();
        (distinct.len() < count).then_some(place)
    })
}
