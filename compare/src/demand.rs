//! What document 01's third demand says of an accepted job, asked of what the
//! stages gave and of the body's records.

use crate::features::turns;
use crate::records::{self, Record};
use crate::second::Trail;
use crate::second::edges::EdgeTable;
use std::collections::BTreeSet;

/// What does not hold of it.
pub fn unmet(trail: &Trail, body: &[u8]) -> Vec<String> {
    let (list, _) = records::split(body);
    let told = [
        passed_differ(trail),
        loops_across_faces(trail),
        balance_differs(trail),
        places_differ(trail),
        totals_differ(trail, &list),
    ];
    told.into_iter().flatten().collect()
}

/// The passed counts of the kept uses, in total.
fn passed(trail: &Trail) -> Option<usize> {
    let kept = trail.steps.as_ref()?.iter().flatten();
    Some(kept.map(|step| step.passed as usize).sum())
}

/// They come to the removed uses whose turn holds a kept use.
fn passed_differ(trail: &Trail) -> Option<String> {
    let (reading, twins) = (trail.reading.as_ref()?, trail.twins.as_ref()?);
    let removed = &trail.merged.as_ref()?.removed;
    let reached = turns(&reading.uses, twins).into_iter().map(|turn| {
        let gone = turn.iter().filter(|&&h| removed[h]).count();
        if gone < turn.len() { gone } else { 0 }
    });
    let (reached, passed) = (reached.sum::<usize>(), passed(trail)?);
    (reached != passed).then(|| format!("passed over {passed}, reached {reached}"))
}

/// Each kept use stands in one loop, once, and a loop is of one merged face.
fn loops_across_faces(trail: &Trail) -> Option<String> {
    let (reading, merged) = (trail.reading.as_ref()?, trail.merged.as_ref()?);
    let loops = trail.loops.as_ref()?;
    let mut walked: Vec<usize> = loops.iter().flat_map(|l| l.uses.clone()).collect();
    walked.sort_unstable();
    let kept: Vec<usize> = (0..merged.removed.len())
        .filter(|&h| !merged.removed[h])
        .collect();
    let face = |h: usize| merged.number[reading.uses[h].face];
    let within = |l: &crate::second::loops::UseLoop| l.uses.iter().all(|&h| face(h) == l.face);
    let right = walked == kept && loops.iter().all(within);
    (!right).then(|| format!("loops of {walked:?}, kept {kept:?}"))
}

/// Corners less active edges, and the active edges without ends.
fn balance(table: &EdgeTable) -> (isize, isize) {
    let active = table.edges.iter().filter(|edge| edge.active);
    let ends = active.clone().filter_map(|edge| edge.ends);
    let corners: BTreeSet<usize> = ends.clone().flat_map(|(a, b)| [a, b]).collect();
    let (edges, closed) = (active.count(), ends.count());
    (
        corners.len() as isize - edges as isize,
        (edges - closed) as isize,
    )
}

/// Corners less edges falls by the edges that became rings.
fn balance_differs(trail: &Trail) -> Option<String> {
    let joined = trail.joined.as_ref()?;
    let (before, after) = (balance(trail.edges.as_ref()?), balance(&joined.table));
    let rings = joined.rings as isize;
    let right = before.0 - after.0 == rings && after.1 - before.1 == rings;
    (!right).then(|| format!("{rings} rings, corners less edges {before:?} and {after:?}"))
}

/// A join finds two loop places, and makes one item of two at each.
fn places_differ(trail: &Trail) -> Option<String> {
    let joined = trail.joined.as_ref()?;
    let items = |table: &EdgeTable| -> usize { table.loops.iter().map(|l| l.items.len()).sum() };
    let (before, after) = (items(trail.edges.as_ref()?), items(&joined.table));
    let joins = joined.joins as usize;
    (before - after != 2 * joins).then(|| format!("{joins} joins, {before} items and {after}"))
}

/// The body's own counts.
fn totals_differ(trail: &Trail, list: &[Record]) -> Option<String> {
    let (_, totals) = list.first()?;
    let (merged, joined) = (trail.merged.as_ref()?, trail.joined.as_ref()?);
    let removed = merged.removed.iter().filter(|gone| **gone).count();
    let wanted = [merged.removed.len(), removed, passed(trail)?];
    let wanted = wanted.map(|count| count as u32);
    let wanted = [&wanted[..], &[joined.joins, joined.rings, merged.joins]].concat();
    (totals[1..] != wanted).then(|| format!("totals {totals:?}, counted {wanted:?}"))
}
