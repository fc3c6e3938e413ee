//! Contact tests: within a boundary (30, 31), within a lump (32, 33), and for a
//! print shop at each point (42).

use super::fans::Fans;
use super::read::Use;
use super::refusal::{Refusal, refusal};
use std::collections::{BTreeMap, BTreeSet};

/// Two pairs of one edge with one label: tests 30 and 33. Only edges with more
/// than two uses are looked at; removed pairs count too.
pub fn pairs_of_edges(
    number: u32,
    lists: &[Vec<usize>],
    uses: &[Use],
    twins: &[usize],
    label: impl Fn(usize) -> usize,
) -> Result<(), Refusal> {
    for (edge, list) in lists.iter().enumerate() {
        if list.len() <= 2 {
            continue;
        }
        let lower = list.iter().filter(|&&h| h < twins[h]);
        if repeats(lower.map(|&h| label(uses[h].face))) {
            return Err(refusal(number, edge));
        }
    }
    Ok(())
}

/// Two fans at one point with one label: tests 31 and 32.
pub fn fans_at_points(
    number: u32,
    fans: &Fans,
    uses: &[Use],
    label: impl Fn(usize) -> usize,
) -> Result<(), Refusal> {
    for (point, fans) in at_points(fans) {
        if repeats(fans.into_iter().map(|fan| label(uses[fan].face))) {
            return Err(refusal(number, point as usize));
        }
    }
    Ok(())
}

/// More than one fan at a point, whatever boundaries they are of: test 42.
pub fn one_fan_at_each_point(fans: &Fans) -> Result<(), Refusal> {
    let at_points = at_points(fans).into_iter();
    match at_points
        .map(|(point, fans)| (fans.len(), point))
        .find(|(count, _)| *count > 1)
    {
        None => Ok(()),
        Some((_, point)) => Err(refusal(42, point as usize)),
    }
}

/// The fans at each point, points ascending.
fn at_points(fans: &Fans) -> BTreeMap<u32, BTreeSet<usize>> {
    let mut at_points: BTreeMap<u32, BTreeSet<usize>> = BTreeMap::new();
    for fan in fans.of_use.iter().flatten() {
        at_points.entry(fan.point).or_default().insert(fan.number);
    }
    at_points
}

fn repeats(mut labels: impl Iterator<Item = usize>) -> bool {
    let mut seen = BTreeSet::new();
    labels.any(|label| !seen.insert(label))
}
