//! Pairing: the twin of each use.

use super::job::Sense;
use super::questions::Asker;
use super::read::Use;
use super::refusal::{Refusal, refusal};
use super::rules::Profile;

/// `lists` holds the uses of each edge. Edges go in ascending order.
pub fn pair(
    profile: Profile,
    uses: &[Use],
    lists: &[Vec<usize>],
    asker: &mut Asker,
) -> Result<Vec<usize>, Refusal> {
    let mut twins: Vec<Option<usize>> = vec![None; uses.len()];
    for (edge, list) in lists.iter().enumerate() {
        for (a, b) in pairs_of_edge(profile, edge, list, uses, asker)? {
            twins[a] = Some(b);
            twins[b] = Some(a);
        }
    }
    let lowest_without = twins.iter().position(Option::is_none);
    if let Some(h) = lowest_without {
        return Err(refusal(13, h));
    }
    Ok(twins.into_iter().flatten().collect())
}

fn pairs_of_edge(
    profile: Profile,
    edge: usize,
    list: &[usize],
    uses: &[Use],
    asker: &mut Asker,
) -> Result<Vec<(usize, usize)>, Refusal> {
    match *list {
        [] => Ok(Vec::new()),
        [a, b] if uses[a].sense == uses[b].sense => Err(refusal(10, edge)),
        [a, b] => Ok(vec![(a, b)]),
        _ if list.len() % 2 == 1 => Err(refusal(11, edge)),
        // A printer takes no third wall, so nobody is asked how they go round.
        _ if profile == Profile::PrintShop => Err(refusal(41, edge)),
        _ => radial_pairs(edge, list, uses, asker),
    }
}

/// Each Same use takes its predecessor in the radial order.
fn radial_pairs(
    edge: usize,
    list: &[usize],
    uses: &[Use],
    asker: &mut Asker,
) -> Result<Vec<(usize, usize)>, Refusal> {
    let order: Vec<usize> = asker.radial(edge)?.iter().map(|&h| h as usize).collect();
    if !each_once(&order, list) {
        return Err(refusal(23, edge));
    }
    let mut pairs = Vec::new();
    let mut predecessor = order[order.len() - 1];
    for h in order {
        if uses[h].sense == Sense::Same {
            if uses[predecessor].sense == Sense::Same {
                return Err(refusal(12, edge));
            }
            pairs.push((predecessor, h));
        }
        predecessor = h;
    }
    Ok(pairs)
}

fn each_once(order: &[usize], list: &[usize]) -> bool {
    order.len() == list.len() && list.iter().all(|h| order.contains(h))
}
