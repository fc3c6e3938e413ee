//! Lumps: an outer shell each, and the voids within it.

use super::questions::Asker;
use super::refusal::{Refusal, refusal};
use super::shells::{Shell, Shells};

pub struct Lumps {
    /// Shells of each lump: the outer one, then its voids.
    pub shells: Vec<Vec<usize>>,
    /// Lump of each shell.
    pub of_shell: Vec<usize>,
}

pub fn lumps(shells: &Shells, asker: &mut Asker) -> Result<Lumps, Refusal> {
    let list = &shells.list;
    let outer: Vec<usize> = (0..list.len()).filter(|&s| list[s].outer).collect();
    let mut lumps: Vec<Vec<usize>> = outer.iter().map(|&s| vec![s]).collect();
    for void in (0..list.len()).filter(|&s| !list[s].outer) {
        let Some(around) = enclosing(list, &outer, void, asker)? else {
            return Err(refusal(34, list[void].faces[0]));
        };
        lumps[around].push(void);
    }
    let mut of_shell = vec![usize::MAX; list.len()];
    for (lump, members) in lumps.iter().enumerate() {
        for &shell in members {
            of_shell[shell] = lump;
        }
    }
    Ok(Lumps {
        shells: lumps,
        of_shell,
    })
}

/// Which of the outer shells encloses a void: the first that contains it,
/// replaced by a later containing one that lies inside it.
fn enclosing(
    list: &[Shell],
    outer: &[usize],
    void: usize,
    asker: &mut Asker,
) -> Result<Option<usize>, Refusal> {
    let lowest = |shell: usize| list[shell].faces[0];
    let mut current: Option<usize> = None;
    for (lump, &candidate) in outer.iter().enumerate() {
        if !asker.inside(lowest(void), lowest(candidate))? {
            continue;
        }
        let better = match current {
            None => true,
            Some(held) => asker.inside(lowest(candidate), lowest(outer[held]))?,
        };
        if better {
            current = Some(lump);
        }
    }
    Ok(current)
}
