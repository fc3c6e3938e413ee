//! Walks: the new successor of each kept use.

use super::read::Use;

#[derive(Clone, Copy, Debug)]
pub struct Step {
    pub successor: usize,
    /// How many removed uses were passed over.
    pub passed: u32,
}

/// The step from each kept use; none for removed ones.
pub fn walk(uses: &[Use], twins: &[usize], removed: &[bool]) -> Vec<Option<Step>> {
    (0..uses.len())
        .map(|h| (!removed[h]).then(|| step(h, uses, twins, removed)))
        .collect()
}

/// While the old successor is removed, pass it over: old successor of its twin.
fn step(h: usize, uses: &[Use], twins: &[usize], removed: &[bool]) -> Step {
    let mut successor = uses[h].successor;
    let mut passed = 0;
    while removed[successor] {
        successor = uses[twins[successor]].successor;
        passed += 1;
        assert!(passed as usize <= uses.len(), "the walk from {h} breaks");
    }
    Step { successor, passed }
}
