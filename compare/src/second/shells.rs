//! Shells: the boundaries by lowest face, outer or void.

use super::merge::Merged;
use super::questions::Asker;
use super::refusal::Refusal;

#[derive(Clone, Debug)]
pub struct Shell {
    pub outer: bool,
    /// Merged faces, ascending.
    pub faces: Vec<usize>,
}

pub struct Shells {
    pub list: Vec<Shell>,
    /// Shell of each selected face.
    pub of_face: Vec<usize>,
}

pub fn shells(proven: bool, merged: &Merged, asker: &mut Asker) -> Result<Shells, Refusal> {
    let mut lowest = merged.boundary.clone();
    lowest.sort_unstable();
    lowest.dedup();
    let position = |b: &usize| lowest.iter().position(|l| l == b).expect("a boundary");
    let of_face: Vec<usize> = merged.boundary.iter().map(position).collect();
    let mut list = Vec::new();
    for shell in 0..lowest.len() {
        let faces: Vec<usize> = (0..merged.lowest.len())
            .filter(|&m| of_face[merged.lowest[m]] == shell)
            .collect();
        list.push(Shell {
            outer: proven || asker.outer(faces[0])?,
            faces,
        });
    }
    Ok(Shells { list, of_face })
}
