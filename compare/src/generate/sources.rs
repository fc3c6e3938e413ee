//! What each selected face was: its body, 0 or 1, and its number there. No two
//! faces of a sound job have both alike.

use super::rng::Rng;
use crate::records::Record;
use crate::second::load::MAX_FACES;
use std::collections::BTreeSet;

/// How bodies and numbers are drawn.
#[derive(Clone, Copy)]
enum Way {
    /// One body, and each face its own number, as in parts P1 to P9.
    AsSelected,
    /// One body or two, their faces in any order.
    Shuffled,
    /// From the highest number down.
    Descending,
    /// Any numbers, the highest and those around 16 bits among them.
    Any,
    /// The same numbers in both bodies, which alone tell faces apart.
    Both,
    /// Numbers so far from each other, shuffled, upwards from one; in one body or
    /// two.
    Apart(u32, u32, usize),
    /// The same, and each number in both bodies.
    BothApart(u32, u32),
    /// A number, and those that differ from it in one bit.
    Bits(u32),
}

const WAYS: [(Way, usize); 5] = [
    (Way::AsSelected, 25),
    (Way::Shuffled, 30),
    (Way::Descending, 15),
    (Way::Any, 25),
    (Way::Both, 5),
];

/// Numbers at which a field could be cut or taken for a mark.
pub const EDGES: [u32; 6] = [0, 1, 65_535, 65_536, u32::MAX - 1, u32::MAX];

/// Numbers that are alike modulo 256, modulo 1,024, in 16 bits, in their highest
/// byte or in all but the lowest. So many faces as a job may have fit one.
const STEPS: [u32; 7] = [1, 128, 256, 1_024, 65_536, 1 << 20, 1 << 24];

/// Faces that `Way::Bits` can tell apart: 33 numbers in two bodies.
const BY_BITS: usize = 66;

/// Draws body and source of each face; the other fields stay.
pub fn give_sources(records: &mut [Record], rng: &mut Rng) {
    let way = rng.weighted(&WAYS);
    give(records, way, rng);
}

/// The same with bodies and sources that could be taken for each other.
pub fn give_close_sources(records: &mut [Record], rng: &mut Rng) {
    let count = records.iter().filter(|(kind, _)| *kind == 4).count();
    if count > MAX_FACES {
        return give_sources(records, rng);
    }
    let bodies = rng.range(1, 2);
    let (step, from) = (*rng.pick(&STEPS), *rng.pick(&EDGES));
    let way = match rng.below(10) {
        0..=2 if count <= BY_BITS / 2 => Way::Bits(rng.field()),
        0..=4 => Way::BothApart(step, from),
        5 | 6 => Way::Apart(256, rng.field(), bodies),
        _ => Way::Apart(step, from, bodies),
    };
    give(records, way, rng);
}

fn give(records: &mut [Record], way: Way, rng: &mut Rng) {
    let faces = records.iter_mut().filter(|(kind, _)| *kind == 4);
    let faces: Vec<&mut Vec<u32>> = faces.map(|(_, fields)| fields).collect();
    let count = faces.len();
    let order = rng.order(count);
    let mut met = BTreeSet::new();
    for (i, fields) in faces.into_iter().enumerate() {
        let number = order[i] as u32;
        let apart =
            |step: u32, from: u32, number: u32| from.wrapping_add(step.wrapping_mul(number));
        let mut drawn = || match way {
            Way::AsSelected => (0, i as u32),
            Way::Shuffled => (rng.below(2) as u32, number),
            Way::Descending => (rng.below(2) as u32, (count - 1 - i) as u32),
            Way::Any if rng.chance(40) => (rng.below(2) as u32, *rng.pick(&EDGES)),
            Way::Any => (rng.below(2) as u32, rng.field()),
            Way::Both => (number % 2, number / 2),
            Way::Apart(step, from, bodies) => (rng.below(bodies) as u32, apart(step, from, number)),
            Way::BothApart(step, from) => (number % 2, apart(step, from, number / 2)),
            Way::Bits(from) => {
                let any = rng.below(33) as u32;
                let bit = 1u32.checked_shl(*rng.pick(&[0, 31, any, any]));
                (rng.below(2) as u32, from ^ bit.unwrap_or(0))
            }
        };
        let mut named = drawn();
        // A number is drawn again until no face has it in this body.
        while !met.insert(named) {
            named = drawn();
        }
        fields[3..5].copy_from_slice(&[named.0, named.1]);
    }
}
