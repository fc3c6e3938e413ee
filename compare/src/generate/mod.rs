//! Jobs made up from a seed, class by class.

pub mod classes;
pub mod damage;
pub mod draft;
pub mod filling;
pub mod grow;
pub mod limits;
pub mod oracle;
pub mod print_shop;
pub mod repeats;
pub mod rng;
pub mod shapes;
pub mod sketch;
pub mod sources;
pub mod split;
pub mod tables;

pub use classes::{CLASSES, sample, sample_of};

use crate::records::Record;
use crate::second::Refusal;
use crate::second::load::{
    MAX_ANSWERS, MAX_BYTES, MAX_EDGES, MAX_FACES, MAX_LOOPS, MAX_USES, MAX_VERTICES,
};

/// One job with what is known about it.
pub struct Sample {
    pub class: &'static str,
    pub job: Vec<u8>,
    /// Bytes lent for the body.
    pub room: usize,
    pub expected: Expected,
}

/// What loading must come to; the reference cannot tell.
#[derive(Clone, Copy)]
pub enum Expected {
    Unknown,
    Loads,
    Refused(Refusal),
}

/// Sound records must load if they keep within the limits and have a Head.
fn must_load(records: &[Record]) -> Expected {
    if records.first().is_none_or(|(kind, _)| *kind != 1) {
        return Expected::Refused(Refusal {
            number: 3,
            place: 0,
        });
    }
    let count = |kinds: std::ops::RangeInclusive<u16>| {
        let of_kinds = records.iter().filter(|(kind, _)| kinds.contains(kind));
        of_kinds.count()
    };
    let fields = |wanted: u16| -> usize {
        let of_kind = records.iter().filter(|(kind, _)| *kind == wanted);
        of_kind.map(|(_, fields)| fields.len()).sum()
    };
    let within = count(2..=2) <= MAX_VERTICES
        && count(3..=3) <= MAX_EDGES
        && count(4..=4) <= MAX_FACES
        && count(5..=6) <= MAX_LOOPS
        && fields(5) / 2 <= MAX_USES
        && count(7..=13) <= MAX_ANSWERS
        && crate::records::to_bytes(records).len() <= MAX_BYTES;
    match within {
        true => Expected::Loads,
        false => Expected::Unknown,
    }
}
