//! Faces selected twice, read off the bytes of a job: what is asked of every
//! refusal, by other means than loading.

use crate::records::{self, HEADER};
use crate::second::load::MAX_FACES;
use crate::second::{self, Refusal};
use std::collections::{BTreeMap, BTreeSet};

/// The refusal of a face selected twice.
pub const SELECTED_TWICE: u32 = 45;

/// The first face that an earlier one is already.
pub struct Repeat {
    /// First byte of its record.
    pub place: u32,
    /// How many faces after the earlier one.
    pub distance: usize,
    /// Fields of the earlier one and of itself.
    pub fields: [Vec<u32>; 2],
    /// How many faces before have a source number equal to its own modulo 256.
    pub chain: usize,
}

/// Place and fields of each whole record of a face.
pub fn faces(job: &[u8]) -> Vec<(u32, Vec<u32>)> {
    let mut at = 0;
    let mut faces = Vec::new();
    for (kind, fields) in records::split(job).0 {
        let length = HEADER + 4 * fields.len();
        if kind == 4 && fields.len() == 5 {
            faces.push((at as u32, fields));
        }
        at += length;
    }
    faces
}

pub fn first_repeat(job: &[u8]) -> Option<Repeat> {
    let faces = faces(job);
    let mut met: BTreeMap<(u32, u32), usize> = BTreeMap::new();
    for (i, (place, fields)) in faces.iter().enumerate() {
        let Some(earlier) = met.insert((fields[3], fields[4]), i) else {
            continue;
        };
        let before = faces[..i].iter();
        let chain = before.filter(|(_, other)| other[4] % 256 == fields[4] % 256);
        return Some(Repeat {
            place: *place,
            distance: i - earlier,
            fields: [faces[earlier].1.clone(), fields.clone()],
            chain: chain.count(),
        });
    }
    None
}

/// What is wrong with how loading ended, as far as faces are repeated. A job
/// that loads has no face twice; 45 is told of the first that is repeated, and
/// no refusal of a later record before it. On that record itself 2, 3, 5 and 4
/// come first.
pub fn unlike(job: &[u8], found: Option<Refusal>) -> Option<String> {
    if found.is_some_and(|refusal| refusal.number == 1) {
        return None;
    }
    let first = first_repeat(job).map(|repeat| repeat.place);
    let right = match (found, first) {
        (None, None) => true,
        (None, Some(_)) => false,
        (Some(refusal), _) if refusal.number == SELECTED_TWICE => first == Some(refusal.place),
        (Some(_), None) => true,
        (Some(refusal), Some(place)) => {
            let first_on_it = refusal.place == place && [2, 3, 4, 5].contains(&refusal.number);
            refusal.place < place || first_on_it
        }
    };
    let ended = found.map_or("loads".to_string(), |refusal| refusal.to_string());
    let told = match first {
        None => "no face is selected twice".to_string(),
        Some(place) => format!("a face is selected twice at {place}"),
    };
    (!right).then(|| format!("{told}, second {ended}"))
}

/// From the first face that a job may have to the last.
const FARTHEST: usize = MAX_FACES - 1;

/// Sorts of 45, to keep some of each.
pub struct Sort {
    /// What the job is refused with while loading once no face is repeated; 0 if
    /// it loads.
    pub beside: u32,
    /// How far the first is from the face that it repeats, in doublings; 8 if it
    /// is as far as may be.
    pub doublings: u32,
    /// Whether their senses agree.
    pub alike: bool,
    /// Whether five faces before or more have its source modulo 256.
    pub chained: bool,
}

pub fn sort(job: &[u8]) -> Option<Sort> {
    let repeat = first_repeat(job)?;
    let beside = second::load(&repaired(job)).err();
    let [earlier, later] = &repeat.fields;
    Some(Sort {
        beside: beside.map_or(0, |refusal| refusal.number),
        doublings: match repeat.distance {
            FARTHEST => 8,
            distance => distance.ilog2(),
        },
        alike: earlier[1..3] == later[1..3],
        chained: repeat.chain >= 5,
    })
}

/// How faces can be close to each other and not the same one.
pub const CLOSE: [&str; 7] = [
    "a source in both bodies",
    "sources that differ in the lowest bit",
    "sources that differ in the highest bit",
    "two sources equal modulo 256",
    "eight sources equal modulo 256",
    "two sources equal modulo 1,024",
    "two sources equal in 16 bits",
];

/// Which of these there are among bodies and sources.
pub fn close(names: impl Iterator<Item = (u32, u32)>) -> [bool; 7] {
    let all: BTreeSet<(u32, u32)> = names.collect();
    let differ = |bits: u32| {
        let mut each = all.iter();
        each.any(|&(body, source)| all.contains(&(body, source ^ bits)))
    };
    let most_alike = |modulus: u32| {
        let mut counts: BTreeMap<(u32, u32), usize> = BTreeMap::new();
        for (body, source) in &all {
            *counts.entry((*body, source % modulus)).or_default() += 1;
        }
        counts.into_values().max().unwrap_or(0)
    };
    let mut each = all.iter();
    [
        each.any(|&(body, source)| all.contains(&(body ^ 1, source))),
        differ(1),
        differ(1 << 31),
        most_alike(256) > 1,
        most_alike(256) > 7,
        most_alike(1_024) > 1,
        most_alike(65_536) > 1,
    ]
}

/// The job with every repeated face given a source that no face has.
pub fn repaired(job: &[u8]) -> Vec<u8> {
    let mut job = job.to_vec();
    while let Some(repeat) = first_repeat(&job) {
        let used: Vec<u32> = faces(&job).iter().map(|(_, fields)| fields[4]).collect();
        let unused = (0..).find(|source| !used.contains(source));
        let source = unused.expect("a job has fewer faces than there are numbers");
        let at = repeat.place as usize + HEADER + 4 * 4;
        job[at..at + 4].copy_from_slice(&source.to_le_bytes());
    }
    job
}
