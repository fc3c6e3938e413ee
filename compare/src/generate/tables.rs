//! Joining tables to supply with a job, permitted and faulty ones, and jobs that
//! suit a table.

use super::filling::{Put, filled};
use super::rng::Rng;
use crate::records;
use crate::second::{self, Rules, Supplied};

/// The full table: it joins where document 01 does.
pub const FULL: [u8; 4] = [1, 0, 0, 1];

/// The other tables that are permitted.
pub const LESSER: [[u8; 4]; 3] = [[1, 0, 0, 0], [0, 0, 0, 1], [0, 0, 0, 0]];

/// Faulty tables with the place of 48: of each length, at each index, and with
/// several faults, of which the length comes first and then the lowest index.
pub const FAULTY: [(&[u8], u32); 31] = [
    (&[], 4),
    (&[1], 4),
    (&[1, 0], 4),
    (&[1, 0, 0], 4),
    (&[1, 0, 0, 1, 0], 4),
    (&[1, 0, 0, 1, 1, 0], 4),
    (&[1, 0, 0, 1, 1, 0, 0], 4),
    (&[1, 0, 0, 1, 1, 0, 0, 1], 4),
    (&[0; 9], 4),
    (&[1; 260], 4),
    (&[2], 4),
    (&[255, 1, 1], 4),
    (&[2, 0, 0, 1, 0], 4),
    (&[2, 0, 0, 1], 0),
    (&[255, 0, 0, 0], 0),
    (&[128, 0, 0, 1], 0),
    (&[49, 48, 48, 49], 0),
    (&[1, 1, 0, 1], 1),
    (&[0, 1, 0, 0], 1),
    (&[1, 2, 0, 1], 1),
    (&[1, 255, 0, 0], 1),
    (&[1, 1, 0, 2], 1),
    (&[1, 0, 1, 1], 2),
    (&[0, 0, 1, 0], 2),
    (&[1, 0, 2, 1], 2),
    (&[0, 0, 255, 1], 2),
    (&[1, 0, 0, 2], 3),
    (&[0, 0, 0, 255], 3),
    (&[1, 0, 0, 129], 3),
    (&[0, 1, 1, 0], 1),
    (&[2, 1, 2, 3], 0),
];

/// A table as drawn, and the place of 48 if it is faulty.
#[derive(Clone)]
pub struct Drawn {
    pub bytes: Vec<u8>,
    pub fault: Option<u32>,
}

impl Drawn {
    pub fn permitted(bytes: [u8; 4]) -> Self {
        Self {
            bytes: bytes.to_vec(),
            fault: None,
        }
    }

    pub fn faulty((bytes, place): (&[u8], u32)) -> Self {
        Self {
            bytes: bytes.to_vec(),
            fault: Some(place),
        }
    }

    pub fn supplied(&self) -> Supplied {
        Supplied::Table(self.bytes.clone())
    }
}

/// The table for job number `index` of a seed.
pub fn of_job(seed: u64, index: u64) -> Drawn {
    some(&mut Rng::new(seed, index).apart(48))
}

pub fn some(rng: &mut Rng) -> Drawn {
    match rng.below(100) {
        0..25 => Drawn::permitted(FULL),
        25..70 => Drawn::permitted(*rng.pick(&LESSER)),
        70..84 => wrong_length(rng),
        84..94 => {
            let i = rng.below(4);
            faulty(&[i], rng)
        }
        _ => {
            let mut indexes = rng.order(4);
            indexes.truncate(rng.range(2, 4));
            faulty(&indexes, rng)
        }
    }
}

fn permitted(rng: &mut Rng) -> [u8; 4] {
    match rng.chance(50) {
        true => FULL,
        false => *rng.pick(&LESSER),
    }
}

/// Lengths that are none, those that are four modulo 256 and modulo 65,536 among
/// them.
const LENGTHS: [usize; 8] = [0, 1, 2, 3, 5, 6, 7, 8];
const LONGER: [usize; 8] = [9, 12, 16, 255, 256, 260, 1_028, 65_540];

/// A table of another length, its entries permitted or not.
fn wrong_length(rng: &mut Rng) -> Drawn {
    let length = match rng.chance(75) {
        true => *rng.pick(&LENGTHS),
        false => *rng.pick(&LONGER),
    };
    let sound = permitted(rng);
    let mut bytes: Vec<u8> = (0..length).map(|i| sound[i % 4]).collect();
    if length > 0 && rng.chance(50) {
        let i = rng.below(length.min(4));
        bytes[i] = wrong_entry(i, rng);
    }
    Drawn {
        bytes,
        fault: Some(4),
    }
}

/// A table with wrong entries at some indexes.
fn faulty(indexes: &[usize], rng: &mut Rng) -> Drawn {
    let mut bytes = permitted(rng);
    for &i in indexes {
        bytes[i] = wrong_entry(i, rng);
    }
    let first = indexes.iter().min().copied();
    Drawn {
        bytes: bytes.to_vec(),
        fault: first.map(|i| i as u32),
    }
}

/// A 1 where the merging rule does not join, or a value that is neither 0 nor 1;
/// some are 0 or 1 in their lowest or highest bits, or the digits themselves.
fn wrong_entry(index: usize, rng: &mut Rng) -> u8 {
    if (index == 1 || index == 2) && rng.chance(40) {
        return 1;
    }
    match rng.below(4) {
        0 => 2,
        1 => 255,
        2 => *rng.pick(&[3, 4, 16, 48, 49, 127, 128, 129, 254]),
        _ => rng.range(2, 255) as u8,
    }
}

/// A job to supply with a table: often its faces have other senses, and mostly
/// what a lesser table has asked is answered. The same job and table always give
/// the same.
pub fn suited(job: &[u8], table: &Drawn, rng: &mut Rng) -> Vec<u8> {
    match (table.supplied().rules(), rng.chance(50), rng.chance(75)) {
        (Ok(rules), true, true) => answered(turned(job, rng), rules, rng),
        (Ok(rules), false, true) => answered(job.to_vec(), rules, rng),
        (Ok(_), true, false) => turned(job, rng),
        _ => job.to_vec(),
    }
}

/// The job with some own senses turned. Where the stored senses of a pair have
/// become equal or different thereby, 1 and 2 are exchanged, so that the full
/// table joins the same faces.
fn turned(job: &[u8], rng: &mut Rng) -> Vec<u8> {
    let Ok(loaded) = second::load(job) else {
        return job.to_vec();
    };
    let trail = second::sew(&loaded, &mut &loaded.answers);
    let (Some(reading), Some(twins)) = (trail.reading, trail.twins) else {
        return job.to_vec();
    };
    let turned: Vec<bool> = loaded.faces.iter().map(|_| rng.chance(50)).collect();
    let turns = |h: usize| turned[reading.uses[h].face];
    let (mut list, _) = records::split(job);
    let mut face = 0;
    for (kind, fields) in &mut list {
        match kind {
            4 => {
                fields[1] ^= u32::from(turned[face]);
                face += 1;
            }
            8 if [1, 2].contains(&fields[1]) => {
                let h = fields[0] as usize;
                let exchanged = turns(h) != turns(twins[h]);
                fields[1] = if exchanged { 3 - fields[1] } else { fields[1] };
            }
            _ => {}
        }
    }
    records::to_bytes(&list)
}

/// The job with answers to what is asked under a lesser table and the job has
/// not. Surfaces and the order round edges are asked under every table alike, and
/// stay as they are.
fn answered(job: Vec<u8>, rules: Rules, rng: &mut Rng) -> Vec<u8> {
    if rules == Rules::ORDINARY {
        return job;
    }
    filled(job, rules, Put::Later, rng)
}
