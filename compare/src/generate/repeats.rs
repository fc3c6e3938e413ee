//! Faces selected twice: the same body and source in two records, near each
//! other and far, alone and beside other damage; and faces that are nearly the
//! same one.

use super::damage::{self, Damaged, expected, place};
use super::draft::{Counts, Draft};
use super::rng::Rng;
use super::sources::{EDGES, give_close_sources};
use super::{Expected, must_load};
use crate::records::{self, Record};
use crate::second::NONE;
use crate::second::load::MAX_FACES;
use crate::twice::SELECTED_TWICE;
use std::collections::BTreeSet;

/// How often damage elsewhere is drawn until its refusal is certain.
const TRIES: usize = 40;

pub fn some(draft: &Draft, rng: &mut Rng) -> Damaged {
    let drawn = draft.counts.faces > 1 && rng.chance(60);
    let (mut list, counts) = match drawn {
        true => (draft.records(rng), draft.counts),
        false => bare(some_count(rng), rng),
    };
    if rng.chance(60) {
        give_close_sources(&mut list, rng);
    }
    match rng.below(100) {
        0..=14 => (records::to_bytes(&list), must_load(&list)),
        15..=54 => {
            let repeated = repeat(&mut list, rng);
            (records::to_bytes(&list), twice(&list, repeated))
        }
        55..=66 => {
            let repeated = repeat(&mut list, rng);
            on_it(list, repeated, rng)
        }
        67..=96 => {
            let repeated = repeat(&mut list, rng);
            elsewhere(list, repeated, counts, rng)
        }
        _ => too_many(rng),
    }
}

fn twice(list: &[Record], repeated: usize) -> Expected {
    expected(SELECTED_TWICE, place(list, repeated))
}

fn some_count(rng: &mut Rng) -> usize {
    match rng.below(10) {
        0..=3 => rng.range(2, 6),
        4..=7 => rng.range(2, 40),
        8 => rng.range(40, MAX_FACES),
        _ => MAX_FACES,
    }
}

/// So many faces, two of them round a ring and the others without loops, and
/// what there is of each sort.
fn bare(faces: usize, rng: &mut Rng) -> (Vec<Record>, Counts) {
    let mut list = vec![(1, vec![1]), (3, vec![5, 0, NONE, NONE])];
    let order = rng.order(faces);
    for (i, &number) in order.iter().enumerate() {
        let senses = [rng.below(2) as u32, rng.below(2) as u32];
        let body = rng.below(2) as u32;
        list.push((4, vec![i as u32 % 3, senses[0], senses[1], body, i as u32]));
        if number < 2 {
            // The two uses run against each other whatever is selected.
            list.push((5, vec![0, senses[1] ^ number as u32]));
        }
    }
    list.push((8, vec![0, 0]));
    let counts = Counts {
        vertices: 0,
        edges: 1,
        faces,
        uses: 2,
    };
    (list, counts)
}

/// Gives later faces body and source of earlier ones. The first that repeats one
/// is the earliest of these: all others had names of their own.
fn repeat(list: &mut [Record], rng: &mut Rng) -> usize {
    let all = 0..list.len();
    let faces: Vec<usize> = all.filter(|&i| list[i].0 == 4).collect();
    let mut repeated = BTreeSet::new();
    let mut kept = BTreeSet::new();
    for _ in 0..*rng.pick(&[1, 1, 1, 1, 2, 3, 6]) {
        let distance = some_distance(faces.len(), rng);
        let first = rng.below(faces.len() - distance);
        let (first, later) = (faces[first], faces[first + distance]);
        if repeated.is_empty() && rng.chance(15) {
            name_at_edge(list, first, rng);
        }
        // A face that another repeats keeps its name.
        if !kept.contains(&later) && !repeated.contains(&later) {
            select_again(list, first, later, rng);
            kept.insert(first);
            repeated.insert(later);
        }
    }
    *repeated.first().expect("the first drawn is free")
}

/// From a face to the next, from the first to the last, and all between.
fn some_distance(faces: usize, rng: &mut Rng) -> usize {
    let most = faces - 1;
    match rng.below(4) {
        0 => 1,
        1 => most,
        2 => (1 << rng.below(9)).min(most),
        _ => rng.range(1, most),
    }
}

/// Gives a face a number at which a field could be cut, if no other has it.
fn name_at_edge(list: &mut [Record], face: usize, rng: &mut Rng) {
    let name = [rng.below(2) as u32, *rng.pick(&EDGES)];
    let free = |(kind, fields): &Record| *kind != 4 || fields[3..] != name;
    if list.iter().all(free) {
        list[face].1[3..].copy_from_slice(&name);
    }
}

/// Surface and senses do not matter: they stay, are turned, or are the earlier
/// face's.
fn select_again(list: &mut [Record], first: usize, later: usize, rng: &mut Rng) {
    let earlier = list[first].1.clone();
    let fields = &mut list[later].1;
    match rng.below(5) {
        0 => fields[..3].copy_from_slice(&earlier[..3]),
        1 => fields[1] ^= 1,
        2 => fields[2] ^= 1,
        3 => fields[0] = earlier[0],
        _ => {}
    }
    fields[3..].copy_from_slice(&earlier[3..]);
}

/// Damage to the repeated face itself: 2, 3 and 4 come before 45.
fn on_it(mut list: Vec<Record>, repeated: usize, rng: &mut Rng) -> Damaged {
    let at = place(&list, repeated);
    let fields = &mut list[repeated].1;
    let number = match rng.below(6) {
        0 | 1 => {
            fields[rng.range(1, 2)] = *rng.pick(&[2, 3, 256, 65_536, NONE]);
            4
        }
        2 => {
            fields.truncate(rng.below(5));
            3
        }
        3 => {
            fields.push(rng.below(2) as u32);
            3
        }
        4 => {
            list[repeated].0 = *rng.pick(&[0, 14, 24, 29, 260, 1_024]);
            3
        }
        _ => 2,
    };
    let mut job = records::to_bytes(&list);
    if number == 2 {
        job.truncate(at + rng.range(1, records::HEADER + 19));
    }
    (job, expected(number, at))
}

/// Damage to other records, or to any. Whatever comes first is told, and 1
/// before all.
fn elsewhere(list: Vec<Record>, repeated: usize, counts: Counts, rng: &mut Rng) -> Damaged {
    let at = place(&list, repeated) as u32;
    for _ in 0..TRIES {
        let (job, found) = damage::one_of(list.clone(), counts, rng);
        let Expected::Refused(refusal) = found else {
            continue;
        };
        let told = match refusal.number {
            1 => found,
            _ if refusal.place > at => twice(&list, repeated),
            // Of one record: 2, 3 and 4. No face is refused with 6 or 7.
            _ => found,
        };
        return (job, told);
    }
    (records::to_bytes(&list), twice(&list, repeated))
}

/// A face too many that repeats one: 5 comes before 4 and 45, and after the 45
/// of an earlier one.
fn too_many(rng: &mut Rng) -> Damaged {
    let (mut list, _) = bare(MAX_FACES, rng);
    give_close_sources(&mut list, rng);
    let repeated = rng.chance(50).then(|| repeat(&mut list, rng));
    let faces = list.iter().filter(|(kind, _)| *kind == 4);
    let faces: Vec<&Record> = faces.collect();
    let mut more = (*rng.pick(&faces)).clone();
    if rng.chance(30) {
        more.1[1] = 2;
    }
    let end = list.len() - 1;
    list.insert(end, more);
    let told = match repeated {
        Some(repeated) => twice(&list, repeated),
        None => expected(5, place(&list, end)),
    };
    (records::to_bytes(&list), told)
}
