//! Jobs that suit a print shop, or do not: with points and edges that have become
//! one, and with answers lost that are due after the faults of a print shop.

use super::filling::{Put, filled};
use super::rng::Rng;
use super::sample_of;
use crate::records::{self, Record};
use crate::second::fans::Fan;
use crate::second::{self, NONE, Rules, Supplied, Trail};
use std::collections::{BTreeMap, BTreeSet};

/// A job to sew for a print shop: often the job itself, else one made of it, or of
/// one with several shells, whose boundaries can meet. The same job and numbers
/// always give the same.
pub fn suited(job: &[u8], rng: &mut Rng) -> Vec<u8> {
    match (rng.chance(40), rng.chance(45)) {
        (true, _) => job.to_vec(),
        (false, true) => changed(&sample_of("shells", rng).job, rng),
        (false, false) => changed(job, rng),
    }
}

/// A job that loads with some of its points and edges made one.
fn changed(job: &[u8], rng: &mut Rng) -> Vec<u8> {
    if second::load(job).is_err() {
        return job.to_vec();
    }
    let (mut list, _) = records::split(job);
    let edges = rng.chance(25);
    for _ in 0..usize::from(edges) * rng.range(1, 3) {
        one_edge_of_two(&mut list, rng);
    }
    if !edges || rng.chance(30) {
        for _ in 0..*rng.pick(&[1, 1, 2, 3]) {
            one_point_of_two(&mut list, rng);
        }
    }
    if rng.chance(30) {
        exchange_points(&mut list, rng);
    }
    sound_answers(&mut list);
    let mut job = records::to_bytes(&list);
    if rng.chance(60) {
        job = filled(job, Rules::ORDINARY, Put::All, rng);
    }
    if rng.chance(30) {
        job = lost(&job, rng);
    }
    job
}

/// Where uses start in a job: each point with the lowest selected face of a
/// boundary that has a fan there. Not known of a job that is refused before.
fn corners(list: &[Record]) -> Vec<(u32, usize)> {
    let trail = second::sewn(&Supplied::Nothing, &records::to_bytes(list));
    let Ok(Trail {
        reading: Some(reading),
        merged: Some(merged),
        fans: Some(fans),
        ..
    }) = trail
    else {
        return Vec::new();
    };
    let fans = fans.of_use.iter().flatten();
    let boundary = |fan: &Fan| merged.boundary[reading.uses[fan.number].face];
    let corners: BTreeSet<(u32, usize)> = fans.map(|fan| (fan.point, boundary(fan))).collect();
    corners.into_iter().collect()
}

fn vertex_points(list: &[Record]) -> Vec<u32> {
    of_kind(list, 2)
        .into_iter()
        .map(|fields| fields[0])
        .collect()
}

fn of_kind(list: &[Record], wanted: u16) -> Vec<&[u32]> {
    let of_kind = list.iter().filter(|(kind, _)| *kind == wanted);
    of_kind.map(|(_, fields)| &fields[..]).collect()
}

/// Two points of corners become one, mostly of different boundaries if there are
/// several, which ordinary sewing lets pass, and sometimes all vertices on it one
/// vertex.
fn one_point_of_two(list: &mut [Record], rng: &mut Rng) {
    let corners = corners(list);
    if corners.is_empty() {
        return;
    }
    let a = *rng.pick(&corners);
    let boundaries = |point: u32| -> BTreeSet<usize> {
        let there = corners.iter().filter(|corner| corner.0 == point);
        there.map(|corner| corner.1).collect()
    };
    let here = boundaries(a.0);
    let apart = corners
        .iter()
        .filter(|b| here.is_disjoint(&boundaries(b.0)));
    let apart: Vec<(u32, usize)> = apart.copied().collect();
    let others = match apart.is_empty() || rng.chance(20) {
        true => &corners,
        false => &apart,
    };
    rename_points(list, &[(rng.pick(others).0, a.0)]);
    if rng.chance(30) {
        one_vertex_at(list, a.0);
    }
}

/// Edges that end at the point end at its first vertex.
fn one_vertex_at(list: &mut [Record], point: u32) {
    let points = vertex_points(list);
    let first = points.iter().position(|of| *of == point);
    for (_, fields) in list.iter_mut().filter(|(kind, _)| *kind == 3) {
        for end in fields[2..].iter_mut().filter(|end| **end != NONE) {
            if let (true, Some(first)) = (points[*end as usize] == point, first) {
                *end = first as u32;
            }
        }
    }
}

/// A point is exchanged with 0, the highest point or any other, so that no place
/// of 42 is rare.
fn exchange_points(list: &mut [Record], rng: &mut Rng) {
    let points = vertex_points(list);
    if !points.is_empty() {
        let a = *rng.pick(&points);
        let b = match rng.below(3) {
            0 => 0,
            1 => u32::MAX,
            _ => rng.field(),
        };
        rename_points(list, &[(a, b), (b, a)]);
    }
}

/// Gives points other names, in vertices and in answers.
fn rename_points(list: &mut [Record], names: &[(u32, u32)]) {
    let names: BTreeMap<u32, u32> = names.iter().copied().collect();
    for (kind, fields) in list {
        let points = match kind {
            2 => 0..1,
            9 => 0..2,
            11 => 3..4,
            _ => continue,
        };
        for field in &mut fields[points] {
            *field = names.get(field).copied().unwrap_or(*field);
        }
    }
}

/// Two edges of one sort become one: the uses of the second are of the first, and
/// its ends lie on the first one's points.
fn one_edge_of_two(list: &mut [Record], rng: &mut Rng) {
    let edges: Vec<Vec<u32>> = of_kind(list, 3).into_iter().map(<[u32]>::to_vec).collect();
    if edges.len() < 2 {
        return;
    }
    let (a, b) = (rng.below(edges.len()), rng.below(edges.len()));
    let ring = |edge: usize| edges[edge][2] == NONE;
    if a == b || ring(a) != ring(b) {
        return;
    }
    if !ring(a) {
        for end in [2, 3] {
            let points = vertex_points(list);
            let point = |edge: usize| points[edges[edge][end] as usize];
            let (kept, gone) = (point(a), point(b));
            rename_points(list, &[(gone, kept)]);
        }
    }
    for (_, fields) in list.iter_mut().filter(|(kind, _)| *kind == 5) {
        for item in fields.chunks_mut(2).filter(|item| item[0] as usize == b) {
            item[0] = a as u32;
        }
    }
}

/// Leaves out answers that no longer load: of two equal points, and those to a
/// question that is answered before.
fn sound_answers(list: &mut Vec<Record>) {
    let mut met: BTreeSet<Record> = BTreeSet::new();
    list.retain(|(kind, fields)| {
        let mut question = match kind {
            7 => fields[..1].to_vec(),
            8..=13 => fields[..fields.len() - 1].to_vec(),
            _ => return true,
        };
        if matches!(kind, 9 | 10) {
            question.sort_unstable();
            if question[0] == question[1] {
                return false;
            }
        }
        met.insert((*kind, question))
    });
}

/// The job without some answers of the kinds that are asked after the walks, or
/// with some that say no or are undecided.
fn lost(job: &[u8], rng: &mut Rng) -> Vec<u8> {
    let (mut list, _) = records::split(job);
    let first = *rng.pick(&[10, 10, 11, 12, 13]);
    let last = if rng.chance(50) { first } else { 13 };
    let other = *rng.pick(&[None, Some(0), Some(2)]);
    let some = *rng.pick(&[30, 100]);
    list.retain_mut(|(kind, fields)| {
        if !(first..=last).contains(kind) || !rng.chance(some) {
            return true;
        }
        if let (Some(other), Some(value)) = (other, fields.last_mut()) {
            *value = other;
        }
        other.is_some()
    });
    records::to_bytes(&list)
}
