//! Vertices split: several vertex records on one point, as where imprinted
//! halves meet.

use super::rng::Rng;
use crate::records::Record;
use crate::second::NONE;
use crate::second::load::MAX_VERTICES;

/// Gives so many of a hundred ends of edges and vertex loops a vertex record of
/// their own on the same point, as far as the limit permits, and numbers all
/// vertices anew. The first record is the Head.
pub fn split_vertices(records: &mut Vec<Record>, percent: usize, rng: &mut Rng) {
    let vertices = records.iter().filter(|(kind, _)| *kind == 2);
    let mut points: Vec<u32> = vertices.map(|(_, fields)| fields[0]).collect();
    let stored = points.len();
    for vertex in records.iter_mut().flat_map(vertices_of) {
        if points.len() < MAX_VERTICES && rng.chance(percent) {
            points.push(points[*vertex as usize]);
            *vertex = points.len() as u32 - 1;
        }
    }
    let numbers = rng.order(points.len());
    for vertex in records.iter_mut().flat_map(vertices_of) {
        *vertex = numbers[*vertex as usize] as u32;
    }
    let mut by_number: Vec<Record> = vec![(2, vec![0]); points.len()];
    for (point, number) in points.into_iter().zip(numbers) {
        by_number[number].1[0] = point;
    }
    records.splice(1..1 + stored, by_number);
}

/// The fields of a record that name vertices.
fn vertices_of((kind, fields): &mut Record) -> &mut [u32] {
    match kind {
        3 if fields[2] != NONE => &mut fields[2..],
        6 => fields,
        _ => &mut [],
    }
}
