//! The body's records, in the order of part P9.

use super::fans::Fans;
use super::job::{Job, NONE};
use super::joining::Joined;
use super::lumps::Lumps;
use super::merge::Merged;
use super::read::Reading;
use super::shells::Shells;
use super::vertex_loops::VertexLoop;
use super::walk::Step;

/// Kind and fields.
pub type BodyRecord = (u16, Vec<u32>);

pub struct Parts<'a> {
    pub job: &'a Job,
    pub reading: &'a Reading,
    pub merged: &'a Merged,
    pub steps: &'a [Option<Step>],
    pub vertex_loops: &'a [VertexLoop],
    pub fans: &'a Fans,
    pub joined: &'a Joined,
    pub shells: &'a Shells,
    pub lumps: &'a Lumps,
}

pub fn body(parts: &Parts) -> Vec<BodyRecord> {
    let mut records = vec![(21, head(parts))];
    let (vertices, ends) = vertices(parts);
    records.extend(vertices.into_iter().map(|point| (22, vec![point])));
    let (edges, numbers) = edges(parts, ends);
    records.extend(edges.into_iter().map(|fields| (23, fields)));
    for face in 0..parts.merged.lowest.len() {
        records.extend(face_with_loops(parts, face, &numbers));
    }
    for members in &parts.lumps.shells {
        records.push((27, Vec::new()));
        for &shell in members {
            let faces = &parts.shells.list[shell].faces;
            records.push((28, faces.iter().map(|&f| f as u32).collect()));
        }
    }
    records
}

/// Empty or Solid, uses, removed, passed in total, joins, rings, face joins.
fn head(parts: &Parts) -> Vec<u32> {
    let solid = !parts.job.faces.is_empty();
    let kept = parts.steps.iter().flatten();
    let passed: u32 = kept.clone().map(|step| step.passed).sum();
    let removed = parts.steps.len() - kept.count();
    vec![
        u32::from(solid),
        parts.steps.len() as u32,
        removed as u32,
        passed,
        parts.joined.joins,
        parts.joined.rings,
        parts.merged.joins,
    ]
}

/// Points of the vertices, first met over active edges, start then end; and
/// the two vertices of each edge.
fn vertices(parts: &Parts) -> (Vec<u32>, Vec<[u32; 2]>) {
    let mut met: Vec<usize> = Vec::new();
    let mut ends = Vec::new();
    for edge in &parts.joined.table.edges {
        let mut vertex = |fan: usize| {
            let number = met.iter().position(|&other| other == fan);
            number.unwrap_or_else(|| {
                met.push(fan);
                met.len() - 1
            }) as u32
        };
        ends.push(match edge.ends {
            Some((start, end)) if edge.active => [vertex(start), vertex(end)],
            _ => [NONE, NONE],
        });
    }
    let point = |&fan: &usize| parts.fans.of_use[fan].expect("a fan").point;
    (met.iter().map(point).collect(), ends)
}

/// Records of the active edges, and their new numbers by old number.
fn edges(parts: &Parts, ends: Vec<[u32; 2]>) -> (Vec<Vec<u32>>, Vec<u32>) {
    let mut records = Vec::new();
    let mut numbers = Vec::new();
    for (edge, [start, end]) in parts.joined.table.edges.iter().zip(ends) {
        numbers.push(records.len() as u32);
        if edge.active {
            records.push(vec![edge.curve, edge.sense.field(), start, end]);
        }
    }
    (records, numbers)
}

/// A face has surface and stored sense of its lowest member; its members follow
/// it, then its loops, vertex loops last.
fn face_with_loops(parts: &Parts, face: usize, numbers: &[u32]) -> Vec<BodyRecord> {
    let lowest = parts.merged.lowest[face];
    let surface = parts.job.faces[lowest].surface;
    let mut records = vec![
        (24, vec![surface, parts.reading.senses[lowest].field()]),
        (29, members(parts, face)),
    ];
    let loops = parts.joined.table.loops.iter();
    for l in loops.filter(|l| l.face == face) {
        let fields = l.items.iter();
        let fields = fields.flat_map(|item| [numbers[item.edge], item.sense.field()]);
        records.push((25, fields.collect()));
    }
    let of_face = parts.vertex_loops.iter().filter(|v| v.face == face);
    records.extend(of_face.map(|v| (26, vec![v.point])));
    records
}

/// Body and source of each selected face in a merged face, in the order of the job.
fn members(parts: &Parts, face: usize) -> Vec<u32> {
    let selected = parts.job.faces.iter().zip(&parts.merged.number);
    let members = selected.filter(|(_, number)| **number == face);
    members.flat_map(|(of, _)| [of.body, of.source]).collect()
}

/// The bytes of records: length, kind, fields, little-endian.
pub fn bytes(records: &[BodyRecord]) -> Vec<u8> {
    let mut out = Vec::new();
    for (kind, fields) in records {
        out.extend((4 * fields.len() as u32).to_le_bytes());
        out.extend(kind.to_le_bytes());
        out.extend(fields.iter().flat_map(|field| field.to_le_bytes()));
    }
    out
}
