//! A stage's output taken apart into the records of docs/STAGES.md.

use crate::records::fields_of;
use crate::second::Stage;

/// The records; whatever does not make one is a record by itself.
pub fn records(stage: Stage, output: &[u8]) -> Vec<Vec<u32>> {
    let fields = fields_of(output);
    match stage {
        Stage::Pair => even(&fields, 1),
        Stage::Merge | Stage::VertexLoops => even(&fields, 2),
        Stage::Walk | Stage::Fans => even(&fields, 3),
        Stage::Read => even(&fields, 4),
        Stage::Loops | Stage::Shells | Stage::Lumps => counted(&fields, 1),
        Stage::Edges | Stage::Joining => edges(&fields),
    }
}

fn even(fields: &[u32], width: usize) -> Vec<Vec<u32>> {
    fields.chunks(width).map(<[u32]>::to_vec).collect()
}

/// A leading field, a count, and so many members of some fields each.
fn counted(mut fields: &[u32], width: usize) -> Vec<Vec<u32>> {
    let mut records = Vec::new();
    while !fields.is_empty() {
        let members = fields.get(1).map_or(0, |&count| count as usize);
        let length = members.saturating_mul(width).saturating_add(2);
        let (record, rest) = fields.split_at(length.min(fields.len()));
        records.push(record.to_vec());
        fields = rest;
    }
    records
}

/// Totals, then the edges, then the loops with two fields an item.
fn edges(fields: &[u32]) -> Vec<Vec<u32>> {
    let (totals, rest) = fields.split_at(fields.len().min(3));
    let edges = totals.get(2).map_or(0, |&count| count as usize);
    let (edges, loops) = rest.split_at(edges.saturating_mul(7).min(rest.len()));
    let mut records = vec![totals.to_vec()];
    records.extend(even(edges, 7));
    records.extend(counted(loops, 2));
    records
}
