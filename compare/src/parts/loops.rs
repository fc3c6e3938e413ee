//! How many loops each face of a body has.

use super::answers::Answers;
use super::split;
use crate::records;
use crate::second::Stage;

/// Loops of both sorts per face: of the body or, if sewing refuses after the
/// loops are known, of the merged faces.
pub fn per_face(answers: &Answers) -> Option<Vec<usize>> {
    match &answers.body {
        Ok(body) => Some(of_body(body)),
        Err(_) => of_stages(answers),
    }
}

fn of_body(body: &[u8]) -> Vec<usize> {
    let mut counts: Vec<usize> = Vec::new();
    for (kind, _) in records::split(body).0 {
        match (kind, counts.last_mut()) {
            (24, _) => counts.push(0),
            (25 | 26, Some(count)) => *count += 1,
            _ => {}
        }
    }
    counts
}

fn of_stages(answers: &Answers) -> Option<Vec<usize>> {
    let of = |stage| {
        let output = answers.stage(stage).as_ref().ok()?;
        Some(split::records(stage, output))
    };
    let mut groups: Vec<u32> = of(Stage::Merge)?.iter().map(|r| r[r.len() - 1]).collect();
    groups.sort_unstable();
    groups.dedup();
    let mut counts = vec![0; groups.len()];
    for record in of(Stage::Loops)?.iter().chain(&of(Stage::VertexLoops)?) {
        if let Some(count) = counts.get_mut(record[0] as usize) {
            *count += 1;
        }
    }
    Some(counts)
}
