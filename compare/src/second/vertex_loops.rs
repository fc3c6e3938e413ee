//! Vertex loops: kept unless the same point is already in the merged face.

use super::job::{Job, Loop};
use super::merge::Merged;
use super::questions::Asker;
use super::refusal::Refusal;

#[derive(Clone, Debug)]
pub struct VertexLoop {
    /// Merged face.
    pub face: usize,
    pub point: u32,
}

/// The kept vertex loops, in the order kept.
pub fn vertex_loops(
    job: &Job,
    merged: &Merged,
    asker: &mut Asker,
) -> Result<Vec<VertexLoop>, Refusal> {
    let mut kept: Vec<VertexLoop> = Vec::new();
    for (selected, data) in job.faces.iter().enumerate() {
        for l in &data.loops {
            if let Loop::Vertex(vertex) = *l {
                let face = merged.number[selected];
                let point = job.vertices[vertex];
                if !is_there(&kept, face, point, asker)? {
                    kept.push(VertexLoop { face, point });
                }
            }
        }
    }
    Ok(kept)
}

/// Held against those kept in the face so far, up to the first that is the same.
fn is_there(
    kept: &[VertexLoop],
    face: usize,
    point: u32,
    asker: &mut Asker,
) -> Result<bool, Refusal> {
    for other in kept.iter().filter(|other| other.face == face) {
        if asker.same_points(point, other.point)? {
            return Ok(true);
        }
    }
    Ok(false)
}
