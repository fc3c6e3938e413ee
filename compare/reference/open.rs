// Appended to the published file as a child module: calls its private
// functions and hands out what they give as plain numbers.

use super::*;
use catallax_topology::{EdgeId, VertexId};

pub(crate) struct PlainUse {
    pub(crate) edge: usize,
    pub(crate) face: usize,
    pub(crate) sense: Sense,
    pub(crate) next: usize,
}

pub(crate) struct PlainMerged {
    pub(crate) faces: Vec<PlainFace>,
    pub(crate) removed: Vec<bool>,
    pub(crate) next: Vec<usize>,
    /// Lowest face of the boundary of each selected face.
    pub(crate) boundary: Vec<usize>,
}

pub(crate) struct PlainFace {
    pub(crate) members: Vec<usize>,
    pub(crate) loops: Vec<Vec<usize>>,
    pub(crate) vertices: Vec<VertexId>,
}

#[derive(Clone, Debug, PartialEq)]
pub(crate) struct PlainEdge {
    pub(crate) curve: CurveId,
    pub(crate) sense: Sense,
    pub(crate) from: Option<usize>,
    pub(crate) to: Option<usize>,
    pub(crate) faces: [usize; 2],
    pub(crate) active: bool,
}

/// Loops of edges as `maximal_edges` rewrites them, face by face.
pub(crate) type FaceLoops = Vec<Vec<Vec<(usize, Sense)>>>;

pub(crate) fn uses(model: &Model, selection: &Selection) -> Vec<PlainUse> {
    read(model, selection)
        .1
        .iter()
        .map(|u| PlainUse {
            edge: u.edge.0,
            face: u.face,
            sense: u.sense,
            next: u.next,
        })
        .collect()
}

/// Uses of each edge that has any.
pub(crate) fn uses_by_edge(model: &Model, selection: &Selection) -> BTreeMap<usize, Vec<usize>> {
    let by_edge = read(model, selection).2;
    by_edge.into_iter().map(|(e, list)| (e.0, list)).collect()
}

pub(crate) fn twins(
    model: &mut Model,
    selection: &Selection,
    dec: &mut Decider,
) -> Result<Vec<usize>, Refusal> {
    let (faces, uses, by_edge) = read(model, selection);
    pair(model, &faces, &uses, &by_edge, dec)
}

/// Pairs the uses of one edge only. Uses of other edges then lack a twin.
pub(crate) fn pair_edge(
    model: &mut Model,
    selection: &Selection,
    edge: usize,
    dec: &mut Decider,
) -> Result<Vec<usize>, Refusal> {
    let (faces, uses, mut by_edge) = read(model, selection);
    by_edge.retain(|e, _| e.0 == edge);
    pair(model, &faces, &uses, &by_edge, dec)
}

/// Pairs all, and then gives each use in `helped` a partner of its own on an
/// edge made up behind all others; only unhelped uses can lack a twin.
pub(crate) fn pair_helped(
    model: &mut Model,
    selection: &Selection,
    helped: impl Iterator<Item = usize>,
    dec: &mut Decider,
) -> Result<Vec<usize>, Refusal> {
    let (faces, mut uses, mut by_edge) = read(model, selection);
    for h in helped {
        let partner = uses.len();
        let edge = EdgeId(model.edges.len() + h);
        uses.push(Use {
            edge,
            face: 0,
            sense: reverse(uses[h].sense),
            next: partner,
        });
        by_edge.insert(edge, vec![h, partner]);
    }
    pair(model, &faces, &uses, &by_edge, dec)
}

pub(crate) fn merge(
    model: &mut Model,
    selection: &Selection,
    twins: &[usize],
    dec: &mut Decider,
) -> Result<PlainMerged, Refusal> {
    let (faces, uses, _) = read(model, selection);
    let (merged, removed, next, mut components) = merge_faces(model, &faces, &uses, twins, dec)?;
    let plain = |face: FaceData| PlainFace {
        members: face.origins.iter().map(|origin| origin.0).collect(),
        loops: face
            .loops
            .iter()
            .map(|l| l.iter().map(|item| item.0).collect())
            .collect(),
        vertices: face.vertices,
    };
    Ok(PlainMerged {
        faces: merged.into_iter().map(plain).collect(),
        removed,
        next,
        boundary: (0..faces.len()).map(|i| components.root(i)).collect(),
    })
}

/// The fan of each use, by the published `Groups`. `rebuild` keeps its fans to
/// itself where it refuses them.
pub(crate) fn fans(count: usize, joined: impl Iterator<Item = (usize, usize)>) -> Vec<usize> {
    let mut groups = Groups::new(count);
    for (a, b) in joined {
        groups.join(a, b);
    }
    (0..count).map(|h| groups.root(h)).collect()
}

/// Runs `maximal_edges` on edges and loops as seen in an unjoined body.
pub(crate) fn join(
    model: &mut Model,
    supports: &[SurfaceId],
    edges: &[PlainEdge],
    loops: &FaceLoops,
    points: &BTreeMap<usize, PointId>,
    dec: &mut Decider,
) -> Result<(Vec<PlainEdge>, FaceLoops), Refusal> {
    let mut faces: Vec<FaceData> = supports
        .iter()
        .zip(loops)
        .map(|(&surface, loops)| FaceData {
            surface,
            sense: Sense::Same,
            original: 0,
            loops: loops.clone(),
            vertices: Vec::new(),
            origins: Vec::new(),
        })
        .collect();
    let mut data: Vec<EdgeData> = edges.iter().map(edge_data).collect();
    maximal_edges(model, &mut faces, &mut data, points, &BTreeSet::new(), dec)?;
    Ok((
        data.iter().map(plain_edge).collect(),
        faces.into_iter().map(|face| face.loops).collect(),
    ))
}

fn edge_data(edge: &PlainEdge) -> EdgeData {
    EdgeData {
        curve: edge.curve,
        sense: edge.sense,
        from: edge.from,
        to: edge.to,
        faces: edge.faces,
        active: edge.active,
        constructions: Vec::new(),
    }
}

fn plain_edge(edge: &EdgeData) -> PlainEdge {
    PlainEdge {
        curve: edge.curve,
        sense: edge.sense,
        from: edge.from,
        to: edge.to,
        faces: edge.faces,
        active: edge.active,
    }
}

pub(crate) fn orient(
    model: &mut Model,
    faces: &[FaceId],
    dec: &mut Decider,
) -> Result<bool, Refusal> {
    orient_shell(model, faces, dec)
}

/// The outer shell that encloses shell `void`, if any does.
pub(crate) fn enclosing(
    model: &mut Model,
    shells: &[(usize, Vec<FaceId>)],
    outer: &[usize],
    void: usize,
    dec: &mut Decider,
) -> Result<Option<usize>, Refusal> {
    enclosing_shell(model, shells, outer, void, dec)
}

/// The whole of it: `rebuild` with `source` none.
pub(crate) fn whole(
    model: &mut Model,
    selection: &Selection,
    proven: bool,
    dec: &mut Decider,
) -> Result<BodyId, Refusal> {
    let marks = MarkLog::new();
    rebuild(
        model,
        &BTreeSet::new(),
        selection,
        marks,
        None,
        proven,
        dec,
    )
    .map(|answer| answer.value)
}
