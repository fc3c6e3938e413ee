//! What sewing and each single stage write, as docs/STAGES.md sets it down.

use super::body;
use super::edges::EdgeTable;
use super::job::NONE;
use super::refusal::{Refusal, refusal};
use super::sew::Trail;

/// Fields of one record of a stage.
pub type Fields = Vec<u32>;

#[derive(Clone, Copy, PartialEq, Eq, Debug)]
pub enum Stage {
    Read,
    Pair,
    Merge,
    VertexLoops,
    Walk,
    Loops,
    Fans,
    Edges,
    Joining,
    Shells,
    Lumps,
}

impl Stage {
    pub const ALL: [Self; 11] = [
        Self::Read,
        Self::Pair,
        Self::Merge,
        Self::VertexLoops,
        Self::Walk,
        Self::Loops,
        Self::Fans,
        Self::Edges,
        Self::Joining,
        Self::Shells,
        Self::Lumps,
    ];

    pub fn name(self) -> &'static str {
        match self {
            Self::Read => "read",
            Self::Pair => "pair",
            Self::Merge => "merge",
            Self::VertexLoops => "vertex-loops",
            Self::Walk => "walk",
            Self::Loops => "loops",
            Self::Fans => "fans",
            Self::Edges => "edges",
            Self::Joining => "joining",
            Self::Shells => "shells",
            Self::Lumps => "lumps",
        }
    }

    pub fn of_name(name: &str) -> Option<Self> {
        Self::ALL.into_iter().find(|stage| stage.name() == name)
    }
}

/// The records of a stage, if the output has room for them.
pub fn stage_output(trail: &Trail, stage: Stage, room: usize) -> Result<Vec<Fields>, Refusal> {
    let Some(records) = records(trail, stage) else {
        return Err(trail.refusal.expect("a stage not reached was refused"));
    };
    let needed = records.iter().map(|fields| 4 * fields.len()).sum();
    if needed > room {
        return Err(refusal(40, needed));
    }
    Ok(records)
}

/// The bytes of the body, if the output has room for them.
pub fn sew_output(trail: &Trail, room: usize) -> Result<Vec<u8>, Refusal> {
    let Some(records) = &trail.body else {
        return Err(trail.refusal.expect("a body not written was refused"));
    };
    let bytes = body::bytes(records);
    if bytes.len() > room {
        return Err(refusal(40, bytes.len()));
    }
    Ok(bytes)
}

/// The records of a stage that was reached.
fn records(trail: &Trail, stage: Stage) -> Option<Vec<Fields>> {
    match stage {
        Stage::Read => read(trail),
        Stage::Pair => pair(trail),
        Stage::Merge => merge(trail),
        Stage::VertexLoops => vertex_loops(trail),
        Stage::Walk => walk(trail),
        Stage::Loops => loops(trail),
        Stage::Fans => fans(trail),
        Stage::Edges => trail.edges.as_ref().map(|table| edges(table, 0, 0)),
        Stage::Joining => trail
            .joined
            .as_ref()
            .map(|joined| edges(&joined.table, joined.joins, joined.rings)),
        Stage::Shells => shells(trail),
        Stage::Lumps => lumps(trail),
    }
}

fn read(trail: &Trail) -> Option<Vec<Fields>> {
    let uses = &trail.reading.as_ref()?.uses;
    let fields = uses.iter().map(|u| {
        vec![
            u.edge as u32,
            u.face as u32,
            u.sense.field(),
            u.successor as u32,
        ]
    });
    Some(fields.collect())
}

fn pair(trail: &Trail) -> Option<Vec<Fields>> {
    let twins = trail.twins.as_ref()?;
    Some(twins.iter().map(|&twin| vec![twin as u32]).collect())
}

fn merge(trail: &Trail) -> Option<Vec<Fields>> {
    let merged = trail.merged.as_ref()?;
    let both = merged.boundary.iter().zip(&merged.group);
    Some(both.map(|(&b, &g)| vec![b as u32, g as u32]).collect())
}

fn vertex_loops(trail: &Trail) -> Option<Vec<Fields>> {
    let kept = trail.vertex_loops.as_ref()?;
    Some(kept.iter().map(|v| vec![v.face as u32, v.point]).collect())
}

fn walk(trail: &Trail) -> Option<Vec<Fields>> {
    let steps = trail.steps.as_ref()?.iter().enumerate();
    let fields = steps.filter_map(|(h, step)| {
        let step = step.as_ref()?;
        Some(vec![h as u32, step.successor as u32, step.passed])
    });
    Some(fields.collect())
}

fn loops(trail: &Trail) -> Option<Vec<Fields>> {
    let loops = trail.loops.as_ref()?;
    let fields = loops.iter().map(|l| counted(l.face, &l.uses));
    Some(fields.collect())
}

fn fans(trail: &Trail) -> Option<Vec<Fields>> {
    let fans = trail.fans.as_ref()?.of_use.iter().enumerate();
    let fields = fans.filter_map(|(h, fan)| {
        let fan = fan.as_ref()?;
        Some(vec![h as u32, fan.number as u32, fan.point])
    });
    Some(fields.collect())
}

fn edges(table: &EdgeTable, joins: u32, rings: u32) -> Vec<Fields> {
    let mut records = vec![vec![joins, rings, table.edges.len() as u32]];
    for edge in &table.edges {
        let (start, end) = match edge.ends {
            Some((start, end)) => (start as u32, end as u32),
            None => (NONE, NONE),
        };
        records.push(vec![
            edge.curve,
            edge.sense.field(),
            start,
            end,
            edge.faces.0 as u32,
            edge.faces.1 as u32,
            u32::from(edge.active),
        ]);
    }
    for l in &table.loops {
        let mut fields = vec![l.face as u32, l.items.len() as u32];
        for item in &l.items {
            fields.extend([item.edge as u32, item.sense.field()]);
        }
        records.push(fields);
    }
    records
}

fn shells(trail: &Trail) -> Option<Vec<Fields>> {
    let list = &trail.shells.as_ref()?.list;
    let fields = list
        .iter()
        .map(|shell| counted(usize::from(shell.outer), &shell.faces));
    Some(fields.collect())
}

fn lumps(trail: &Trail) -> Option<Vec<Fields>> {
    let list = &trail.shells.as_ref()?.list;
    let lumps = &trail.lumps.as_ref()?.shells;
    let mut records = Vec::new();
    for (lump, members) in lumps.iter().enumerate() {
        for &shell in members {
            records.push(counted(lump, &list[shell].faces));
        }
    }
    Some(records)
}

/// A leading field, the number of members, the members.
fn counted(lead: usize, members: &[usize]) -> Fields {
    let mut fields = vec![lead as u32, members.len() as u32];
    fields.extend(members.iter().map(|&m| m as u32));
    fields
}
