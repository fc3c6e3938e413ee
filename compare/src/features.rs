//! What an accepted job has in it, to show that the classes reach it.

use crate::second::edges::NewEdge;
use crate::second::job::Loop;
use crate::second::questions::Question;
use crate::second::read::Use;
use crate::second::{Job, Reply, Sense, Trail};
use crate::twice::{CLOSE, close};
use std::collections::{BTreeMap, BTreeSet};

#[derive(Default)]
struct Found(Vec<&'static str>);

impl Found {
    fn note(&mut self, name: &'static str, there: bool) {
        if there {
            self.0.push(name);
        }
    }
}

pub fn features(job: &Job, trail: &Trail) -> Vec<&'static str> {
    let mut found = Found::default();
    note_products(job, &mut found);
    note_faces(job, trail, &mut found);
    note_sources(job, &mut found);
    note_turns(trail, &mut found);
    note_edges(job, trail, &mut found);
    note_vertices(job, trail, &mut found);
    note_joining(trail, &mut found);
    note_shells(trail, &mut found);
    note_answers(job, trail, &mut found);
    found.0
}

/// The four products of senses, each of a face (own times selected) and of a
/// use (as stored, times selected).
fn note_products(job: &Job, found: &mut Found) {
    use Sense::{Reversed, Same};
    let of_faces = [
        (Same, Same, "a face Same times Same"),
        (Same, Reversed, "a face Same times Reversed"),
        (Reversed, Same, "a face Reversed times Same"),
        (Reversed, Reversed, "a face Reversed times Reversed"),
    ];
    for (own, selected, name) in of_faces {
        let mut faces = job.faces.iter();
        let there = faces.any(|face| (face.own, face.selected) == (own, selected));
        found.note(name, there);
    }
    let of_uses = [
        (Same, Same, "a use Same times Same"),
        (Same, Reversed, "a use Same times Reversed"),
        (Reversed, Same, "a use Reversed times Same"),
        (Reversed, Reversed, "a use Reversed times Reversed"),
    ];
    for (sense, selected, name) in of_uses {
        let faces = job.faces.iter().filter(|face| face.selected == selected);
        let stored = faces.flat_map(|face| &face.loops).flat_map(stored_uses);
        let mut senses = stored.map(|(_, sense)| *sense);
        found.note(name, senses.any(|s| s == sense));
    }
}

fn stored_uses(of: &Loop) -> &[(usize, Sense)] {
    match of {
        Loop::Uses(stored) => stored,
        Loop::Vertex(_) => &[],
    }
}

fn note_faces(job: &Job, trail: &Trail, found: &mut Found) {
    let reversed = |sense: Sense| sense == Sense::Reversed;
    let any = |of: &dyn Fn(&crate::second::job::Face) -> bool| job.faces.iter().any(of);
    found.note("a face selected Reversed", any(&|f| reversed(f.selected)));
    found.note("a face of own sense Reversed", any(&|f| reversed(f.own)));
    found.note("a face without loops", any(&|f| f.loops.is_empty()));
    if let Some(merged) = &trail.merged {
        let biggest = counts(merged.number.iter().copied()).into_values().max();
        found.note("three faces or more merged", biggest.unwrap_or(0) > 2);
        found.note("a face join", merged.joins > 0);
        found.note("three face joins or more", merged.joins > 2);
    }
    note_groups(job, trail, found);
    note_members(job, trail, found);
    if let Some(loops) = &trail.loops {
        let biggest = counts(loops.iter().map(|l| l.face)).into_values().max();
        found.note("several loops in a face", biggest.unwrap_or(0) > 1);
    }
    let loops = job.faces.iter().flat_map(|face| &face.loops);
    let stored = loops.filter(|l| matches!(l, Loop::Vertex(_))).count();
    let kept = trail.vertex_loops.as_ref().map_or(0, Vec::len);
    found.note("a vertex loop kept", kept > 0);
    found.note("a vertex loop dropped", kept < stored);
}

/// How surface answers meet groups that others have joined.
fn note_groups(job: &Job, trail: &Trail, found: &mut Found) {
    let (Some(reading), Some(twins)) = (&trail.reading, &trail.twins) else {
        return;
    };
    let mut group: Vec<usize> = (0..job.faces.len()).collect();
    let [mut within, mut one_higher, mut both_higher] = [false; 3];
    for question in &trail.asked {
        let Question::Surface { lower_use } = question else {
            continue;
        };
        let h = *lower_use as usize;
        let (a, b) = (reading.uses[h].face, reading.uses[twins[h]].face);
        let equal = reading.senses[a] == reading.senses[b];
        let value = if equal { 1 } else { 2 };
        if job.answers.get(question) != Some(&Reply::Value(value)) {
            continue;
        }
        let (low, high) = (group[a].min(group[b]), group[a].max(group[b]));
        within |= low == high;
        one_higher |= low != high && (group[a] < a || group[b] < b);
        both_higher |= low != high && group[a] < a && group[b] < b;
        let of_high = group.iter_mut().filter(|of| **of == high);
        of_high.for_each(|of| *of = low);
    }
    found.note("an answer within one group", within);
    found.note("a face join through a face that is not lowest", one_higher);
    found.note(
        "a face join through two faces that are not lowest",
        both_higher,
    );
}

/// What the selected faces behind a merged face have as bodies and sources.
fn note_members(job: &Job, trail: &Trail, found: &mut Found) {
    let Some(merged) = &trail.merged else {
        return;
    };
    let mut behind: BTreeMap<usize, Vec<(u32, u32)>> = BTreeMap::new();
    for (face, number) in job.faces.iter().zip(&merged.number) {
        let members = behind.entry(*number).or_default();
        members.push((face.body, face.source));
    }
    let [mut bodies, mut falls, mut highest] = [false; 3];
    for members in behind.values() {
        bodies |= members.iter().any(|member| member.0 != members[0].0);
        falls |= members.windows(2).any(|pair| pair[1].1 < pair[0].1);
        highest |= members.iter().any(|member| member.1 == u32::MAX);
    }
    found.note("members of both bodies", bodies);
    found.note("members whose sources do not ascend", falls);
    found.note("a member of the highest source", highest);
}

/// Faces that could be taken for each other by their sources, and are not.
fn note_sources(job: &Job, found: &mut Found) {
    let names = job.faces.iter().map(|face| (face.body, face.source));
    for (name, there) in CLOSE.into_iter().zip(close(names)) {
        found.note(name, there);
    }
}

fn note_turns(trail: &Trail, found: &mut Found) {
    let (Some(reading), Some(twins)) = (&trail.reading, &trail.twins) else {
        return;
    };
    let (Some(merged), Some(steps)) = (&trail.merged, &trail.steps) else {
        return;
    };
    let passed = |least: u32| steps.iter().flatten().any(|step| step.passed >= least);
    found.note("passing over", passed(1));
    found.note("passing over several at once", passed(2));
    let turns = turns(&reading.uses, twins);
    let removed = |turn: &[usize]| turn.iter().filter(|&&h| merged.removed[h]).count();
    let bare = turns.iter().any(|t| t.len() > 2 && removed(t) == t.len());
    found.note("a turn of three removed uses or more and no kept one", bare);
    let mixed = turns.iter().any(|t| removed(t) > 1 && removed(t) < t.len());
    found.note("a turn with several removed uses and a kept one", mixed);
}

/// The turns: a use and all that "old successor of its twin" yields.
pub fn turns(uses: &[Use], twins: &[usize]) -> Vec<Vec<usize>> {
    let mut seen = vec![false; uses.len()];
    let mut turns = Vec::new();
    for start in 0..uses.len() {
        let mut turn = Vec::new();
        let mut h = start;
        while !seen[h] {
            seen[h] = true;
            turn.push(h);
            h = uses[twins[h]].successor;
        }
        if !turn.is_empty() {
            turns.push(turn);
        }
    }
    turns
}

fn note_edges(job: &Job, trail: &Trail, found: &mut Found) {
    let (Some(reading), Some(twins)) = (&trail.reading, &trail.twins) else {
        return;
    };
    let uses = &reading.uses;
    let seam = |h: usize| uses[h].face == uses[twins[h]].face;
    found.note("a seam", (0..uses.len()).any(seam));
    let ring = |u: &Use| job.edges[u.edge].ends.is_none();
    found.note("a ring", uses.iter().any(ring));
    let crowds = counts(uses.iter().map(|u| u.edge));
    found.note("an edge of four uses", crowds.values().any(|&n| n == 4));
    found.note(
        "an edge of six uses or more",
        crowds.values().any(|&n| n >= 6),
    );
}

/// Where two vertex records on one point stand for one corner.
fn note_vertices(job: &Job, trail: &Trail, found: &mut Found) {
    let Some(reading) = &trail.reading else {
        return;
    };
    let uses = &reading.uses;
    let ends = |u: &Use| job.edges[u.edge].ends_of_use(u.sense);
    let start = |u: &Use| ends(u).map(|(start, _)| start);
    let split = |u: &Use| ends(u).map(|(_, end)| end) != start(&uses[u.successor]);
    found.note("a joint of two vertices", uses.iter().any(split));
    let alone = |h: usize| uses[h].successor == h && split(&uses[h]);
    let met = (0..uses.len()).any(alone);
    found.note("a use alone between two vertices", met);
    let mut starts: BTreeMap<(u32, usize), BTreeSet<usize>> = BTreeMap::new();
    for (h, fan) in trail
        .fans
        .iter()
        .flat_map(|fans| fans.of_use.iter().enumerate())
    {
        if let (Some(fan), Some(vertex)) = (fan, start(&uses[h])) {
            starts
                .entry((fan.point, fan.number))
                .or_default()
                .insert(vertex);
        }
    }
    let several = starts.values().any(|vertices| vertices.len() > 1);
    found.note("a fan that starts at two vertices", several);
}

fn note_joining(trail: &Trail, found: &mut Found) {
    let (Some(joined), Some(fans)) = (&trail.joined, &trail.fans) else {
        return;
    };
    found.note("a join", joined.joins > 0);
    found.note("three joins or more", joined.joins > 2);
    found.note("a ring made", joined.rings > 0);
    let closed = |e: &NewEdge| e.active && e.ends.is_some_and(|(start, end)| start == end);
    let edges = &joined.table.edges;
    found.note("an edge left closed at a corner", edges.iter().any(closed));
    let fans = fans.of_use.iter().flatten();
    let at: BTreeSet<(u32, usize)> = fans.map(|fan| (fan.point, fan.number)).collect();
    let points: BTreeSet<u32> = at.iter().map(|(point, _)| *point).collect();
    found.note("several fans at a point", points.len() < at.len());
}

fn note_shells(trail: &Trail, found: &mut Found) {
    if let (Some(shells), Some(lumps)) = (&trail.shells, &trail.lumps) {
        found.note("several lumps", lumps.shells.len() > 1);
        found.note("a void", shells.list.iter().any(|shell| !shell.outer));
        let crowded = lumps.shells.iter().any(|members| members.len() > 2);
        found.note("several voids in a lump", crowded);
    }
}

/// Answers that lead to what is not the rule.
fn note_answers(job: &Job, trail: &Trail, found: &mut Found) {
    let is =
        |question: &Question, wanted: u32| job.answers.get(question) == Some(&Reply::Value(wanted));
    let any = |kind: u32, wanted: u32| {
        let mut asked = trail.asked.iter();
        asked.any(|question| question.kind() == kind && is(question, wanted))
    };
    found.note("opposed normals", any(8, 2));
    found.note("points answered the same", any(9, 1));
    found.note("curves answered the same", any(10, 1));
    found.note("a singular corner", any(11, 1));
    let shells = trail.shells.iter().flat_map(|shells| &shells.list);
    let outer: BTreeSet<u32> = shells
        .filter(|shell| shell.outer)
        .map(|shell| shell.faces[0] as u32)
        .collect();
    let nested = trail.asked.iter().any(|question| match question {
        Question::Inside { probe, .. } => outer.contains(probe) && is(question, 1),
        _ => false,
    });
    found.note("an outer shell within another", nested);
}

fn counts(names: impl Iterator<Item = usize>) -> BTreeMap<usize, usize> {
    let mut counts = BTreeMap::new();
    for name in names {
        *counts.entry(name).or_default() += 1;
    }
    counts
}
