//! What there is about how a job ends for a print shop, in words.

use super::{MANY_FANS, MANY_USES, counted, fans_by_point};
use crate::compare::Compared;
use crate::second::job::Loop;
use crate::second::{Job, Refusal, Trail};
use reference::Records;
use std::collections::{BTreeMap, BTreeSet};

#[derive(Default)]
struct Found(Vec<String>);

impl Found {
    fn note(&mut self, name: &str, there: bool) {
        self.0.extend(there.then(|| name.to_string()));
    }
}

/// How a job ends: kinds stand with 20 and 21.
pub fn ending(refusal: Option<Refusal>) -> String {
    match refusal {
        None => "accepted".to_string(),
        Some(Refusal {
            number: number @ (20 | 21),
            place,
        }) => format!("{number} of {place}"),
        Some(refusal) => refusal.number.to_string(),
    }
}

/// What there is about the ending for print of a job that loads.
pub fn of(
    job: &Job,
    with_reference: &Compared,
    ordinary: &Trail,
    refusal: Option<Refusal>,
) -> Vec<String> {
    let mut found = Found::default();
    let fans = with_reference.reference.as_ref();
    let fans = fans.and_then(|reference| reference.fans.as_ref().ok());
    match (refusal, fans) {
        (Some(refusal), _) if refusal.number == MANY_USES => {
            many_uses(job, refusal.place as usize, &mut found);
        }
        (Some(refusal), Some(fans)) if refusal.number == MANY_FANS => {
            many_fans(job, ordinary, fans, refusal.place, &mut found);
        }
        (Some(refusal), _) if matches!(refusal.number, 10 | 11) => {
            before_many_uses(job, refusal, &mut found);
        }
        (None, Some(fans)) => accepted(job, with_reference, fans, &mut found),
        _ => {}
    }
    found.0
}

/// What is lost of a refused edge: how many uses it has, and what follows it.
fn many_uses(job: &Job, edge: usize, found: &mut Found) {
    let counts = counted(job);
    let [same, reversed] = counts[edge];
    let uses = same + reversed;
    found.note("41 with four uses", uses == 4);
    found.note("41 with six uses", uses == 6);
    found.note("41 with eight uses or more", uses >= 8);
    found.note("41 with more uses in one sense", same != reversed);
    found.note("41 at edge 0", edge == 0);
    found.note("41 at another edge", edge > 0);
    found.note("41 at a ring", job.edges[edge].ends.is_none());
    found.note("41 at an edge with ends", job.edges[edge].ends.is_some());
    let of_face = |face: &&crate::second::job::Face| uses_in(&face.loops, edge) == uses;
    let alone = job.faces.iter().find(of_face).is_some();
    found.note("41 within one face", alone);
    let mut later = counts[edge + 1..].iter();
    let any = |later: &mut std::slice::Iter<[usize; 2]>, wanted: fn(&[usize; 2]) -> bool| {
        later.clone().any(wanted)
    };
    let equal = any(&mut later, |uses| matches!(uses, [2, 0] | [0, 2]));
    found.note("41 before 10", equal);
    found.note("41 before 11", any(&mut later, |[a, b]| (a + b) % 2 == 1));
    let many = any(&mut later, |[a, b]| a + b > 2 && (a + b) % 2 == 0);
    found.note("41 before another edge of many uses", many);
}

fn uses_in(loops: &[Loop], edge: usize) -> usize {
    let items = loops.iter().flat_map(|l| match l {
        Loop::Uses(items) => &items[..],
        Loop::Vertex(_) => &[],
    });
    items.filter(|(of, _)| *of == edge).count()
}

/// 10 and 11 at an edge before one that has many uses.
fn before_many_uses(job: &Job, refusal: Refusal, found: &mut Found) {
    let counts = counted(job);
    let edge = refusal.place as usize;
    let many = |[a, b]: &[usize; 2]| a + b > 2 && (a + b) % 2 == 0;
    let later = counts[edge + 1..].iter().any(many);
    found.note(&format!("{} before 41", refusal.number), later);
    let uses: usize = counts[edge].iter().sum();
    found.note("11 with three uses", uses == 3);
    found.note("11 with five uses or more", uses > 4);
}

/// Which fans stand at the point that is told, and at others.
fn many_fans(job: &Job, ordinary: &Trail, fans: &Records, point: u32, found: &mut Found) {
    let at = fans_by_point(fans);
    let shared: Vec<(&u32, &BTreeSet<u32>)> =
        at.iter().filter(|(_, fans)| fans.len() > 1).collect();
    let here = &at[&point];
    found.note("42 at point 0", point == 0);
    found.note("42 at the highest point", point == u32::MAX);
    found.note("42 at another point", point > 0 && point < u32::MAX);
    let vertices = job.vertices.iter().filter(|of| **of == point).count();
    found.note("42 at one vertex", vertices == 1);
    found.note("42 at several vertices", vertices > 1);
    found.note("42 with three fans or more", here.len() > 2);
    found.note("42 at one of several points", shared.len() > 1);
    let first = shared.iter().min_by_key(|(_, fans)| fans.first());
    let first_met = first.is_some_and(|(of, _)| **of == point);
    found.note("42 not at the first fan met", !first_met);
    let most = shared.iter().max_by_key(|(_, fans)| fans.len());
    let most = most.map_or(0, |(_, fans)| fans.len());
    found.note("42 not where most fans are", here.len() < most);
    let (Some(reading), Some(merged)) = (&ordinary.reading, &ordinary.merged) else {
        return;
    };
    let boundary = |fan: &u32| merged.boundary[reading.uses[*fan as usize].face];
    let boundaries: BTreeSet<usize> = here.iter().map(boundary).collect();
    found.note("42 within one boundary", boundaries.len() == 1);
    found.note("42 of several boundaries", boundaries.len() > 1);
    let both = boundaries.len() > 1 && boundaries.len() < here.len();
    found.note("42 of two in one boundary and another", both);
    let touch = ordinary.refusal.filter(|refusal| refusal.number == 31);
    let elsewhere = touch.is_some_and(|refusal| refusal.place != point);
    found.note("42 and 31 at another point", elsewhere);
    found.note("42 with removed uses", merged.removed.contains(&true));
}

/// Features of an accepted job that are counted, and what could be taken for a
/// fault.
fn accepted(job: &Job, with_reference: &Compared, fans: &Records, found: &mut Found) {
    for name in FEATURES {
        let there = with_reference.features.contains(&name);
        found.note(&format!("accepted with {name}"), there);
    }
    let at = fans_by_point(fans);
    let loops = job.faces.iter().flat_map(|face| &face.loops);
    let points = loops.filter_map(|l| match l {
        Loop::Vertex(vertex) => Some(job.vertices[*vertex]),
        Loop::Uses(_) => None,
    });
    let points: Vec<u32> = points.collect();
    let beside = points.iter().any(|point| at.contains_key(point));
    found.note("accepted with a vertex loop at a fan", beside);
    let mut times: BTreeMap<u32, usize> = BTreeMap::new();
    points
        .iter()
        .for_each(|point| *times.entry(*point).or_default() += 1);
    let again = times.values().any(|&count| count > 1);
    found.note("accepted with two vertex loops at a point", again);
    let rings = counted(job).into_iter().zip(&job.edges);
    let mut unused = rings.filter(|([a, b], _)| a + b == 0);
    found.note(
        "accepted with an edge without uses",
        unused.next().is_some(),
    );
    found.note("accepted without faces", job.faces.is_empty());
}

/// What is counted of accepted jobs.
pub const FEATURES: [&str; 16] = [
    "a join",
    "three joins or more",
    "a ring made",
    "a ring",
    "a vertex loop kept",
    "a vertex loop dropped",
    "a face join",
    "three faces or more merged",
    "a seam",
    "passing over several at once",
    "a void",
    "several lumps",
    "a joint of two vertices",
    "a use alone between two vertices",
    "a fan that starts at two vertices",
    "an edge left closed at a corner",
];
