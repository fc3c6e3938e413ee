//! Changes that keep a sketch closed: edges cut, faces split and more.

use super::rng::Rng;
use super::sketch::{Sketch, Spot};

/// Puts a corner of two ends into an edge.
pub fn cut_edge(sketch: &mut Sketch, pair: usize) {
    if sketch.pairs[pair].ring {
        return;
    }
    let (half, twin) = (2 * pair, 2 * pair + 1);
    let new = sketch.add_pair(sketch.face[half], sketch.face[twin]);
    sketch.next[new] = sketch.next[half];
    sketch.next[half] = new;
    let before = sketch.previous(twin);
    sketch.next[before] = new + 1;
    sketch.next[new + 1] = twin;
    let old = sketch.pairs[pair].clone();
    let added = &mut sketch.pairs[new / 2];
    added.chain = old.chain;
    added.merge = old.merge;
}

/// A new edge across a face from the start of one half to that of another.
/// Within one loop it splits the loop, and the part after `from` goes to a
/// face of its own; between two loops it is a seam that makes them one.
pub fn chord(sketch: &mut Sketch, from: usize, to: usize, own_face: bool) -> usize {
    let face = sketch.face[from];
    let one_loop = sketch.cycle(from).contains(&to);
    let new = sketch.add_pair(face, face);
    let (before_from, before_to) = (sketch.previous(from), sketch.previous(to));
    if from == to {
        sketch.next[before_from] = new;
        sketch.next[new] = from;
    } else {
        sketch.next[before_from] = new;
        sketch.next[new] = to;
        sketch.next[before_to] = new + 1;
        sketch.next[new + 1] = from;
    }
    if one_loop && own_face {
        let part = sketch.add_face();
        for half in sketch.cycle(new + 1) {
            sketch.face[half] = part;
        }
    }
    new
}

/// An edge from a corner into a face; its far corner is new. Gives the half
/// that starts there.
pub fn spur(sketch: &mut Sketch, half: usize) -> usize {
    let face = sketch.face[half];
    let new = sketch.add_pair(face, face);
    let before = sketch.previous(half);
    sketch.next[before] = new;
    sketch.next[new] = new + 1;
    sketch.next[new + 1] = half;
    new + 1
}

/// A corner within a loop, with edges to several of the loop's corners.
pub fn star(sketch: &mut Sketch, half: usize, rng: &mut Rng) {
    let rest = sketch.cycle(half).split_off(1);
    let first_new = sketch.pairs.len();
    let mut middle = spur(sketch, half);
    for corner in rest {
        if rng.chance(75) {
            middle = chord(sketch, middle, corner, true);
        }
    }
    for pair in first_new..sketch.pairs.len() {
        sketch.pairs[pair].merge = rng.chance(85);
    }
}

/// Several edges from one corner to others of its loop.
pub fn brush(sketch: &mut Sketch, half: usize, rng: &mut Rng) {
    let mut corner = half;
    for other in sketch.cycle(half).split_off(1) {
        if rng.chance(60) {
            let new = chord(sketch, corner, other, true);
            sketch.pairs[new / 2].merge = rng.chance(85);
            corner = new;
        }
    }
}

/// A polygon within a face: a hole of it, and a face inside.
pub fn island(sketch: &mut Sketch, face: usize, sides: usize, ring: bool) {
    let inner = sketch.add_face();
    let first = sketch.next.len();
    for _ in 0..sides {
        let new = sketch.add_pair(inner, face);
        sketch.pairs[new / 2].ring = ring && sides == 1;
    }
    for i in 0..sides {
        sketch.next[first + 2 * i] = first + 2 * ((i + 1) % sides);
        sketch.next[first + 2 * i + 1] = first + 2 * ((i + sides - 1) % sides) + 1;
    }
}

/// Makes one face of two.
pub fn fuse(sketch: &mut Sketch, face: usize, other: usize) {
    if face == other {
        return;
    }
    for of in &mut sketch.face {
        if *of == other {
            *of = face;
        }
    }
    let loops = std::mem::take(&mut sketch.faces[other].vertex_loops);
    sketch.faces[face].vertex_loops.extend(loops);
    sketch.faces[other].copies = 0;
}

/// Gives faces vertex loops: at vertices of their own, some on equal points,
/// and at corners.
pub fn vertex_loops(sketch: &mut Sketch, count: usize, rng: &mut Rng) {
    for _ in 0..count {
        let face = rng.below(sketch.faces.len());
        let spot = match rng.below(10) {
            0..=5 => {
                let labels = sketch.spots.len();
                let again = labels > 0 && rng.chance(30);
                let label = if again {
                    *rng.pick(&sketch.spots)
                } else {
                    labels
                };
                sketch.spots.push(label);
                Spot::Own(labels)
            }
            6..=8 if !sketch.spots.is_empty() => Spot::Own(rng.below(sketch.spots.len())),
            _ if sketch.next.is_empty() => continue,
            _ => Spot::Start(rng.below(sketch.next.len())),
        };
        sketch.faces[face].vertex_loops.push(spot);
    }
}

#[derive(Clone, Copy)]
pub enum Change {
    Cut,
    Chord,
    Spur,
    Star,
    Brush,
    Island,
    Seam,
    Fuse,
}

/// How often each change is made, out of the sum.
pub type Taste = [(Change, usize)];

pub const MERGING: &Taste = &[
    (Change::Cut, 2),
    (Change::Chord, 5),
    (Change::Spur, 1),
    (Change::Star, 3),
    (Change::Brush, 3),
    (Change::Island, 2),
    (Change::Seam, 1),
    (Change::Fuse, 1),
];

pub const JOINING: &Taste = &[
    (Change::Cut, 14),
    (Change::Chord, 2),
    (Change::Spur, 1),
    (Change::Brush, 1),
    (Change::Island, 1),
];

pub const SEAMS: &Taste = &[
    (Change::Cut, 2),
    (Change::Chord, 1),
    (Change::Spur, 3),
    (Change::Island, 3),
    (Change::Seam, 4),
    (Change::Fuse, 3),
];

pub fn grow(sketch: &mut Sketch, steps: usize, taste: &Taste, rng: &mut Rng) {
    for _ in 0..steps {
        let half = rng.below(sketch.next.len());
        change(sketch, rng.weighted(taste), half, rng);
    }
}

/// Makes a change at a half. A ring has no corners to begin an edge at.
fn change(sketch: &mut Sketch, change: Change, half: usize, rng: &mut Rng) {
    let open = !sketch.pairs[half / 2].ring;
    match change {
        Change::Cut => cut_edge(sketch, half / 2),
        Change::Island => some_island(sketch, half, rng),
        Change::Fuse => fuse(sketch, sketch.face[half], sketch.face[half ^ 1]),
        Change::Chord if open => {
            let to = *rng.pick(&sketch.cycle(half));
            let new = chord(sketch, half, to, rng.chance(90));
            sketch.pairs[new / 2].merge = rng.chance(70);
        }
        Change::Spur if open => {
            spur(sketch, half);
        }
        Change::Star if open => star(sketch, half, rng),
        Change::Brush if open => brush(sketch, half, rng),
        Change::Seam if open => seam(sketch, half, rng),
        _ => {}
    }
}

fn some_island(sketch: &mut Sketch, half: usize, rng: &mut Rng) {
    let first_new = sketch.pairs.len();
    let sides = rng.range(1, 3);
    island(sketch, sketch.face[half], sides, rng.chance(50));
    let merge = rng.chance(40);
    for pair in &mut sketch.pairs[first_new..] {
        pair.merge = merge;
    }
}

/// Ties two loops of one face together, or an edge to itself.
fn seam(sketch: &mut Sketch, half: usize, rng: &mut Rng) {
    let face = sketch.face[half];
    let others: Vec<usize> = (0..sketch.next.len())
        .filter(|&h| sketch.face[h] == face && !sketch.pairs[h / 2].ring)
        .collect();
    let to = *rng.pick(&others);
    chord(sketch, half, to, false);
}

/// Turns faces over and edges round at random; the uses stay as drawn.
pub fn vary(sketch: &mut Sketch, rng: &mut Rng) {
    let reversed = *rng.pick(&[0, 0, 30, 50, 100]);
    for face in &mut sketch.faces {
        face.own = u32::from(rng.chance(reversed));
        face.selected = u32::from(rng.chance(reversed));
    }
    for pair in &mut sketch.pairs {
        pair.turned = rng.chance(50);
    }
}
