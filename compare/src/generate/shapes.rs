//! Closed surfaces to begin with.

use super::rng::Rng;
use super::sketch::Sketch;
use std::collections::BTreeMap;

/// Two faces round a polygon.
pub fn polygon(sides: usize) -> Sketch {
    let mut sketch = Sketch::default();
    let (front, back) = (sketch.add_face(), sketch.add_face());
    for _ in 0..sides {
        sketch.add_pair(front, back);
    }
    for i in 0..sides {
        sketch.next[2 * i] = 2 * ((i + 1) % sides);
        sketch.next[2 * i + 1] = 2 * ((i + sides - 1) % sides) + 1;
    }
    sketch
}

/// A ring between two faces.
pub fn ring() -> Sketch {
    let mut sketch = polygon(1);
    sketch.pairs[0].ring = true;
    sketch
}

/// Faces given by the corners round them; each side lies beside one other.
pub fn polyhedron(faces: &[Vec<usize>]) -> Sketch {
    let mut sketch = Sketch::default();
    let mut half_of: BTreeMap<(usize, usize), usize> = BTreeMap::new();
    for corners in faces {
        let face = sketch.add_face();
        let sides: Vec<usize> = (0..corners.len())
            .map(|i| {
                let (a, b) = (corners[i], corners[(i + 1) % corners.len()]);
                match half_of.get(&(b, a)) {
                    Some(other) => other ^ 1,
                    None => sketch.add_pair(face, face),
                }
            })
            .collect();
        for (i, &half) in sides.iter().enumerate() {
            sketch.face[half] = face;
            sketch.next[half] = sides[(i + 1) % sides.len()];
            let (a, b) = (corners[i], corners[(i + 1) % corners.len()]);
            half_of.insert((a, b), half);
        }
    }
    sketch
}

pub fn prism(sides: usize) -> Sketch {
    let mut faces: Vec<Vec<usize>> = Vec::new();
    faces.push((0..sides).rev().collect());
    faces.push((sides..2 * sides).collect());
    for i in 0..sides {
        let j = (i + 1) % sides;
        faces.push(vec![i, j, sides + j, sides + i]);
    }
    polyhedron(&faces)
}

pub fn pyramid(sides: usize) -> Sketch {
    let mut faces: Vec<Vec<usize>> = vec![(0..sides).rev().collect()];
    faces.extend((0..sides).map(|i| vec![i, (i + 1) % sides, sides]));
    polyhedron(&faces)
}

/// A torus of squares; `per_face` of them in a row make one face. The rows are
/// set off against each other like bricks, so that corners keep three edges.
pub fn torus(across: usize, up: usize, per_face: usize) -> Sketch {
    let mut sketch = Sketch::default();
    let squares = across * up;
    for _ in 0..squares.div_ceil(per_face) {
        sketch.add_face();
    }
    for _ in 0..2 * squares {
        sketch.add_pair(0, 0);
    }
    let at = |i: usize, j: usize| (i % across) + across * (j % up);
    let level = |i: usize, j: usize| 2 * at(i, j);
    let upright = |i: usize, j: usize| 2 * (squares + at(i, j));
    for j in 0..up {
        for i in 0..across {
            let sides = [
                level(i, j),
                upright(i + 1, j),
                level(i, j + 1) + 1,
                upright(i, j) + 1,
            ];
            for k in 0..4 {
                sketch.next[sides[k]] = sides[(k + 1) % 4];
                sketch.face[sides[k]] = at(i + j, j) / per_face;
            }
        }
    }
    sketch
}

/// Halves led to each other at random; loops shared out among faces.
pub fn random_map(pairs: usize, most_faces: usize, rng: &mut Rng) -> Sketch {
    let mut sketch = Sketch::default();
    for _ in 0..most_faces {
        sketch.add_face();
    }
    for _ in 0..pairs {
        sketch.add_pair(0, 0);
    }
    sketch.next = rng.order(2 * pairs);
    for (i, start) in sketch.loop_starts().into_iter().enumerate() {
        let face = match i < most_faces {
            true => i,
            false => rng.below(most_faces),
        };
        for half in sketch.cycle(start) {
            sketch.face[half] = face;
        }
    }
    // Faces that got no loop would be shells of their own.
    if rng.chance(80) {
        drop_bare_faces(&mut sketch);
    }
    sketch
}

fn drop_bare_faces(sketch: &mut Sketch) {
    let used = 1 + sketch.face.iter().max().copied().unwrap_or(0);
    sketch.faces.truncate(used);
}

/// A small closed surface.
pub fn small(rng: &mut Rng) -> Sketch {
    match rng.below(8) {
        0 => ring(),
        1 => polygon(rng.range(1, 5)),
        2 => prism(rng.range(3, 5)),
        3 => pyramid(rng.range(3, 5)),
        4 => torus(rng.range(1, 3), rng.range(1, 3), rng.range(1, 2)),
        5 => polyhedron(&[vec![0, 1, 2], vec![0, 3, 1], vec![1, 3, 2], vec![2, 3, 0]]),
        _ => {
            let faces = rng.range(1, 4);
            random_map(rng.range(1, 6), faces, rng)
        }
    }
}
