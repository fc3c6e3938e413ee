//! A closed surface drawn by halves of edges, before it becomes a job. Halves
//! 2p and 2p + 1 are the two sides of pair p; each leads to its next half.

use super::rng::Rng;
use super::sources::give_sources;
use super::split::split_vertices;
use crate::records::Record;
use std::collections::BTreeMap;

#[derive(Clone, Default)]
pub struct Sketch {
    pub next: Vec<usize>,
    /// Face of each half.
    pub face: Vec<usize>,
    pub pairs: Vec<Pair>,
    pub faces: Vec<SketchFace>,
    /// Halves that are made to start at one vertex.
    pub contacts: Vec<(usize, usize)>,
    /// Halves that start at different vertices on one point.
    pub touches: Vec<(usize, usize)>,
    /// Points of vertices that no edge uses; equal labels are one point.
    pub spots: Vec<usize>,
    /// Of a hundred ends of edges and vertex loops, how many have a vertex record of their own.
    pub split: usize,
    pub proven: bool,
}

#[derive(Clone)]
pub struct Pair {
    pub ring: bool,
    /// Pairs cut from one edge have one chain.
    pub chain: usize,
    /// The faces beside it are meant to merge.
    pub merge: bool,
    /// Pairs with one label are one edge of the job.
    pub edge: usize,
    /// The second half runs along the edge instead of the first.
    pub turned: bool,
}

#[derive(Clone, Default)]
pub struct SketchFace {
    pub own: u32,
    pub selected: u32,
    /// Its loops run the wrong way round.
    pub flipped: bool,
    /// How often it is written.
    pub copies: usize,
    /// Vertex loops: numbers among `spots`, or halves starting at the vertex.
    pub vertex_loops: Vec<Spot>,
}

#[derive(Clone, Copy)]
pub enum Spot {
    Own(usize),
    Start(usize),
}

impl Sketch {
    pub fn add_face(&mut self) -> usize {
        self.faces.push(SketchFace {
            copies: 1,
            ..SketchFace::default()
        });
        self.faces.len() - 1
    }

    /// Adds a pair and gives its first half; both halves lead to themselves.
    pub fn add_pair(&mut self, face: usize, other: usize) -> usize {
        let (pair, half) = (self.pairs.len(), self.next.len());
        self.next.extend([half, half + 1]);
        self.face.extend([face, other]);
        self.pairs.push(Pair {
            ring: false,
            chain: pair,
            merge: false,
            edge: pair,
            turned: false,
        });
        half
    }

    pub fn previous(&self, half: usize) -> usize {
        let found = self.next.iter().position(|&n| n == half);
        found.expect("halves form cycles")
    }

    /// The halves of a loop, from a half on.
    pub fn cycle(&self, half: usize) -> Vec<usize> {
        let mut cycle = vec![half];
        let mut at = self.next[half];
        while at != half {
            cycle.push(at);
            at = self.next[at];
        }
        cycle
    }

    /// One half of each loop, ascending.
    pub fn loop_starts(&self) -> Vec<usize> {
        let mut seen = vec![false; self.next.len()];
        let mut starts = Vec::new();
        for half in 0..self.next.len() {
            if !seen[half] {
                starts.push(half);
                for h in self.cycle(half) {
                    seen[h] = true;
                }
            }
        }
        starts
    }

    /// Adds another sketch beside this one.
    pub fn append(&mut self, other: &Sketch) {
        let (halves, faces) = (self.next.len(), self.faces.len());
        let (pairs, spots) = (self.pairs.len(), self.spots.len());
        self.next.extend(other.next.iter().map(|n| n + halves));
        self.face.extend(other.face.iter().map(|f| f + faces));
        for pair in &other.pairs {
            self.pairs.push(Pair {
                chain: pair.chain + pairs,
                edge: pair.edge + pairs,
                ..pair.clone()
            });
        }
        for face in &other.faces {
            let mut face = face.clone();
            for spot in &mut face.vertex_loops {
                *spot = match *spot {
                    Spot::Own(i) => Spot::Own(i + spots),
                    Spot::Start(h) => Spot::Start(h + halves),
                };
            }
            self.faces.push(face);
        }
        let shift = |list: &[(usize, usize)]| -> Vec<(usize, usize)> {
            list.iter().map(|(a, b)| (a + halves, b + halves)).collect()
        };
        self.contacts.extend(shift(&other.contacts));
        self.touches.extend(shift(&other.touches));
        self.spots
            .extend(other.spots.iter().map(|s| s + 1_000 + spots));
    }

    /// The half of a pair that runs along its edge.
    pub fn along(&self, pair: usize) -> usize {
        2 * pair + usize::from(self.pairs[pair].turned)
    }
}

/// The records of a sketch, and what its uses are.
pub struct Written {
    pub records: Vec<Record>,
    /// Half of each use.
    pub half: Vec<usize>,
    /// Stored sense of each selected face.
    pub senses: Vec<u32>,
    /// Selected face of each use.
    pub face_of_use: Vec<usize>,
}

/// Writes a sketch with all numbers shuffled.
pub fn write(sketch: &Sketch, rng: &mut Rng) -> Written {
    let numbers = Numbers {
        vertices: Vertices::of(sketch, rng),
        edges: number_edges(sketch, rng),
    };
    let mut written = Written {
        records: vec![(1, vec![u32::from(sketch.proven)])],
        half: Vec::new(),
        senses: Vec::new(),
        face_of_use: Vec::new(),
    };
    let points = numbers.vertices.points.iter();
    written
        .records
        .extend(points.map(|&point| (2, vec![point])));
    write_edges(sketch, &numbers, &mut written, rng);
    let starts = sketch.loop_starts();
    for face in rng.order(sketch.faces.len()) {
        for _ in 0..sketch.faces[face].copies {
            write_face(sketch, face, &starts, &numbers, &mut written, rng);
        }
    }
    if sketch.split > 0 {
        split_vertices(&mut written.records, sketch.split, &mut rng.aside());
    }
    give_sources(&mut written.records, &mut rng.apart(11));
    written
}

struct Numbers {
    vertices: Vertices,
    /// Edge of each pair.
    edges: Vec<u32>,
}

/// Distinct numbers for points, curves or surfaces: small, or any at all.
pub fn names(count: usize, rng: &mut Rng) -> Vec<u32> {
    let mut names: Vec<u32> = match rng.below(4) {
        0 => (0..count)
            .map(|i| rng.field().wrapping_mul(1_024) + i as u32)
            .collect(),
        1 => (0..count).map(|i| u32::MAX - i as u32).collect(),
        _ => (0..count as u32).collect(),
    };
    names.sort_unstable();
    names.dedup();
    if names.len() < count {
        names = (0..count as u32).collect();
    }
    rng.shuffle(&mut names);
    names
}

/// Vertices of the halves' starts and of the spots.
struct Vertices {
    /// Point of each vertex, by its number.
    points: Vec<u32>,
    of_start: Vec<Option<u32>>,
    of_spot: Vec<u32>,
}

impl Vertices {
    fn of(sketch: &Sketch, rng: &mut Rng) -> Self {
        let halves = sketch.next.len();
        let starts = start_classes(sketch);
        let corners: Vec<usize> = (0..halves)
            .filter(|&h| starts[h] == h && !sketch.pairs[h / 2].ring)
            .collect();
        let count = corners.len() + sketch.spots.len();
        let numbers: Vec<u32> = rng.order(count).into_iter().map(|n| n as u32).collect();
        let points = point_names(sketch, &starts, &corners, rng);
        let mut by_number = vec![0; count];
        for (point, &number) in points.into_iter().zip(&numbers) {
            by_number[number as usize] = point;
        }
        let of_class: BTreeMap<usize, u32> = corners
            .iter()
            .copied()
            .zip(numbers.iter().copied())
            .collect();
        Self {
            points: by_number,
            of_start: starts
                .iter()
                .map(|class| of_class.get(class).copied())
                .collect(),
            of_spot: numbers[corners.len()..].to_vec(),
        }
    }
}

/// Points of the corners and then of the spots; touching corners and spots of
/// one label have one point.
fn point_names(sketch: &Sketch, starts: &[usize], corners: &[usize], rng: &mut Rng) -> Vec<u32> {
    let mut classes = starts.to_vec();
    for &(a, b) in &sketch.touches {
        let (kept, renamed) = (classes[a], classes[b]);
        for class in &mut classes {
            if *class == renamed {
                *class = kept;
            }
        }
    }
    let mut labels: Vec<usize> = corners.iter().map(|&h| classes[h]).collect();
    labels.extend(sketch.spots.iter().map(|label| starts.len() + label));
    let mut distinct = labels.clone();
    distinct.sort_unstable();
    distinct.dedup();
    let names = names(distinct.len(), rng);
    let name = |label: usize| names[distinct.partition_point(|&other| other < label)];
    labels.into_iter().map(name).collect()
}

/// A name for the vertex where each half starts, its lowest half there.
fn start_classes(sketch: &Sketch) -> Vec<usize> {
    let halves = sketch.next.len();
    let mut parent: Vec<usize> = (0..halves).collect();
    fn root(parent: &mut [usize], mut h: usize) -> usize {
        while parent[h] != h {
            parent[h] = parent[parent[h]];
            h = parent[h];
        }
        h
    }
    let mut join = |a: usize, b: usize| {
        let (a, b) = (root(&mut parent, a), root(&mut parent, b));
        parent[a.max(b)] = a.min(b);
    };
    for half in 0..halves {
        if !sketch.pairs[half / 2].ring {
            join(sketch.next[half], half ^ 1);
        }
    }
    let mut first_of_edge: BTreeMap<usize, usize> = BTreeMap::new();
    for pair in (0..sketch.pairs.len()).filter(|&p| !sketch.pairs[p].ring) {
        let along = sketch.along(pair);
        let first = *first_of_edge
            .entry(sketch.pairs[pair].edge)
            .or_insert(along);
        join(first, along);
        join(first ^ 1, along ^ 1);
    }
    for &(a, b) in &sketch.contacts {
        if !sketch.pairs[a / 2].ring && !sketch.pairs[b / 2].ring {
            join(a, b);
        }
    }
    (0..halves).map(|h| root(&mut parent, h)).collect()
}

/// Number of the edge of each pair.
fn number_edges(sketch: &Sketch, rng: &mut Rng) -> Vec<u32> {
    let mut labels: Vec<usize> = sketch.pairs.iter().map(|pair| pair.edge).collect();
    labels.sort_unstable();
    labels.dedup();
    let numbers = rng.order(labels.len());
    let number = |pair: &Pair| {
        let position = labels.binary_search(&pair.edge).expect("a label");
        numbers[position] as u32
    };
    sketch.pairs.iter().map(number).collect()
}

/// Pieces of a chain lie on one curve, or on curves that only answers equate.
fn write_edges(sketch: &Sketch, numbers: &Numbers, written: &mut Written, rng: &mut Rng) {
    let names = names(2 * sketch.pairs.len(), rng);
    let own_curves = rng.below(100);
    let mut records: BTreeMap<u32, Vec<u32>> = BTreeMap::new();
    for (p, pair) in sketch.pairs.iter().enumerate() {
        let along = sketch.along(p);
        // A ring has no vertices.
        let end = |half: usize| numbers.vertices.of_start[half].unwrap_or(u32::MAX);
        let curve = match rng.chance(own_curves) {
            true => names[sketch.pairs.len() + p],
            false => names[pair.chain],
        };
        let fields = vec![curve, rng.below(2) as u32, end(along), end(along ^ 1)];
        records.entry(numbers.edges[p]).or_insert(fields);
    }
    let records = records.into_values().map(|fields| (3, fields));
    written.records.extend(records);
}

fn write_face(
    sketch: &Sketch,
    face: usize,
    starts: &[usize],
    numbers: &Numbers,
    written: &mut Written,
    rng: &mut Rng,
) {
    let data = &sketch.faces[face];
    let surface = match rng.chance(90) {
        true => rng.below(8) as u32,
        false => u32::MAX - rng.below(2) as u32,
    };
    written.senses.push(data.own ^ data.selected);
    // Body and source are drawn when all faces stand.
    let fields = vec![surface, data.own, data.selected, 0, 0];
    written.records.push((4, fields));
    let own = starts.iter().filter(|&&h| sketch.face[h] == face);
    let mut loops: Vec<Result<usize, Spot>> = own.copied().map(Ok).collect();
    loops.extend(data.vertex_loops.iter().copied().map(Err));
    rng.shuffle(&mut loops);
    for l in loops {
        let vertex = match l {
            Ok(start) => {
                let mut cycle = sketch.cycle(start);
                let turn = rng.below(cycle.len());
                cycle.rotate_left(turn);
                write_loop(sketch, data, cycle, numbers, written);
                continue;
            }
            Err(Spot::Own(i)) => Some(numbers.vertices.of_spot[i]),
            Err(Spot::Start(h)) => numbers.vertices.of_start[h],
        };
        written.records.extend(vertex.map(|v| (6, vec![v])));
    }
}

/// Writes a loop so that it reads as drawn, after reversal by the selected
/// sense; a flipped face reads the other way round.
fn write_loop(
    sketch: &Sketch,
    data: &SketchFace,
    mut cycle: Vec<usize>,
    numbers: &Numbers,
    written: &mut Written,
) {
    if data.flipped {
        cycle.reverse();
    }
    let face = written.senses.len() - 1;
    written.face_of_use.extend(cycle.iter().map(|_| face));
    written.half.extend(&cycle);
    let mut turn = u32::from(data.flipped);
    if data.selected == 1 {
        cycle.reverse();
        turn ^= 1;
    }
    let mut fields = Vec::new();
    for half in cycle {
        let sense = u32::from(half != sketch.along(half / 2)) ^ turn;
        fields.extend([numbers.edges[half / 2], sense]);
    }
    written.records.push((5, fields));
}
