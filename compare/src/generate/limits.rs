//! Jobs that reach a limit, and jobs that pass it by one.

use super::Expected;
use super::draft::Draft;
use super::grow;
use super::oracle::Style;
use super::rng::Rng;
use super::{shapes, sketch::Sketch};
use crate::records::{self, Record};
use crate::second::load::{
    MAX_ANSWERS, MAX_BYTES, MAX_EDGES, MAX_FACES, MAX_LOOPS, MAX_USES, MAX_VERTICES,
};
use crate::second::{NONE, Refusal};

type Limited = (Vec<u8>, Expected);

/// The sorts of jobs at a limit.
pub const SORTS: usize = 13;

pub fn some(rng: &mut Rng) -> Limited {
    let (sort, past) = (rng.below(SORTS), rng.chance(50));
    limited(sort, past, rng)
}

/// A job of a sort, at its limit or one past it.
pub fn limited(sort: usize, past: bool, rng: &mut Rng) -> Limited {
    let (mut list, one_more) = match sort {
        0 => bare_faces(rng),
        1 => ring_faces(rng),
        2 => vertices(rng),
        3 => unused_edges(rng),
        4 => used_edges(rng),
        5 => vertex_loops(rng),
        6 => both_loops(rng),
        7 => answers(rng),
        8 => asked_answers(rng),
        9 => return bytes(past, rng),
        10 => uses(rng),
        11 => full_torus(rng),
        _ => return big_body(past, rng),
    };
    if !past {
        return (records::to_bytes(&list), Expected::Loads);
    }
    let (at, record) = one_more;
    let place = records::to_bytes(&list[..at]).len() as u32;
    list.insert(at, record);
    let refusal = Refusal { number: 5, place };
    (records::to_bytes(&list), Expected::Refused(refusal))
}

/// A list of records, and the record that passes its limit with its index.
type AtLimit = (Vec<Record>, (usize, Record));

fn head() -> Record {
    (1, vec![1])
}

/// Puts the record too many behind all others.
fn at_end(list: Vec<Record>, record: Record) -> AtLimit {
    let end = list.len();
    (list, (end, record))
}

/// Senses that need not be permitted: 5 comes before 4.
fn any_sense(rng: &mut Rng) -> u32 {
    rng.below(3) as u32
}

fn bare_faces(rng: &mut Rng) -> AtLimit {
    let mut list = vec![head()];
    list.extend((0..MAX_FACES as u32).map(|i| (4, vec![i, i % 2, 0, i % 2, i])));
    at_end(list, (4, vec![0, any_sense(rng), 0, any_sense(rng), 0]))
}

fn ring_faces(rng: &mut Rng) -> AtLimit {
    let mut list = vec![head()];
    let rings = MAX_FACES as u32 / 2;
    list.extend((0..rings).map(|i| (3, vec![i, 0, NONE, NONE])));
    for i in 0..rings {
        list.extend([(4, vec![i, 0, 0, 0, i]), (5, vec![i, 0])]);
        list.extend([(4, vec![i, 0, 1, 1, i]), (5, vec![i, 0])]);
    }
    let end = list.len();
    list.extend((0..rings).map(|i| (8, vec![2 * i, rng.below(3) as u32])));
    (list, (end, (4, vec![0, 0, any_sense(rng), 2, 0])))
}

/// Two faces round a ring, number 0.
fn ring_between() -> [Record; 4] {
    [
        (4, vec![7, 0, 0, 0, 0]),
        (5, vec![0, 0]),
        (4, vec![8, 0, 0, 0, 1]),
        (5, vec![0, 1]),
    ]
}

fn vertices(rng: &mut Rng) -> AtLimit {
    let mut list = vec![head()];
    list.extend((0..MAX_VERTICES).map(|i| (2, vec![i as u32])));
    let end = list.len();
    list.push((3, vec![5, 0, NONE, NONE]));
    list.extend(ring_between());
    list.push((6, vec![MAX_VERTICES as u32 - 1]));
    list.push((8, vec![0, 0]));
    (list, (end, (2, vec![rng.field()])))
}

fn unused_edges(rng: &mut Rng) -> AtLimit {
    let mut list = vec![head()];
    list.extend((0..MAX_EDGES).map(|i| (3, vec![i as u32, 0, NONE, NONE])));
    let end = list.len();
    list.extend(ring_between());
    list.push((8, vec![0, 0]));
    (list, (end, (3, vec![0, any_sense(rng), NONE, 5])))
}

/// Rings between two faces, as many as loops allow.
fn used_edges(rng: &mut Rng) -> AtLimit {
    let rings = MAX_LOOPS as u32 / 2;
    let mut list = vec![head()];
    list.extend((0..rings).map(|i| (3, vec![i, 0, NONE, NONE])));
    list.push((4, vec![1, 0, 0, 0, 0]));
    list.extend((0..rings).map(|i| (5, vec![i, 0])));
    list.push((4, vec![2, 0, 1, 0, 1]));
    list.extend((0..rings).map(|i| (5, vec![i, 0])));
    let end = list.len();
    list.extend((0..rings).map(|i| (8, vec![i, 0])));
    (list, (end, (5, vec![0, any_sense(rng)])))
}

fn vertex_loops(rng: &mut Rng) -> AtLimit {
    let mut list = vec![head(), (2, vec![3]), (2, vec![3]), (2, vec![4])];
    for i in 0..4 {
        list.push((4, vec![0, 0, 0, 0, i]));
        list.extend((0..MAX_LOOPS / 4).map(|_| (6, vec![rng.below(3) as u32])));
    }
    let end = list.len();
    list.push((9, vec![4, 3, 0]));
    (list, (end, (6, vec![0])))
}

/// Loops of both sorts, the last one of uses.
fn both_loops(rng: &mut Rng) -> AtLimit {
    let mut list = vec![head(), (2, vec![3]), (3, vec![5, 0, NONE, NONE])];
    list.extend(ring_between());
    list.extend((0..MAX_LOOPS - 2).map(|_| (6, vec![0])));
    let end = list.len();
    list.push((8, vec![0, rng.below(3) as u32]));
    (list, (end, (5, vec![0, 0])))
}

/// Answers that nobody asks. The one too many is of any kind, with things that
/// do not exist or a question answered before: 5 comes first.
fn answers(rng: &mut Rng) -> AtLimit {
    let mut list = vec![head()];
    for i in 0..MAX_ANSWERS as u32 {
        let kind = 9 + (i % 2) as u16;
        list.push((kind, vec![i, i + 1 + rng.below(5) as u32, i % 3]));
    }
    let kind = rng.range(7, 13) as u16;
    let fields = match kind {
        7 => rng.range(1, 3),
        8 | 12 => 2,
        11 => 5,
        _ => 3,
    };
    at_end(list, (kind, (0..fields as u32).collect()))
}

/// Answers about every pair, point and face of a job, filled up to the limit.
fn asked_answers(rng: &mut Rng) -> AtLimit {
    let mut sketch = shapes::prism(30);
    grow::vary(&mut sketch, rng);
    let draft = Draft::of_sketch(&sketch, Style::plain(), rng);
    let mut list = draft.records(rng);
    let more = MAX_ANSWERS - draft.answers.len();
    list.extend((0..more as u32).map(|i| (9, vec![1_000_000 + i, 2_000_000, 0])));
    at_end(list, (9, vec![5, 6, 0]))
}

/// A job of exactly as many bytes as may be, or one more.
fn bytes(past: bool, rng: &mut Rng) -> Limited {
    let sketch = shapes::prism(rng.range(3, 20));
    let draft = Draft::of_sketch(&sketch, Style::plain(), rng);
    let mut list = draft.records(rng);
    list.retain(|(kind, _)| *kind != 7);
    // Records of 6 bytes and whole fields: an even number of them fits.
    let last_edge = draft.counts.edges as u32 - 1;
    if list.len().is_multiple_of(2) {
        list.push((7, vec![last_edge]));
        list.push((7, vec![0]));
    } else {
        list.push((7, vec![last_edge]));
    }
    let left = (MAX_BYTES - records::to_bytes(&list).len()) / 4;
    let (_, fields) = list.last_mut().expect("it was just added");
    fields.extend((0..left).map(|_| rng.below(draft.counts.uses) as u32));
    let mut job = records::to_bytes(&list);
    assert_eq!(job.len(), MAX_BYTES);
    if !past {
        return (job, Expected::Loads);
    }
    job.push(0);
    let refusal = Refusal {
        number: 1,
        place: MAX_BYTES as u32,
    };
    (job, Expected::Refused(refusal))
}

/// As many uses as may be, led to each other at random.
fn uses(rng: &mut Rng) -> AtLimit {
    let faces = rng.range(1, 40);
    let mut sketch = shapes::random_map(MAX_USES / 2, faces, rng);
    sketch.proven = true;
    let merge = *rng.pick(&[0, 10]);
    for pair in &mut sketch.pairs {
        pair.merge = rng.chance(merge);
    }
    of_sketch(sketch, rng)
}

/// Faces, uses and edges all at their limits. Nothing merges: corners of two
/// ends would ask more questions than there is room for.
fn full_torus(rng: &mut Rng) -> AtLimit {
    let mut sketch = shapes::torus(32, 16, 2);
    sketch.proven = true;
    of_sketch(sketch, rng)
}

/// The record too many is a loop of one more use.
fn of_sketch(mut sketch: Sketch, rng: &mut Rng) -> AtLimit {
    grow::vary(&mut sketch, rng);
    let draft = Draft::of_sketch(&sketch, Style::plain(), rng);
    let end = draft.structure.len();
    (draft.records(rng), (end, (5, vec![0, any_sense(rng)])))
}

/// Polygons that share all their edges, each a boundary of its own.
const POLYGONS: usize = 8;
const SIDES: usize = 128;
/// Points of the vertex loops; each face has them at most once.
const SPOTS: usize = 4;
/// With so many vertex loops the body has 65,532 bytes; each adds ten.
const FITTING: usize = 867;

/// A body about as long as the output or longer, from a shorter job: fans are
/// split, edges shared by polygons come apart, and bare faces make lumps.
fn big_body(past: bool, rng: &mut Rng) -> Limited {
    let most = MAX_LOOPS - 2 * POLYGONS;
    let vertex_loops = match (past, rng.chance(50)) {
        (false, true) => FITTING,
        (false, false) => rng.range(0, FITTING),
        (true, true) => FITTING + 1,
        (true, false) => rng.range(FITTING + 1, most),
    };
    let mut list = vec![head()];
    list.extend((0..SIDES + SPOTS).map(|i| (2, vec![i as u32])));
    for i in 0..SIDES {
        let end = (i + 1) % SIDES;
        list.push((3, vec![i as u32 % 2, 0, i as u32, end as u32]));
    }
    list.extend(faces_of_polygons(vertex_loops));
    list.extend(answers_of_polygons(rng));
    (records::to_bytes(&list), Expected::Loads)
}

/// Two faces for each polygon, then bare ones; vertex loops as far as they go.
fn faces_of_polygons(vertex_loops: usize) -> Vec<Record> {
    let mut list = Vec::new();
    let mut left = vertex_loops;
    for face in 0..MAX_FACES {
        list.push((4, vec![7, 0, 0, 1, face as u32]));
        if face < 2 * POLYGONS {
            let sides = (0..SIDES as u32).flat_map(|i| match face % 2 {
                0 => [i, 0],
                _ => [SIDES as u32 - 1 - i, 1],
            });
            list.push((5, sides.collect()));
        }
        let here = left.min(SPOTS);
        list.extend((0..here).map(|spot| (6, vec![(SIDES + spot) as u32])));
        left -= here;
    }
    list
}

/// Nothing merges, nothing joins, and each polygon's uses are twins.
fn answers_of_polygons(rng: &mut Rng) -> Vec<Record> {
    let mut list = vec![(10, vec![0, 1, 0])];
    for i in 0..SIDES {
        let mut fields = vec![i as u32];
        for polygon in rng.order(POLYGONS) {
            let first = 2 * SIDES * polygon;
            fields.extend([first + 2 * SIDES - 1 - i, first + i].map(|h| h as u32));
            list.push((8, vec![(first + i) as u32, 0]));
        }
        list.push((7, fields));
    }
    for low in SIDES..SIDES + SPOTS {
        list.extend((low + 1..SIDES + SPOTS).map(|high| (9, vec![high as u32, low as u32, 0])));
    }
    list
}
