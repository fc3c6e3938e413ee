//! The classes of jobs and how often each is drawn.

use super::draft::Draft;
use super::grow::{self, JOINING, MERGING, SEAMS};
use super::oracle::{RadialStyle, Style};
use super::rng::Rng;
use super::shapes;
use super::sketch::Sketch;
use super::{Expected, Sample, damage, limits, must_load, repeats};
use crate::compare::ROOM;
use crate::records::{self, Record};
use crate::second::{self, Question, Refusal, Reply};

/// Name and weight of each class.
pub const CLASSES: [(&str, usize); 20] = [
    ("small", 100),
    ("merging", 130),
    ("joining", 110),
    ("maps", 70),
    ("seams", 40),
    ("radial", 80),
    ("shells", 70),
    ("vertex-loops", 50),
    ("large", 6),
    ("empty", 8),
    ("missing", 80),
    ("undecided", 70),
    ("vanishing", 14),
    ("contact", 100),
    ("pairing", 76),
    ("damage", 152),
    ("repeats", 50),
    ("bytes", 42),
    ("room", 30),
    ("limits", 8),
];

/// Job number `index` of a seed.
pub fn sample(seed: u64, index: u64) -> Sample {
    let mut rng = Rng::new(seed, index);
    let class = rng.weighted(&CLASSES);
    sample_of(class, &mut rng)
}

pub fn sample_of(class: &'static str, rng: &mut Rng) -> Sample {
    let mut room = ROOM;
    let (job, expected) = match class {
        "damage" => damage::one_record(&any_draft(rng), rng),
        "repeats" => repeats::some(&any_draft(rng), rng),
        "bytes" => {
            let sound = records::to_bytes(&any_draft(rng).records(rng));
            (damage::some_bytes(sound, rng), Expected::Unknown)
        }
        "limits" => limits::some(rng),
        "room" => {
            let (records, small) = small_room(rng);
            room = small;
            sound(records)
        }
        "empty" => sound(empty(rng)),
        "missing" => sound(missing(rng)),
        "undecided" => sound(undecided(rng)),
        "vanishing" => sound(vanishing(rng)),
        _ => sound(drawn(class, rng)),
    };
    Sample {
        class,
        job,
        room,
        expected,
    }
}

/// Undamaged records.
fn sound(records: Vec<Record>) -> (Vec<u8>, Expected) {
    (records::to_bytes(&records), must_load(&records))
}

/// The records of a draft, with answers that nobody asks and, rarely, without
/// some that are asked.
fn drawn(class: &str, rng: &mut Rng) -> Vec<Record> {
    let mut draft = draft_of(class, rng);
    if class != "large" {
        let unasked = rng.below(4);
        draft.add_unasked(unasked, rng);
    }
    if rng.chance(3) {
        drop_answers(&mut draft, rng);
    }
    draft.records(rng)
}

/// A draft of one of the classes that are drawn as sketches.
fn draft_of(class: &str, rng: &mut Rng) -> Draft {
    let mut style = Style::plain();
    let mut sketch = match class {
        "small" => small(rng),
        "merging" => merging(&mut style, rng),
        "joining" => joining(&mut style, rng),
        "maps" => maps(&mut style, rng),
        "seams" => seams(rng),
        "radial" => radial(&mut style, rng),
        "shells" => shells(&mut style, rng),
        "vertex-loops" => vertex_loops(&mut style, rng),
        "large" => large(&mut style, rng),
        "contact" => contact(&mut style, rng),
        "pairing" => pairing(&mut style, rng),
        _ => unreachable!("{class} is not drawn as a sketch"),
    };
    if rng.chance(10) {
        grow::vertex_loops(&mut sketch, 2, rng);
    }
    let mut aside = rng.aside();
    if aside.chance(35) {
        sketch.split = *aside.pick(&[10, 40, 100]);
    }
    Draft::of_sketch(&sketch, style, rng)
}

/// A draft with all its answers, of any class that is mostly accepted.
fn any_draft(rng: &mut Rng) -> Draft {
    let classes = [
        "small",
        "merging",
        "joining",
        "joining",
        "maps",
        "radial",
        "shells",
        "shells",
        "shells",
        "vertex-loops",
        "vertex-loops",
    ];
    let class: &str = classes[rng.below(classes.len())];
    let mut draft = draft_of(class, rng);
    let unasked = rng.below(8);
    draft.add_unasked(unasked, rng);
    draft
}

/// Head is drawn last: it decides whether orientation is asked.
fn finished(mut sketch: Sketch, proven: usize, rng: &mut Rng) -> Sketch {
    grow::vary(&mut sketch, rng);
    sketch.proven = rng.chance(proven);
    sketch
}

fn small(rng: &mut Rng) -> Sketch {
    let mut sketch = shapes::small(rng);
    for pair in &mut sketch.pairs {
        pair.merge = rng.chance(25);
    }
    if rng.chance(20) {
        grow::vertex_loops(&mut sketch, 2, rng);
    }
    finished(sketch, 50, rng)
}

/// Faces that merge round corners.
fn merging(style: &mut Style, rng: &mut Rng) -> Sketch {
    let mut sketch = shapes::small(rng);
    let base = *rng.pick(&[0, 0, 10, 30]);
    for pair in &mut sketch.pairs {
        pair.merge = rng.chance(base);
    }
    let steps = rng.range(1, 7);
    grow::grow(&mut sketch, steps, MERGING, rng);
    style.surface_slip = *rng.pick(&[0, 0, 5, 20]);
    finished(sketch, 50, rng)
}

/// Edges cut at corners of two ends: chains and rings.
fn joining(style: &mut Style, rng: &mut Rng) -> Sketch {
    let mut sketch = match rng.below(3) {
        0 => shapes::polygon(rng.range(1, 4)),
        _ => shapes::small(rng),
    };
    let steps = rng.range(1, 14);
    grow::grow(&mut sketch, steps, JOINING, rng);
    style.same_curve = *rng.pick(&[50, 90, 100]);
    style.singular = *rng.pick(&[0, 0, 10, 40]);
    finished(sketch, 60, rng)
}

/// Halves led to each other at random.
fn maps(style: &mut Style, rng: &mut Rng) -> Sketch {
    let (pairs, faces) = (rng.range(1, 24), rng.range(1, 6));
    let mut sketch = shapes::random_map(pairs, faces, rng);
    let merge = *rng.pick(&[0, 10, 30]);
    for pair in &mut sketch.pairs {
        pair.merge = rng.chance(merge);
        pair.ring = false;
    }
    style.singular = *rng.pick(&[0, 20]);
    finished(sketch, 50, rng)
}

/// Edges with both uses on one face, at loops and between loops.
fn seams(rng: &mut Rng) -> Sketch {
    let mut sketch = shapes::small(rng);
    let steps = rng.range(1, 7);
    grow::grow(&mut sketch, steps, SEAMS, rng);
    finished(sketch, 50, rng)
}

/// Several closed surfaces side by side.
fn several(count: usize, rng: &mut Rng) -> Sketch {
    let mut sketch = Sketch::default();
    for _ in 0..count {
        let mut part = shapes::small(rng);
        let steps = rng.below(3);
        grow::grow(&mut part, steps, MERGING, rng);
        sketch.append(&part);
    }
    sketch
}

/// Surface of each half, numbered by connection.
fn surfaces(sketch: &Sketch) -> Vec<usize> {
    let mut of_face: Vec<usize> = (0..sketch.faces.len()).collect();
    for pair in 0..sketch.pairs.len() {
        let a = of_face[sketch.face[2 * pair]];
        let b = of_face[sketch.face[2 * pair + 1]];
        for face in &mut of_face {
            if *face == b {
                *face = a;
            }
        }
    }
    sketch.face.iter().map(|&face| of_face[face]).collect()
}

/// Makes one edge of two pairs, on different surfaces if wanted.
fn share_edge(sketch: &mut Sketch, apart: bool, rng: &mut Rng) {
    let surface = surfaces(sketch);
    for _ in 0..20 {
        let (a, b) = (rng.below(sketch.pairs.len()), rng.below(sketch.pairs.len()));
        let same_sort = sketch.pairs[a].ring == sketch.pairs[b].ring;
        let on_one = surface[2 * a] == surface[2 * b];
        if a != b && same_sort && on_one != apart {
            let (label, old) = (sketch.pairs[a].edge, sketch.pairs[b].edge);
            for pair in &mut sketch.pairs {
                if pair.edge == old {
                    pair.edge = label;
                }
            }
            return;
        }
    }
}

/// Edges with four and six uses, and sometimes more.
fn radial(style: &mut Style, rng: &mut Rng) -> Sketch {
    let count = match rng.chance(90) {
        true => rng.range(2, 3),
        false => rng.range(4, 6),
    };
    let mut sketch = match rng.below(4) {
        // The same surface again, so that whole chains of edges are shared.
        0 => shared_copies(count, rng),
        _ => {
            let mut sketch = several(count, rng);
            for _ in 0..rng.range(1, 2) {
                share_edge(&mut sketch, true, rng);
            }
            sketch
        }
    };
    style.radial = match rng.below(20) {
        0 => RadialStyle::Any,
        1 => RadialStyle::Alternating,
        2 => RadialStyle::Broken,
        _ => RadialStyle::Drawn,
    };
    style.outer = 95;
    let turned: Vec<bool> = sketch.pairs.iter().map(|_| rng.chance(50)).collect();
    let proven = rng.chance(70);
    grow::vary(&mut sketch, rng);
    for (pair, turned) in sketch.pairs.iter_mut().zip(turned) {
        pair.turned = turned;
    }
    keep_directions(&mut sketch);
    sketch.proven = proven;
    sketch
}

/// Copies of one surface that share all edges.
fn shared_copies(count: usize, rng: &mut Rng) -> Sketch {
    let mut part = shapes::small(rng);
    for _ in 0..rng.below(3) {
        let pair = rng.below(part.pairs.len());
        grow::cut_edge(&mut part, pair);
    }
    let mut sketch = Sketch::default();
    for _ in 0..count {
        sketch.append(&part);
    }
    let pairs = part.pairs.len();
    for (p, pair) in sketch.pairs.iter_mut().enumerate() {
        pair.edge = p % pairs;
    }
    sketch
}

/// Copies of one surface run alike along the edges that they share.
fn keep_directions(sketch: &mut Sketch) {
    for p in 0..sketch.pairs.len() {
        let first = sketch
            .pairs
            .iter()
            .position(|q| q.edge == sketch.pairs[p].edge);
        let first = first.expect("the pair itself has the label");
        if sketch.pairs[p].chain != sketch.pairs[first].chain {
            sketch.pairs[p].turned = sketch.pairs[first].turned;
        }
    }
}

/// Several shells, voids and nesting.
fn shells(style: &mut Style, rng: &mut Rng) -> Sketch {
    let count = rng.range(1, 5);
    let mut sketch = several(count, rng);
    for _ in 0..rng.below(3) {
        // A face without loops is a shell of its own.
        sketch.add_face();
    }
    style.outer = *rng.pick(&[20, 50, 80]);
    style.inside = *rng.pick(&[30, 60, 90]);
    style.sound = rng.chance(90);
    finished(sketch, 10, rng)
}

fn vertex_loops(style: &mut Style, rng: &mut Rng) -> Sketch {
    let mut sketch = shapes::small(rng);
    for pair in &mut sketch.pairs {
        pair.merge = rng.chance(50);
    }
    let steps = rng.below(3);
    grow::grow(&mut sketch, steps, MERGING, rng);
    let count = rng.range(1, 8);
    grow::vertex_loops(&mut sketch, count, rng);
    style.same_point = *rng.pick(&[0, 30, 70]);
    finished(sketch, 50, rng)
}

fn large(style: &mut Style, rng: &mut Rng) -> Sketch {
    let mut sketch = match rng.below(3) {
        0 => {
            let (across, up) = (rng.range(4, 12), rng.range(4, 12));
            shapes::torus(across, up, rng.range(1, 4))
        }
        1 => shapes::prism(rng.range(20, 80)),
        _ => {
            let (pairs, faces) = (rng.range(100, 400), rng.range(2, 60));
            shapes::random_map(pairs, faces, rng)
        }
    };
    let merge = *rng.pick(&[0, 30, 60]);
    for pair in &mut sketch.pairs {
        pair.merge = rng.chance(merge);
    }
    let steps = rng.range(1, 60);
    grow::grow(&mut sketch, steps, JOINING, rng);
    style.singular = *rng.pick(&[0, 30]);
    finished(sketch, 70, rng)
}

/// Boundaries and lumps that touch themselves.
fn contact(style: &mut Style, rng: &mut Rng) -> Sketch {
    match rng.below(6) {
        0 => touching_edge(rng),
        1 => touching_corner(rng),
        2 | 3 => touching_lump(style, rng),
        4 => touching_rings(style, rng),
        _ => {
            style.sound = false;
            style.outer = 30;
            style.inside = 20;
            let count = rng.range(1, 3);
            let sketch = several(count, rng);
            finished(sketch, 0, rng)
        }
    }
}

/// Two pairs of one surface on one edge.
fn touching_edge(rng: &mut Rng) -> Sketch {
    let mut sketch = shapes::small(rng);
    grow::grow(&mut sketch, 3, MERGING, rng);
    let sketch_pairs = sketch.pairs.len();
    if sketch_pairs > 1 {
        share_edge(&mut sketch, false, rng);
    }
    finished(sketch, 50, rng)
}

/// Corners of one surface on one vertex or on one point.
fn touching_corner(rng: &mut Rng) -> Sketch {
    let mut sketch = shapes::small(rng);
    grow::grow(&mut sketch, 2, MERGING, rng);
    let halves = sketch.next.len();
    let two = (rng.below(halves), rng.below(halves));
    match rng.chance(50) {
        true => sketch.contacts.push(two),
        false => sketch.touches.push(two),
    }
    finished(sketch, 50, rng)
}

/// An outer shell and a void that share a corner or an edge.
fn touching_lump(style: &mut Style, rng: &mut Rng) -> Sketch {
    let mut sketch = several(2, rng);
    let surface = surfaces(&sketch);
    for _ in 0..20 {
        let (a, b) = (rng.below(surface.len()), rng.below(surface.len()));
        if surface[a] != surface[b] {
            match rng.below(3) {
                0 => share_edge(&mut sketch, true, rng),
                1 => sketch.contacts.push((a, b)),
                _ => sketch.touches.push((a, b)),
            }
            break;
        }
    }
    style.outer = 50;
    style.inside = 90;
    finished(sketch, 10, rng)
}

/// An outer shell and a void that share a ring, or edges that are removed.
fn touching_rings(style: &mut Style, rng: &mut Rng) -> Sketch {
    let mut sketch = Sketch::default();
    let ring = rng.chance(70);
    let merge = !ring || rng.chance(40);
    let mut shared = Vec::new();
    for _ in 0..rng.range(2, 3) {
        let mut part = shapes::small(rng);
        let face = rng.below(part.faces.len());
        grow::island(&mut part, face, 1, ring);
        let last = part.pairs.len() - 1;
        part.pairs[last].merge = merge;
        sketch.append(&part);
        shared.push(sketch.pairs.len() - 1);
    }
    for &pair in &shared {
        sketch.pairs[pair].edge = sketch.pairs[shared[0]].edge;
    }
    style.outer = 40;
    style.inside = 80;
    finished(sketch, 10, rng)
}

/// Uses that do not pair.
fn pairing(style: &mut Style, rng: &mut Rng) -> Sketch {
    let mut sketch = match rng.below(3) {
        0 => {
            let mut sketch = shapes::small(rng);
            grow::grow(&mut sketch, 2, MERGING, rng);
            sketch
        }
        1 => shared_copies(2, rng),
        _ => {
            let mut sketch = several(2, rng);
            share_edge(&mut sketch, true, rng);
            sketch
        }
    };
    style.radial = *rng.pick(&[
        RadialStyle::Drawn,
        RadialStyle::Alternating,
        RadialStyle::Alternating,
        RadialStyle::Any,
        RadialStyle::Broken,
    ]);
    grow::vary(&mut sketch, rng);
    if rng.chance(50) {
        keep_directions(&mut sketch);
    }
    let face = rng.below(sketch.faces.len());
    match rng.below(5) {
        0 => sketch.faces[face].copies = 0,
        1 => sketch.faces[face].copies = 2,
        2 => {}
        _ => {
            sketch.faces[face].flipped = true;
            if rng.chance(60) {
                run_along(&mut sketch, face);
            }
        }
    }
    sketch.proven = rng.chance(50);
    sketch
}

/// Turns edges so that the loops of a face run along them: flipped, they all
/// run against them, and an edge of four uses has one Same use only.
fn run_along(sketch: &mut Sketch, face: usize) {
    for half in 0..sketch.next.len() {
        if sketch.face[half] == face {
            let label = sketch.pairs[half / 2].edge;
            let turned = half % 2 == 1;
            for pair in &mut sketch.pairs {
                if pair.edge == label {
                    pair.turned = turned;
                }
            }
        }
    }
}

/// Jobs without faces.
fn empty(rng: &mut Rng) -> Vec<Record> {
    let draft = draft_of("small", rng);
    let longest = rng.range(1, 4) as u16;
    let mut records = draft.structure;
    records.retain(|(kind, _)| *kind < longest);
    if rng.chance(50) {
        records.push((9, vec![1, 2, rng.below(3) as u32]));
    }
    records
}

/// A job that lacks an answer, and perhaps more of them.
fn missing(rng: &mut Rng) -> Vec<Record> {
    let mut draft = any_draft(rng);
    if let Some(question) = draft.asked_of_some_kind(rng) {
        draft.answers.remove(&question);
    }
    if rng.chance(20) {
        drop_answers(&mut draft, rng);
    }
    draft.records(rng)
}

fn drop_answers(draft: &mut Draft, rng: &mut Rng) {
    let percent = rng.below(60);
    draft.answers.retain(|_, _| !rng.chance(percent));
}

/// What a question's record says if it is undecided.
fn undecided_reply(question: &Question) -> Reply {
    match question {
        Question::Radial { .. } => Reply::Order(Vec::new()),
        Question::Surface { .. } => Reply::Value(4),
        _ => Reply::Value(2),
    }
}

fn undecided(rng: &mut Rng) -> Vec<Record> {
    let mut draft = any_draft(rng);
    let more = rng.below(2);
    for _ in 0..1 + more {
        if let Some(question) = draft.asked_of_some_kind(rng) {
            let reply = undecided_reply(&question);
            draft.answers.insert(question, reply);
        }
    }
    draft.records(rng)
}

/// Normals that vanish at one of the pairs asked.
fn vanishing(rng: &mut Rng) -> Vec<Record> {
    let mut draft = any_draft(rng);
    let surface = |q: &&Question| matches!(q, Question::Surface { .. });
    let asked: Vec<Question> = draft.asked.iter().filter(surface).cloned().collect();
    if !asked.is_empty() {
        let question = rng.pick(&asked).clone();
        draft.answers.insert(question, Reply::Value(3));
    }
    draft.records(rng)
}

/// A job with an output near the length of its body.
fn small_room(rng: &mut Rng) -> (Vec<Record>, usize) {
    let records = any_draft(rng).records(rng);
    let needed = body_length(&records::to_bytes(&records)).unwrap_or(100);
    let room = match rng.below(5) {
        0 => needed,
        1 => needed - 1,
        2 => 0,
        3 => needed + rng.below(5),
        _ => rng.below(needed),
    };
    (records, room)
}

fn body_length(job: &[u8]) -> Result<usize, Refusal> {
    let loaded = second::load(job)?;
    let trail = second::sew(&loaded, &mut &loaded.answers);
    Ok(second::sew_output(&trail, ROOM)?.len())
}
