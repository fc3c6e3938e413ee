//! Loading: each record is checked in the order 2, 3, 5, 4, 45, 6, 7.

use super::job::{Edge, Face, Job, Loop, NONE, Sense};
use super::questions::{Question, Reply};
use super::refusal::{Refusal, refusal};
use std::ops::Range;

pub const MAX_BYTES: usize = 65_536;
pub const MAX_FACES: usize = 256;
pub const MAX_USES: usize = 2_048;
pub const MAX_EDGES: usize = 1_024;
pub const MAX_VERTICES: usize = 1_024;
pub const MAX_LOOPS: usize = 1_024;
pub const MAX_ANSWERS: usize = 2_048;

const HEADER: usize = 6;

/// One record: its kind, where its payload stands, and the fields in it.
struct Record {
    kind: u16,
    payload: Range<usize>,
    fields: Vec<u32>,
}

pub fn load(bytes: &[u8]) -> Result<Job, Refusal> {
    if bytes.len() > MAX_BYTES {
        return Err(refusal(1, MAX_BYTES));
    }
    if bytes.is_empty() {
        return Err(refusal(3, 0));
    }
    let mut job = Job::default();
    let mut previous = None;
    let mut at = 0;
    while at < bytes.len() {
        let record = frame(bytes, at).ok_or(refusal(2, at))?;
        check(&record, previous, &job).map_err(|number| refusal(number, at))?;
        at = record.payload.end;
        previous = Some(record.kind);
        add(&mut job, record);
    }
    Ok(job)
}

/// The checks of a whole record, in order; gives the number of the first that
/// fails. Each may rely on those before it.
fn check(record: &Record, previous: Option<u16>, job: &Job) -> Result<(), u32> {
    let need = |number: u32, holds: bool| if holds { Ok(()) } else { Err(number) };
    need(3, well_formed(record))?;
    need(3, in_position(record.kind, previous))?;
    need(5, within_limits(record, job))?;
    need(4, fields_permitted(record, job))?;
    need(45, not_selected_before(record, job))?;
    need(6, joints_hold(record, job))?;
    need(7, not_answered_before(record, job))
}

/// Takes the record at a byte apart; none if its header or payload is cut.
fn frame(bytes: &[u8], at: usize) -> Option<Record> {
    let header = bytes.get(at..at + HEADER)?;
    let length = u32::from_le_bytes([header[0], header[1], header[2], header[3]]);
    let kind = u16::from_le_bytes([header[4], header[5]]);
    let payload = at + HEADER..at + HEADER + length as usize;
    let fields = bytes
        .get(payload.clone())?
        .chunks_exact(4)
        .map(|b| u32::from_le_bytes([b[0], b[1], b[2], b[3]]))
        .collect();
    Some(Record {
        kind,
        payload,
        fields,
    })
}

/// A known kind with a length that fits it.
fn well_formed(record: &Record) -> bool {
    let length = record.payload.len();
    match record.kind {
        1 | 2 | 6 => length == 4,
        3 => length == 16,
        4 | 11 => length == 20,
        5 => length > 0 && length.is_multiple_of(8),
        7 => length > 0 && length.is_multiple_of(4),
        8 | 12 => length == 8,
        9 | 10 | 13 => length == 12,
        _ => false,
    }
}

/// Head, then vertices, edges, faces with their loops, answers.
fn part(kind: u16) -> u32 {
    match kind {
        1 => 0,
        2 => 1,
        3 => 2,
        4..=6 => 3,
        _ => 4,
    }
}

fn in_position(kind: u16, previous: Option<u16>) -> bool {
    let Some(previous) = previous else {
        return kind == 1;
    };
    match kind {
        1 => false,
        // A loop belongs to the latest face.
        5 | 6 => part(previous) == part(4),
        _ => part(kind) >= part(previous),
    }
}

fn within_limits(record: &Record, job: &Job) -> bool {
    match record.kind {
        2 => job.vertices.len() < MAX_VERTICES,
        3 => job.edges.len() < MAX_EDGES,
        4 => job.faces.len() < MAX_FACES,
        5 => {
            let more = record.fields.len() / 2;
            job.payloads.len() < MAX_LOOPS && job.use_count + more <= MAX_USES
        }
        6 => job.payloads.len() < MAX_LOOPS,
        7..=13 => job.answers.len() < MAX_ANSWERS,
        _ => true,
    }
}

fn fields_permitted(record: &Record, job: &Job) -> bool {
    let f = &record.fields;
    let vertex = |v: u32| (v as usize) < job.vertices.len();
    let edge = |e: u32| (e as usize) < job.edges.len();
    let a_use = |h: u32| (h as usize) < job.use_count;
    let face = |i: u32| (i as usize) < job.faces.len();
    match record.kind {
        1 => f[0] <= 1,
        3 => f[1] <= 1 && (f[2..] == [NONE, NONE] || vertex(f[2]) && vertex(f[3])),
        4 => f[1..4].iter().all(|&field| field <= 1),
        5 => f.chunks_exact(2).all(|item| edge(item[0]) && item[1] <= 1),
        6 => vertex(f[0]),
        7 => edge(f[0]) && f[1..].iter().all(|&h| a_use(h)),
        8 => a_use(f[0]) && f[1] <= 4,
        9 | 10 => f[0] != f[1] && f[2] <= 2,
        11 => f[1] < f[2] && face(f[2]) && f[4] <= 2,
        12 => face(f[0]) && f[1] <= 2,
        13 => face(f[0]) && face(f[1]) && f[2] <= 2,
        // Point, curve, surface and source numbers may be anything.
        _ => true,
    }
}

/// No face before is the same one: of the same body and source. Its surface and
/// its senses do not matter.
fn not_selected_before(record: &Record, job: &Job) -> bool {
    if record.kind != 4 {
        return true;
    }
    let (body, source) = (record.fields[3], record.fields[4]);
    let same = |face: &Face| face.body == body && face.source == source;
    !job.faces.iter().any(same)
}

/// Edge and sense of each use of a loop record.
fn items(record: &Record) -> Vec<(usize, Sense)> {
    let item = |pair: &[u32]| (pair[0] as usize, Sense::of(pair[1]));
    record.fields.chunks_exact(2).map(item).collect()
}

fn joints_hold(record: &Record, job: &Job) -> bool {
    if record.kind != 5 {
        return true;
    }
    let ends: Vec<_> = items(record)
        .into_iter()
        .map(|(edge, sense)| job.edges[edge].ends_of_use(sense))
        .collect();
    let count = ends.len();
    if ends.contains(&None) {
        return count == 1;
    }
    // The two vertices may be different records that stand on one point.
    let point = |vertex: usize| job.vertices[vertex];
    (0..count).all(|i| {
        let (this, successor) = (ends[i], ends[(i + 1) % count]);
        this.map(|(_, end)| point(end)) == successor.map(|(start, _)| point(start))
    })
}

/// The question of an answer record, and what it says.
fn answer(record: &Record) -> Option<(Question, Reply)> {
    let f = &record.fields;
    let (question, reply) = match record.kind {
        7 => {
            let order = f[1..].to_vec();
            (Question::Radial { edge: f[0] }, Reply::Order(order))
        }
        8 => (Question::Surface { lower_use: f[0] }, Reply::Value(f[1])),
        9 => (Question::points(f[0], f[1]), Reply::Value(f[2])),
        10 => (Question::curves(f[0], f[1]), Reply::Value(f[2])),
        11 => {
            let question = Question::Singular {
                curve: f[0],
                low_face: f[1],
                high_face: f[2],
                point: f[3],
            };
            (question, Reply::Value(f[4]))
        }
        12 => (Question::Orientation { face: f[0] }, Reply::Value(f[1])),
        13 => {
            let question = Question::Inside {
                probe: f[0],
                container: f[1],
            };
            (question, Reply::Value(f[2]))
        }
        _ => return None,
    };
    Some((question, reply))
}

fn not_answered_before(record: &Record, job: &Job) -> bool {
    answer(record).is_none_or(|(question, _)| !job.answers.contains_key(&question))
}

/// Adds a record that passed all checks.
fn add(job: &mut Job, record: Record) {
    let f = &record.fields;
    match record.kind {
        1 => job.proven = f[0] == 1,
        2 => job.vertices.push(f[0]),
        3 => job.edges.push(Edge {
            curve: f[0],
            sense: Sense::of(f[1]),
            ends: (f[2] != NONE).then_some((f[2] as usize, f[3] as usize)),
        }),
        4 => job.faces.push(Face {
            surface: f[0],
            own: Sense::of(f[1]),
            selected: Sense::of(f[2]),
            body: f[3],
            source: f[4],
            loops: Vec::new(),
        }),
        5 => {
            let items = items(&record);
            job.use_count += items.len();
            add_loop(job, &record, Loop::Uses(items));
        }
        6 => add_loop(job, &record, Loop::Vertex(f[0] as usize)),
        _ => job.answers.extend(answer(&record)),
    }
}

fn add_loop(job: &mut Job, record: &Record, l: Loop) {
    job.payloads.push(record.payload.clone());
    let latest = job.faces.last_mut().expect("a loop stands after a face");
    latest.loops.push(l);
}
