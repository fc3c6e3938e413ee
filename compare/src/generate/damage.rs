//! Jobs that do not load, by all sorts of damage.

use super::Expected;
use super::draft::{Counts, Draft};
use super::rng::Rng;
use crate::records::{self, HEADER, Record};
use crate::second::{NONE, Refusal};

pub type Damaged = (Vec<u8>, Expected);

/// A record of bytes, whole or not.
type Raw = (u16, Vec<u8>);

pub fn expected(number: u32, place: usize) -> Expected {
    Expected::Refused(Refusal {
        number,
        place: place as u32,
    })
}

/// The same if it is certain.
fn expected_if(certain: bool, number: u32, place: usize) -> Expected {
    match certain {
        true => expected(number, place),
        false => Expected::Unknown,
    }
}

fn raw(records: &[Record]) -> Vec<Raw> {
    let raw = |(kind, fields): &Record| (*kind, records::field_bytes(fields));
    records.iter().map(raw).collect()
}

fn raw_bytes(list: &[Raw]) -> Vec<u8> {
    let mut out = Vec::new();
    for (kind, payload) in list {
        records::write(&mut out, *kind, payload);
    }
    out
}

/// First byte of a record.
pub fn place(list: &[Record], index: usize) -> usize {
    let length = |(_, fields): &Record| HEADER + 4 * fields.len();
    list[..index].iter().map(length).sum()
}

/// A record of a kind drawn evenly from those in the job.
fn some_index(list: &[Record], rng: &mut Rng) -> usize {
    let mut kinds: Vec<u16> = list.iter().map(|(kind, _)| *kind).collect();
    kinds.sort_unstable();
    kinds.dedup();
    let kind = *rng.pick(&kinds);
    some_index_of(list, kind, rng).expect("the kind is there")
}

fn some_index_of(list: &[Record], kind: u16, rng: &mut Rng) -> Option<usize> {
    let of_kind: Vec<usize> = (0..list.len()).filter(|&i| list[i].0 == kind).collect();
    (!of_kind.is_empty()).then(|| *rng.pick(&of_kind))
}

/// Damages one record, or the order of records.
pub fn one_record(draft: &Draft, rng: &mut Rng) -> Damaged {
    let list = draft.records(rng);
    one_of(list, draft.counts, rng)
}

/// The same in records with what there is of each sort.
pub fn one_of(list: Vec<Record>, counts: Counts, rng: &mut Rng) -> Damaged {
    match rng.below(27) {
        0 | 1 => cut_header(&list, rng),
        2 | 3 => cut_payload(&list, rng),
        4 => long_length(&list, rng),
        5 => unknown_kind(&list, rng),
        6 => wrong_length(&list, rng),
        7 => odd_length(&list, rng),
        8 => moved(&list, rng),
        9 => second_head(&list, rng),
        10 => no_head(&list, rng),
        11 => wrong_place(&list, rng),
        12..=15 => bad_field(&list, counts, rng),
        16 => broken_joint(&list, rng),
        17 => ring_not_alone(list, rng),
        18 => open_loop(&list, rng),
        19 | 20 => repeated(&list, rng),
        21 => too_long(&list, rng),
        22 => two_faults(&list, counts, rng),
        23 => moved_vertex(&list, rng),
        24 => earlier_face(&list, rng),
        25 => third_body(&list, rng),
        _ => lost(&list, rng),
    }
}

fn cut_header(list: &[Record], rng: &mut Rng) -> Damaged {
    let at = place(list, some_index(list, rng));
    let mut job = records::to_bytes(list);
    job.truncate(at + rng.range(1, HEADER - 1));
    (job, expected(2, at))
}

fn cut_payload(list: &[Record], rng: &mut Rng) -> Damaged {
    let index = some_index(list, rng);
    let at = place(list, index);
    let mut job = records::to_bytes(list);
    job.truncate(at + HEADER + rng.below(4 * list[index].1.len()));
    (job, expected(2, at))
}

/// A length that leads past the end of the job.
fn long_length(list: &[Record], rng: &mut Rng) -> Damaged {
    let index = some_index(list, rng);
    let at = place(list, index);
    let mut job = records::to_bytes(list);
    let over = (job.len() - at - HEADER) as u32;
    let length = match rng.below(4) {
        0 => over + 1,
        1 => u32::MAX,
        2 => u32::MAX - at as u32 - HEADER as u32 + 1,
        _ => over + 1 + rng.below(1_000) as u32,
    };
    job[at..at + 4].copy_from_slice(&length.to_le_bytes());
    if rng.chance(30) {
        // 2 comes before 3.
        job[at + 4] = 99;
    }
    (job, expected(2, at))
}

fn unknown_kind(list: &[Record], rng: &mut Rng) -> Damaged {
    let index = some_index(list, rng);
    let mut damaged = list.to_vec();
    let known = list[index].0;
    damaged[index].0 = match rng.below(6) {
        0 => 0,
        1 => rng.range(14, 30) as u16,
        2 => known + 256,
        3 => known << 8,
        4 => u16::MAX,
        _ => rng.range(14, 65_535) as u16,
    };
    (records::to_bytes(&damaged), expected(3, place(list, index)))
}

/// A payload with a field too few or too many.
fn wrong_length(list: &[Record], rng: &mut Rng) -> Damaged {
    let index = some_index(list, rng);
    let mut damaged = list.to_vec();
    let (kind, fields) = &mut damaged[index];
    match rng.below(3) {
        0 => fields.clear(),
        1 => {
            fields.pop();
        }
        _ => fields.push(rng.below(3) as u32),
    }
    // Any number of uses may stand in a radial record.
    let certain = *kind != 7 || fields.is_empty();
    let refusal = expected_if(certain, 3, place(list, index));
    (records::to_bytes(&damaged), refusal)
}

/// A face of three fields, as before it had body and source.
fn earlier_face(list: &[Record], rng: &mut Rng) -> Damaged {
    let Some(index) = some_index_of(list, 4, rng) else {
        return wrong_length(list, rng);
    };
    let mut damaged = list.to_vec();
    damaged[index].1.truncate(3);
    (records::to_bytes(&damaged), expected(3, place(list, index)))
}

/// A face of a body that is neither 0 nor 1.
fn third_body(list: &[Record], rng: &mut Rng) -> Damaged {
    let Some(index) = some_index_of(list, 4, rng) else {
        return wrong_length(list, rng);
    };
    let mut damaged = list.to_vec();
    damaged[index].1[3] = *rng.pick(&[2, 3, 256, 65_536, 1 << 31, u32::MAX]);
    (records::to_bytes(&damaged), expected(4, place(list, index)))
}

/// A payload of no whole fields.
fn odd_length(list: &[Record], rng: &mut Rng) -> Damaged {
    let index = some_index(list, rng);
    let mut damaged = raw(list);
    let payload = &mut damaged[index].1;
    for _ in 0..rng.range(1, 3) {
        match rng.chance(50) {
            true => payload.push(0),
            false => payload.truncate(payload.len() / 4 * 4 - 1),
        }
    }
    let off = !damaged[index].1.len().is_multiple_of(4);
    let refusal = expected_if(off, 3, place(list, index));
    (raw_bytes(&damaged), refusal)
}

/// A record somewhere else.
fn moved(list: &[Record], rng: &mut Rng) -> Damaged {
    let mut damaged = list.to_vec();
    let record = damaged.remove(some_index(list, rng));
    damaged.insert(rng.below(damaged.len() + 1), record);
    (records::to_bytes(&damaged), Expected::Unknown)
}

fn second_head(list: &[Record], rng: &mut Rng) -> Damaged {
    let index = rng.range(1, list.len());
    let mut damaged = list.to_vec();
    damaged.insert(index, (1, vec![rng.below(3) as u32]));
    (records::to_bytes(&damaged), expected(3, place(list, index)))
}

fn no_head(list: &[Record], rng: &mut Rng) -> Damaged {
    let keep = rng.below(list.len());
    (records::to_bytes(&list[1..1 + keep]), expected(3, 0))
}

/// A well-formed record where none of its kind may stand.
fn wrong_place(list: &[Record], rng: &mut Rng) -> Damaged {
    let index = match rng.chance(50) {
        true => rng.range(1, list.len()),
        false => some_index(list, rng).max(1),
    };
    let before = list[index - 1].0;
    let wrong: Vec<Record> = vec![
        (1, vec![0]),
        (2, vec![0]),
        (3, vec![0, 0, NONE, NONE]),
        (4, vec![0, 0, 0, 0, 0]),
        (5, vec![0, 0]),
        (6, vec![0]),
    ];
    let may_stand = |kind: u16| match before {
        1..=3 => kind >= before.max(2) && kind <= 4,
        4..=6 => kind >= 4,
        _ => false,
    };
    let wrong: Vec<Record> = wrong
        .into_iter()
        .filter(|(kind, _)| !may_stand(*kind))
        .collect();
    let mut damaged = list.to_vec();
    damaged.insert(index, rng.pick(&wrong).clone());
    (records::to_bytes(&damaged), expected(3, place(list, index)))
}

/// For each field of a kind, the lowest value that is not permitted; none for
/// a field that may be anything.
fn first_bad(kind: u16, field: usize, counts: Counts) -> Option<usize> {
    let by_kind: &[Option<usize>] = match kind {
        1 => &[Some(2)],
        3 => &[None, Some(2), Some(counts.vertices), Some(counts.vertices)],
        4 => &[None, Some(2), Some(2), Some(2)],
        5 if field.is_multiple_of(2) => return Some(counts.edges),
        5 => return Some(2),
        6 => &[Some(counts.vertices)],
        7 if field > 0 => return Some(counts.uses),
        7 => &[Some(counts.edges)],
        8 => &[Some(counts.uses), Some(5)],
        9 | 10 => &[None, None, Some(3)],
        11 => &[None, Some(counts.faces), Some(counts.faces), None, Some(3)],
        12 => &[Some(counts.faces), Some(3)],
        13 => &[Some(counts.faces), Some(counts.faces), Some(3)],
        _ => &[],
    };
    by_kind.get(field).copied().flatten()
}

fn bad_field(list: &[Record], counts: Counts, rng: &mut Rng) -> Damaged {
    let mut damaged = list.to_vec();
    let index = some_index(list, rng);
    let (kind, fields) = &mut damaged[index];
    let certain = spoil(*kind, fields, counts, rng);
    let refusal = expected_if(certain, 4, place(list, index));
    (records::to_bytes(&damaged), refusal)
}

/// Spoils a field; true if the record is certainly not permitted then.
fn spoil(kind: u16, fields: &mut [u32], counts: Counts, rng: &mut Rng) -> bool {
    if (kind == 9 || kind == 10) && rng.chance(50) {
        fields[1] = fields[0];
        return true;
    }
    if kind == 11 && rng.chance(40) {
        match rng.chance(50) {
            true => fields.swap(1, 2),
            false => fields[2] = fields[1],
        }
        return true;
    }
    let field = rng.below(fields.len());
    let Some(low) = first_bad(kind, field, counts) else {
        return false;
    };
    let ring = kind == 3 && fields[2] == NONE;
    fields[field] = match rng.below(4) {
        0 => low as u32 + rng.below(300) as u32,
        // Half a ring, or still a ring.
        1 => NONE,
        2 => NONE - 1,
        _ => low as u32,
    };
    !(ring && field >= 2 && fields[field] == NONE)
}

fn broken_joint(list: &[Record], rng: &mut Rng) -> Damaged {
    let mut damaged = list.to_vec();
    let Some(index) = some_index_of(list, 5, rng) else {
        return (records::to_bytes(list), Expected::Unknown);
    };
    let edges = edges(list);
    let points = points(list);
    let fields = &mut damaged[index].1;
    let item = 2 * rng.below(fields.len() / 2);
    match rng.below(4) {
        0 => fields[item + 1] ^= 1,
        1 => {
            fields.drain(item..item + 2);
        }
        2 => {
            let again = [fields[item], fields[item + 1]];
            fields.extend(again);
        }
        _ => fields[item] = rng.below(edges.len()) as u32,
    }
    let refusal = match fields.is_empty() {
        true => expected(3, place(list, index)),
        false => expected_if(!closed(fields, &edges, &points), 6, place(list, index)),
    };
    (records::to_bytes(&damaged), refusal)
}

/// Whether a loop leads from point to point and back, or is a ring alone.
fn closed(items: &[u32], edges: &[&Vec<u32>], points: &[u32]) -> bool {
    let ring = |item: &[u32]| edges[item[0] as usize][2] == NONE;
    if items.chunks_exact(2).any(ring) {
        return items.len() == 2;
    }
    let point = |vertex: u32| points[vertex as usize];
    let mut at = point(ends(&items[items.len() - 2..], edges).1);
    for item in items.chunks_exact(2) {
        let (start, end) = ends(item, edges);
        if point(start) != at {
            return false;
        }
        at = point(end);
    }
    true
}

/// A vertex on another point, in which a bit is turned; the first loop that no
/// longer joins there is refused.
fn moved_vertex(list: &[Record], rng: &mut Rng) -> Damaged {
    let Some(vertex) = some_index_of(list, 2, rng) else {
        return (records::to_bytes(list), Expected::Unknown);
    };
    let mut damaged = list.to_vec();
    damaged[vertex].1[0] ^= 1 << rng.below(32);
    let (edges, points) = (edges(&damaged), points(&damaged));
    let open = |(kind, fields): &Record| *kind == 5 && !closed(fields, &edges, &points);
    let refusal = match damaged.iter().position(open) {
        Some(index) => expected(6, place(list, index)),
        None => Expected::Unknown,
    };
    (records::to_bytes(&damaged), refusal)
}

/// The point of each vertex.
fn points(list: &[Record]) -> Vec<u32> {
    let vertices = list.iter().filter(|(kind, _)| *kind == 2);
    vertices.map(|(_, fields)| fields[0]).collect()
}

/// The vertices where an item starts and ends.
fn ends(item: &[u32], edges: &[&Vec<u32>]) -> (u32, u32) {
    let edge = edges[item[0] as usize];
    match item[1] {
        0 => (edge[2], edge[3]),
        _ => (edge[3], edge[2]),
    }
}

/// Fields of the job's edges.
fn edges(list: &[Record]) -> Vec<&Vec<u32>> {
    let edges = list.iter().filter(|(kind, _)| *kind == 3);
    edges.map(|(_, fields)| fields).collect()
}

/// A ring's use with another use in its loop.
fn ring_not_alone(list: Vec<Record>, rng: &mut Rng) -> Damaged {
    let edges = edges(&list);
    let Some(ring) = edges.iter().position(|fields| fields[2] == NONE) else {
        return (records::to_bytes(&list), Expected::Unknown);
    };
    let Some(index) = some_index_of(&list, 5, rng) else {
        return (records::to_bytes(&list), Expected::Unknown);
    };
    let mut damaged = list.to_vec();
    let fields = &mut damaged[index].1;
    let at = 2 * rng.below(fields.len() / 2 + 1);
    fields.splice(at..at, [ring as u32, rng.below(2) as u32]);
    let refusal = expected(6, place(&list, index));
    (records::to_bytes(&damaged), refusal)
}

/// A loop of one use whose ends are at different points.
fn open_loop(list: &[Record], rng: &mut Rng) -> Damaged {
    let points = points(list);
    let point = |vertex: u32| points.get(vertex as usize);
    let open = edges(list)
        .iter()
        .position(|fields| point(fields[2]) != point(fields[3]));
    let (Some(edge), Some(index)) = (open, some_index_of(list, 5, rng)) else {
        return (records::to_bytes(list), Expected::Unknown);
    };
    let mut damaged = list.to_vec();
    damaged[index].1 = vec![edge as u32, rng.below(2) as u32];
    (records::to_bytes(&damaged), expected(6, place(list, index)))
}

/// An answered question answered again at the end.
fn repeated(list: &[Record], rng: &mut Rng) -> Damaged {
    let mut answers: Vec<u16> = list.iter().map(|(kind, _)| *kind).collect();
    answers.retain(|&kind| kind >= 7);
    answers.sort_unstable();
    answers.dedup();
    if answers.is_empty() {
        return (records::to_bytes(list), Expected::Unknown);
    }
    let kind = *rng.pick(&answers);
    let index = some_index_of(list, kind, rng).expect("the kind is there");
    let (kind, mut fields) = list[index].clone();
    if (kind == 9 || kind == 10) && rng.chance(50) {
        fields.swap(0, 1);
    }
    if kind > 7 && rng.chance(50) {
        let last = fields.len() - 1;
        fields[last] = rng.below(3) as u32;
    }
    let mut damaged = list.to_vec();
    damaged.push((kind, fields));
    (
        records::to_bytes(&damaged),
        expected(7, place(list, list.len())),
    )
}

/// More bytes than a job may have.
fn too_long(list: &[Record], rng: &mut Rng) -> Damaged {
    let mut job = records::to_bytes(list);
    let length = 65_537 + if rng.chance(50) { 0 } else { rng.below(3_000) };
    job.resize(length, rng.below(256) as u8);
    (job, expected(1, 65_536))
}

/// A repeated question with a value that is not permitted: 4 comes before 7.
fn two_faults(list: &[Record], counts: Counts, rng: &mut Rng) -> Damaged {
    let (job, refusal) = repeated(list, rng);
    let Expected::Refused(_) = refusal else {
        return (job, refusal);
    };
    let (mut damaged, _) = records::split(&job);
    let (kind, fields) = damaged.last_mut().expect("an answer was added");
    let certain = spoil(*kind, fields, counts, rng);
    let refusal = expected_if(certain, 4, place(list, list.len()));
    (records::to_bytes(&damaged), refusal)
}

/// A record that is lost.
fn lost(list: &[Record], rng: &mut Rng) -> Damaged {
    let mut damaged = list.to_vec();
    damaged.remove(some_index(list, rng));
    (records::to_bytes(&damaged), Expected::Unknown)
}

/// Random damage to bytes.
pub fn some_bytes(mut job: Vec<u8>, rng: &mut Rng) -> Vec<u8> {
    for _ in 0..rng.range(1, 3) {
        if job.is_empty() {
            break;
        }
        let at = rng.below(job.len());
        match rng.below(6) {
            0 => job[at] = rng.below(256) as u8,
            1 => job[at] ^= 1 << rng.below(8),
            2 => job[at] = job[at].wrapping_add(1),
            3 => job.insert(at, rng.below(256) as u8),
            4 => {
                job.remove(at);
            }
            _ => {
                let end = (at + rng.range(1, 40)).min(job.len());
                match rng.chance(50) {
                    true => job.truncate(end),
                    false => {
                        job.drain(at..end);
                    }
                }
            }
        }
    }
    job
}
