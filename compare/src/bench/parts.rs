//! The parts that are timed.

use crate::generate;
use crate::second::questions::Answers;
use crate::second::{self, Question, Reply};
use job_text::records::{self, Record};
use std::collections::BTreeMap;

pub struct Part {
    pub name: String,
    pub job: Vec<u8>,
}

/// The seed of the generated parts, and which of its jobs are timed.
const SEED: u64 = 5;
const DRAWN: [u64; 6] = [1300, 938, 1478, 3279, 2729, 3022];

const P9: &str = include_str!("../../parts/P9.txt");

pub fn all() -> Vec<Part> {
    let mut parts = vec![part("P9", text(P9))];
    for index in DRAWN {
        let job = generate::sample(SEED, index).job;
        parts.push(part(&format!("drawn, seed {SEED}, job {index}"), job));
    }
    for edges in [100, 200, 400, MOST_JOINS] {
        let name = format!("ring of {edges} edges");
        parts.push(part(&name, answered(ring(edges, Order::Round))));
    }
    let name = format!("ring of {MOST_JOINS} edges, corners in any order");
    parts.push(part(&name, answered(ring(MOST_JOINS, Order::Any))));
    parts.push(part(
        "62 vertex loops and a ring of 52 curves",
        answered(many_answers()),
    ));
    parts.extend(damaged());
    parts
}

fn part(name: &str, job: Vec<u8>) -> Part {
    let name = name.to_string();
    Part { name, job }
}

fn text(text: &str) -> Vec<u8> {
    job_text::assemble(text.as_bytes()).expect("the part is written well")
}

/// A join takes a vertex, an edge, two items, a surface and a singular answer: 88 bytes. No ring of more fits 65,536.
const MOST_JOINS: u32 = 743;

enum Order {
    Round,
    Any,
}

/// Two faces that share a ring of edges on one curve: all but the last corner are joined away, the last becomes a ring.
fn ring(edges: u32, order: Order) -> Vec<Record> {
    let at = |i: u32| match order {
        Order::Round => i % edges,
        // 1,009 is prime, so that each vertex comes once.
        Order::Any => i % edges * 1_009 % edges,
    };
    let mut structure = vec![(1, vec![1])];
    structure.extend((0..edges).map(|v| (2, vec![100 + v])));
    structure.extend((0..edges).map(|i| (3, vec![5, 0, at(i), at(i + 1)])));
    structure.extend(two_faces(edges));
    structure
}

/// Two faces with one loop each, along edges 0, 1, .. and back.
fn two_faces(edges: u32) -> [Record; 4] {
    let along = (0..edges).flat_map(|i| [i, 0]).collect();
    let back = (0..edges).rev().flat_map(|i| [i, 1]).collect();
    [
        (4, vec![7, 0, 0, 0, 0]),
        (5, along),
        (4, vec![8, 0, 0, 0, 1]),
        (5, back),
    ]
}

/// 1,891 pairs of points, 51 pairs of curves and 52 singular questions.
fn many_answers() -> Vec<Record> {
    let (edges, loops) = (52, 62);
    let mut structure = vec![(1, vec![1])];
    structure.extend((0..edges + loops).map(|v| (2, vec![100 + v])));
    structure.extend((0..edges).map(|i| (3, vec![500 + i, 0, i, (i + 1) % edges])));
    structure.extend(two_faces(edges));
    structure.extend((edges..edges + loops).map(|v| (6, vec![v])));
    structure
}

/// Jobs that are refused: cut short, with a question answered twice, and with one that nothing answers.
fn damaged() -> [Part; 3] {
    let whole = generate::sample(SEED, DRAWN[5]).job;
    let cut = whole[..whole.len() - 3].to_vec();
    let mut twice = records::split(&whole).0;
    twice.extend(twice.last().cloned());
    let ring = ring(MOST_JOINS, Order::Round);
    let mut unanswered = records::split(&answered(ring)).0;
    unanswered.pop();
    [
        part("the last drawn, cut short", cut),
        part("the last drawn, an answer twice", records::to_bytes(&twice)),
        part(
            "the longest ring, one answer missing",
            records::to_bytes(&unanswered),
        ),
    ]
}

/// Adds the answer to every question that sewing puts, in the order put.
fn answered(mut structure: Vec<Record>) -> Vec<u8> {
    let job = second::load(&records::to_bytes(&structure)).expect("the structure loads");
    let mut plain = Plain::default();
    let trail = second::sew(&job, &mut plain);
    let mut seen = std::collections::BTreeSet::new();
    for question in trail.asked {
        if seen.insert(question.clone()) {
            let mut fields = question.numbers();
            fields.push(plain.given[&question]);
            structure.push((question.kind() as u16, fields));
        }
    }
    records::to_bytes(&structure)
}

/// Surfaces and points differ, curves are the same, nothing is singular.
#[derive(Default)]
struct Plain {
    given: BTreeMap<Question, u32>,
}

impl Answers for Plain {
    fn answer(&mut self, question: &Question) -> Option<Reply> {
        let value = u32::from(matches!(question, Question::Curves { .. }));
        self.given.insert(question.clone(), value);
        Some(Reply::Value(value))
    }
}
