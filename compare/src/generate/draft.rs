//! A job in the making: its structure, its answers, and which were asked.

use super::oracle::{Oracle, Style};
use super::rng::Rng;
use super::sketch::{self, Sketch};
use crate::records::{self, Record};
use crate::second::{self, Job, Question, Reply};
use std::collections::BTreeMap;

pub struct Draft {
    pub structure: Vec<Record>,
    pub answers: BTreeMap<Question, Reply>,
    /// The questions in the order put.
    pub asked: Vec<Question>,
    pub counts: Counts,
}

/// How many things of each sort a job has.
#[derive(Clone, Copy)]
pub struct Counts {
    pub vertices: usize,
    pub edges: usize,
    pub faces: usize,
    pub uses: usize,
}

impl Counts {
    pub fn of(job: &Job) -> Self {
        Self {
            vertices: job.vertices.len(),
            edges: job.edges.len(),
            faces: job.faces.len(),
            uses: job.use_count,
        }
    }
}

impl Draft {
    /// Writes a sketch and answers every question that sewing puts.
    pub fn of_sketch(sketch: &Sketch, style: Style, rng: &mut Rng) -> Self {
        let written = sketch::write(sketch, rng);
        let bytes = records::to_bytes(&written.records);
        let job = match second::load(&bytes) {
            Ok(job) => job,
            // Grown past a limit.
            Err(_) => return Self::unanswered(written.records),
        };
        let mut oracle = Oracle::new(sketch, &written, &job, style, rng);
        let trail = second::sew(&job, &mut oracle);
        Self {
            answers: oracle.given,
            structure: written.records,
            asked: trail.asked,
            counts: Counts::of(&job),
        }
    }

    fn unanswered(structure: Vec<Record>) -> Self {
        Self {
            structure,
            answers: BTreeMap::new(),
            asked: Vec::new(),
            counts: Counts {
                vertices: 0,
                edges: 0,
                faces: 0,
                uses: 0,
            },
        }
    }

    /// Adds answers to questions that are not put.
    pub fn add_unasked(&mut self, count: usize, rng: &mut Rng) {
        for _ in 0..count {
            let Some(question) = self.any_question(rng) else {
                continue;
            };
            let reply = match question {
                Question::Radial { .. } => Reply::Order(self.some_uses(rng)),
                Question::Surface { .. } => Reply::Value(rng.below(5) as u32),
                _ => Reply::Value(rng.below(3) as u32),
            };
            self.answers.entry(question).or_insert(reply);
        }
    }

    fn some_uses(&self, rng: &mut Rng) -> Vec<u32> {
        let count = rng.below(4);
        let some = (0..count).map(|_| below(self.counts.uses, rng));
        some.collect::<Option<_>>().unwrap_or_default()
    }

    /// Some question that may be answered.
    fn any_question(&self, rng: &mut Rng) -> Option<Question> {
        let (a, b) = (rng.below(9) as u32, 9 + rng.below(9) as u32);
        let (face, other) = (below(self.counts.faces, rng), below(self.counts.faces, rng));
        Some(match rng.below(7) {
            0 => Question::Radial {
                edge: below(self.counts.edges, rng)?,
            },
            1 => Question::Surface {
                lower_use: below(self.counts.uses, rng)?,
            },
            2 => Question::points(a, b),
            3 => Question::curves(a, b),
            4 if face < other => Question::Singular {
                curve: a,
                low_face: face?,
                high_face: other?,
                point: b,
            },
            5 => Question::Orientation { face: face? },
            _ => Question::Inside {
                probe: face?,
                container: other?,
            },
        })
    }

    /// An asked question of a kind drawn evenly from those asked.
    pub fn asked_of_some_kind(&self, rng: &mut Rng) -> Option<Question> {
        let mut kinds: Vec<u32> = self.asked.iter().map(Question::kind).collect();
        kinds.sort_unstable();
        kinds.dedup();
        if kinds.is_empty() {
            return None;
        }
        let kind = *rng.pick(&kinds);
        let of_kind: Vec<&Question> = self.asked.iter().filter(|q| q.kind() == kind).collect();
        Some((*rng.pick(&of_kind)).clone())
    }

    /// All records, the answers in random order.
    pub fn records(&self, rng: &mut Rng) -> Vec<Record> {
        let mut answers: Vec<Record> = self
            .answers
            .iter()
            .map(|(question, reply)| answer_record(question, reply, rng))
            .collect();
        rng.shuffle(&mut answers);
        let mut records = self.structure.clone();
        records.extend(answers);
        records
    }
}

/// A number below a count, if there is any.
fn below(count: usize, rng: &mut Rng) -> Option<u32> {
    (count > 0).then(|| rng.below(count) as u32)
}

/// The record of an answer; kinds 9 and 10 have no order of their two.
fn answer_record(question: &Question, reply: &Reply, rng: &mut Rng) -> Record {
    let kind = question.kind();
    let mut fields = question.numbers();
    if (kind == 9 || kind == 10) && rng.chance(50) {
        fields.reverse();
    }
    match reply {
        Reply::Order(order) => fields.extend(order),
        Reply::Value(value) => fields.push(*value),
    }
    (kind as u16, fields)
}
