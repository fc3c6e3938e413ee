//! Answers to what a job has none for.

use super::rng::Rng;
use crate::records::{self, Record};
use crate::second::load::{MAX_ANSWERS, MAX_BYTES};
use crate::second::questions::Answers;
use crate::second::{self, Job, Question, Reply, Rules, Sense};
use std::collections::BTreeMap;

/// Which questions are answered.
#[derive(Clone, Copy, PartialEq, Eq)]
pub enum Put {
    All,
    /// All but those of the order round an edge and of surfaces.
    Later,
}

/// The job with answers to what is asked by some rules and the job has none for,
/// if it loads with them.
pub fn filled(job: Vec<u8>, rules: Rules, put: Put, rng: &mut Rng) -> Vec<u8> {
    let Ok(loaded) = second::load(&job) else {
        return job;
    };
    let mut filling = Filling {
        job: &loaded,
        put,
        added: BTreeMap::new(),
        first_outer: None,
        rng,
    };
    second::sew_by(rules, &loaded, &mut filling);
    let added: Vec<Record> = filling.added.iter().map(record).collect();
    let answers = loaded.answers.len() + added.len();
    let longer = [&job, &records::to_bytes(&added)[..]].concat();
    match answers <= MAX_ANSWERS && longer.len() <= MAX_BYTES {
        true => longer,
        false => job,
    }
}

/// The record of an answer.
fn record((question, reply): (&Question, &Reply)) -> Record {
    let mut fields = question.numbers();
    match reply {
        Reply::Value(value) => fields.push(*value),
        Reply::Order(order) => fields.extend(order),
    }
    (question.kind() as u16, fields)
}

/// A job's answers, and others where it has none.
struct Filling<'a> {
    job: &'a Job,
    put: Put,
    added: BTreeMap<Question, Reply>,
    /// The first shell asked is outer, and every void lies in it.
    first_outer: Option<u32>,
    rng: &'a mut Rng,
}

impl Filling<'_> {
    fn made_up(&mut self, question: &Question) -> Option<Reply> {
        let percent = match *question {
            Question::Radial { .. } | Question::Surface { .. } if self.put == Put::Later => {
                return None;
            }
            Question::Radial { edge } => return Some(Reply::Order(self.round(edge as usize))),
            Question::Surface { .. } => return Some(Reply::Value(self.rng.below(3) as u32)),
            Question::Points { .. } => 30,
            Question::Curves { .. } => 80,
            Question::Singular { .. } => 20,
            Question::Orientation { .. } if self.first_outer.is_none() => 100,
            Question::Orientation { .. } => 60,
            Question::Inside { container, .. } if self.first_outer == Some(container) => 100,
            Question::Inside { .. } => 50,
        };
        Some(Reply::Value(u32::from(self.rng.chance(percent))))
    }

    /// The uses round an edge, Reversed and Same ones in turn as far as there are
    /// any.
    fn round(&mut self, edge: usize) -> Vec<u32> {
        let uses = second::read::read(self.job).uses;
        let of_sense = |sense: Sense| -> Vec<u32> {
            let of_edge = (0..uses.len()).filter(|&h| uses[h].edge == edge);
            let of_sense = of_edge.filter(|&h| uses[h].sense == sense);
            of_sense.map(|h| h as u32).collect()
        };
        let mut both = [of_sense(Sense::Reversed), of_sense(Sense::Same)];
        both.iter_mut().for_each(|uses| self.rng.shuffle(uses));
        let longest = both[0].len().max(both[1].len());
        let turns = (0..longest).flat_map(|i| both.iter().filter_map(move |uses| uses.get(i)));
        turns.copied().collect()
    }
}

impl Answers for Filling<'_> {
    fn answer(&mut self, question: &Question) -> Option<Reply> {
        let before = self.job.answers.get(question);
        let reply = match before.or_else(|| self.added.get(question)) {
            Some(reply) => reply.clone(),
            None => {
                let reply = self.made_up(question)?;
                self.added.insert(question.clone(), reply.clone());
                reply
            }
        };
        if let (Question::Orientation { face }, Reply::Value(1)) = (question, &reply) {
            self.first_outer.get_or_insert(*face);
        }
        Some(reply)
    }
}
