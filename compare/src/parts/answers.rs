//! What each program answers to a job: sewing and the eleven stages.

use crate::compare::ROOM;
use crate::compared::{compared, compared_lines, in_room, lacking};
use crate::records::field_bytes;
use crate::second::{self, Stage, Supplied};
use crate::text;
use crate::vectors::{sew_answer, stage_answer};
use reference::Ending;

/// The bytes written, or number and place of a refusal.
pub type Answer = Result<Vec<u8>, Ending>;

#[derive(Clone, PartialEq)]
pub struct Answers {
    /// In the order of `Stage::ALL`.
    pub stages: Vec<Answer>,
    pub body: Answer,
    /// The lines of an accepted body.
    pub listing: String,
}

impl Answers {
    /// Answers of a program that leaves the listing to the judge.
    fn listed(stages: Vec<Answer>, body: Answer) -> Self {
        let listing = body
            .as_ref()
            .map_or(String::new(), |body| text::listing(body));
        Self {
            stages,
            body,
            listing,
        }
    }

    /// The answers with what the reference has too.
    pub fn compared(&self) -> Self {
        Self {
            stages: self.stages.clone(),
            body: self.body.as_deref().map(compared).map_err(|ending| *ending),
            listing: compared_lines(&self.listing),
        }
    }

    pub fn stage(&self, stage: Stage) -> &Answer {
        &self.stages[stage as usize]
    }
}

/// The program under test, and the reference with whatever it should never do.
pub struct Programs {
    pub name: &'static str,
    pub tested: fn(&[u8]) -> Answers,
    /// Sewing and the walk stage of the tested program with a table, which the
    /// reference has not.
    pub with_table: fn(&[u8], &[u8]) -> [Answer; 2],
    /// Sewing of the tested program for a print shop, which the reference has not
    /// either.
    pub for_print: fn(&[u8]) -> Answer,
    pub reference: fn(&[u8]) -> (Answers, Vec<String>),
}

/// The proved library is tested if it was built in.
#[cfg(feature = "library")]
pub const PROGRAMS: Programs = Programs {
    name: "library",
    tested: library,
    with_table: library_with_table,
    for_print: library_for_print,
    reference,
};

/// Without it the second implementation is.
#[cfg(not(feature = "library"))]
pub const PROGRAMS: Programs = Programs {
    name: SECOND,
    tested: second,
    with_table: second_with_table,
    for_print: second_for_print,
    reference,
};

/// What the second implementation is called.
pub const SECOND: &str = "second";

/// What the library wrote, or its refusal.
#[cfg(feature = "library")]
fn answer(out: &[u8], ended: Result<usize, zaxclover::Refusal>) -> Answer {
    match ended {
        Ok(length) => Ok(out.get(..length).unwrap_or(out).to_vec()),
        Err(refusal) => Err((refusal.number as u32, refusal.place as u32)),
    }
}

#[cfg(feature = "library")]
fn library(job: &[u8]) -> Answers {
    // No stage needs so much.
    let mut out = vec![0; 2 * ROOM];
    let stages = zaxclover::Stage::ALL.map(|stage| {
        let ended = zaxclover::stage(stage, job, &mut out);
        answer(&out, ended)
    });
    let ended = zaxclover::sew(job, &mut out[..ROOM]);
    let body = answer(&out, ended);
    let listing = match body {
        Ok(_) => zaxclover::listing(job).unwrap_or_else(|refusal| refusal.to_string()),
        Err(_) => String::new(),
    };
    Answers {
        stages: stages.into(),
        body,
        listing,
    }
}

#[cfg(feature = "library")]
fn library_with_table(table: &[u8], job: &[u8]) -> [Answer; 2] {
    let mut out = vec![0; 2 * ROOM];
    let ended = zaxclover::sew_with_table(table, job, &mut out[..ROOM]);
    let body = answer(&out, ended);
    let ended = zaxclover::walk_stage_with_table(table, job, &mut out);
    [body, answer(&out, ended)]
}

#[cfg(feature = "library")]
fn library_for_print(job: &[u8]) -> Answer {
    let mut out = vec![0; ROOM];
    let ended = zaxclover::sew_for_print(job, &mut out);
    answer(&out, ended)
}

/// The second implementation, also for jobs that do not load.
pub fn second(job: &[u8]) -> Answers {
    let sewn = second::sewn(&Supplied::Nothing, job);
    let stage = |stage| stage_answer(&sewn, stage).map_err(ended);
    let body = sew_answer(&sewn, ROOM).map_err(ended);
    Answers::listed(Stage::ALL.map(stage).into(), body)
}

pub fn second_with_table(table: &[u8], job: &[u8]) -> [Answer; 2] {
    let sewn = second::sewn(&Supplied::Table(table.to_vec()), job);
    let walk = stage_answer(&sewn, Stage::Walk);
    [sew_answer(&sewn, ROOM), walk].map(|answer| answer.map_err(ended))
}

pub fn second_for_print(job: &[u8]) -> Answer {
    let sewn = second::sewn(&Supplied::PrintShop, job);
    sew_answer(&sewn, ROOM).map_err(ended)
}

fn ended(refusal: second::Refusal) -> Ending {
    (refusal.number, refusal.place)
}

/// The reference, for jobs that load.
pub fn reference(job: &[u8]) -> (Answers, Vec<String>) {
    let verdict = reference::observe(job);
    let bytes = |records: reference::Records| field_bytes(&records.concat());
    let stages = verdict.stages.into_iter().map(|stage| stage.map(bytes));
    let whole = second::sewn(&Supplied::Nothing, job);
    let lacking = sew_answer(&whole, usize::MAX).map_or(0, |body| lacking(&body));
    let body = in_room(verdict.body, lacking, ROOM);
    (Answers::listed(stages.collect(), body), verdict.oddities)
}
