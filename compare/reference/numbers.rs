//! Stand-ins for the decider and its outcomes.

use crate::SurfaceId;
use std::collections::{BTreeMap, VecDeque};

pub(crate) const GEOMETRIC_GAP_UNPROVEN: &str = "geometric-gap-unproven";

#[derive(Clone, Debug)]
pub(crate) struct Refusal {
    pub(crate) code: &'static str,
    pub(crate) detail: String,
    /// Set where a stand-in refused.
    pub(crate) stand_in: Option<(u32, u32)>,
}

impl Refusal {
    pub(crate) fn new(code: &'static str, detail: impl Into<String>) -> Self {
        Self {
            code,
            detail: detail.into(),
            stand_in: None,
        }
    }

    pub(crate) fn stand_in(number: u32, place: u32) -> Self {
        Self {
            code: "judge",
            detail: String::new(),
            stand_in: Some((number, place)),
        }
    }

    /// A call that the stand-ins cannot tell the meaning of.
    pub(crate) fn out_of_step(detail: &str) -> Self {
        Self::new("judge.out-of-step", detail)
    }

    pub(crate) fn with_code(mut self, code: &'static str) -> Self {
        self.code = code;
        self
    }
}

/// An undecided answer of the kind given.
pub(crate) struct NotExact(pub(crate) u32);

impl From<NotExact> for Refusal {
    fn from(undecided: NotExact) -> Self {
        Self::stand_in(21, undecided.0)
    }
}

pub(crate) enum Outcome<T> {
    Proven(T),
    ProvenCoincident(()),
    NotExact(NotExact),
    Refused(Refusal),
}

#[derive(Clone, Copy, PartialEq, Eq)]
pub(crate) enum Sign {
    Positive,
    Negative,
    Zero,
}

pub(crate) struct Answer<T> {
    pub(crate) value: T,
}

impl<T> Answer<T> {
    pub(crate) fn exact(value: T) -> Self {
        Self { value }
    }
}

pub(crate) type Answered<T> = Result<Answer<T>, Refusal>;

#[derive(Clone, Default)]
pub(crate) struct MarkLog;

impl MarkLog {
    pub(crate) fn new() -> Self {
        Self
    }
    pub(crate) fn extend(&mut self, _: &Self) {}
    pub(crate) fn is_empty(&self) -> bool {
        true
    }
}

/// Working ahead, left out.
pub(crate) struct Ahead;

impl Ahead {
    pub(crate) fn new(_: usize) -> Self {
        Self
    }
    pub(crate) fn at<F, G>(&mut self, _: usize, _: F)
    where
        F: FnOnce() -> G,
        G: Fn(usize, &mut Decider),
    {
    }
}

/// The published code ends it by dropping it.
impl Drop for Ahead {
    fn drop(&mut self) {}
}

/// A surface question still to come: the pair's lower use, and the supports
/// that the published code will hold against each other.
#[derive(Clone)]
pub(crate) struct SurfaceQuestion {
    pub(crate) lower_use: u32,
    pub(crate) supports: [SurfaceId; 2],
}

/// Answers every question from the job's records and notes it.
#[derive(Clone, Default)]
pub(crate) struct Decider {
    /// Kind and numbers of a question, and what its record says.
    pub(crate) answers: BTreeMap<Vec<u32>, Vec<u32>>,
    pub(crate) asked: Vec<Vec<u32>>,
    /// Kind 8 in the order it will be asked: surfaces do not name the pair.
    pub(crate) surfaces: VecDeque<SurfaceQuestion>,
    /// Value of the surface answer given last, for the sign of its normals.
    pub(crate) surface_value: u32,
    /// Lowest selected face of each merged face, ascending.
    pub(crate) lowest: Vec<u32>,
    /// Selected faces come first in the model, merged faces after them.
    pub(crate) selected: usize,
    /// Faces of each shell whose orientation was asked.
    pub(crate) shells: Vec<Vec<u32>>,
    /// Answer so that points and curves differ, nothing joins and every shell
    /// is outer, and note nothing: shows what stands before such questions.
    pub(crate) probing: bool,
}

impl Decider {
    /// Puts a question: what its record says, or refusal 20.
    pub(crate) fn ask(&mut self, kind: u32, numbers: &[u32]) -> Result<Vec<u32>, Refusal> {
        let mut question = vec![kind];
        question.extend(numbers);
        let answer = self.answers.get(&question).cloned();
        self.asked.push(question);
        answer.ok_or_else(|| Refusal::stand_in(20, kind))
    }

    /// Puts a question answered by one value.
    pub(crate) fn value(&mut self, kind: u32, numbers: &[u32]) -> Result<u32, Refusal> {
        Ok(self.ask(kind, numbers)?[0])
    }

    /// Puts a question answered by no, yes or undecided.
    pub(crate) fn yes(&mut self, kind: u32, numbers: &[u32]) -> Result<bool, Refusal> {
        match self.value(kind, numbers)? {
            2 => Err(NotExact(kind).into()),
            value => Ok(value == 1),
        }
    }

    /// The same question about two things without an order of their own.
    pub(crate) fn same(&mut self, kind: u32, a: u32, b: u32) -> Outcome<()> {
        if a == b {
            return Outcome::ProvenCoincident(());
        }
        if self.probing {
            return Outcome::Proven(());
        }
        self.coincidence(kind, &[a.min(b), a.max(b)])
    }

    /// A question whose yes is a coincidence.
    pub(crate) fn coincidence(&mut self, kind: u32, numbers: &[u32]) -> Outcome<()> {
        match self.value(kind, numbers) {
            Err(refusal) => Outcome::Refused(refusal),
            Ok(0) => Outcome::Proven(()),
            Ok(1) => Outcome::ProvenCoincident(()),
            Ok(_) => Outcome::NotExact(NotExact(kind)),
        }
    }

    /// Number of the merged face whose lowest member has this support.
    pub(crate) fn merged_face(&self, support: SurfaceId) -> Option<u32> {
        let position = self.lowest.iter().position(|&face| face == support.0)?;
        Some(position as u32)
    }
}
