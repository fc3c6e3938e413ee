//! The questions of kinds 7 to 13, and putting them.

use super::refusal::{Refusal, refusal};

#[derive(Clone, PartialEq, Eq, PartialOrd, Ord, Debug)]
pub enum Question {
    /// The order of the uses round an edge.
    Radial { edge: u32 },
    /// The surfaces beside a pair, by its lower use.
    Surface { lower_use: u32 },
    /// Two different points, the lower number first.
    Points { low: u32, high: u32 },
    /// Two different curves, the lower number first.
    Curves { low: u32, high: u32 },
    /// A point on a curve between two merged faces.
    Singular {
        curve: u32,
        low_face: u32,
        high_face: u32,
        point: u32,
    },
    /// A shell, by its lowest merged face.
    Orientation { face: u32 },
    /// Whether one shell lies inside another, by their lowest merged faces.
    Inside { probe: u32, container: u32 },
}

#[derive(Clone, PartialEq, Eq, Debug)]
pub enum Reply {
    Order(Vec<u32>),
    Value(u32),
}

impl Question {
    pub fn points(a: u32, b: u32) -> Self {
        Self::Points {
            low: a.min(b),
            high: a.max(b),
        }
    }

    pub fn curves(a: u32, b: u32) -> Self {
        Self::Curves {
            low: a.min(b),
            high: a.max(b),
        }
    }

    pub fn kind(&self) -> u32 {
        match self {
            Self::Radial { .. } => 7,
            Self::Surface { .. } => 8,
            Self::Points { .. } => 9,
            Self::Curves { .. } => 10,
            Self::Singular { .. } => 11,
            Self::Orientation { .. } => 12,
            Self::Inside { .. } => 13,
        }
    }

    /// The numbers that name the question, in the order of its record.
    pub fn numbers(&self) -> Vec<u32> {
        match *self {
            Self::Radial { edge } => vec![edge],
            Self::Surface { lower_use } => vec![lower_use],
            Self::Points { low, high } | Self::Curves { low, high } => vec![low, high],
            Self::Singular {
                curve,
                low_face,
                high_face,
                point,
            } => vec![curve, low_face, high_face, point],
            Self::Orientation { face } => vec![face],
            Self::Inside { probe, container } => vec![probe, container],
        }
    }
}

/// Where answers come from: a job's records, or a generator making them up.
pub trait Answers {
    fn answer(&mut self, question: &Question) -> Option<Reply>;
}

impl Answers for &std::collections::BTreeMap<Question, Reply> {
    fn answer(&mut self, question: &Question) -> Option<Reply> {
        self.get(question).cloned()
    }
}

/// Puts questions and notes them in order.
pub struct Asker<'a> {
    answers: &'a mut dyn Answers,
    pub asked: Vec<Question>,
}

impl<'a> Asker<'a> {
    pub fn new(answers: &'a mut dyn Answers) -> Self {
        Self {
            answers,
            asked: Vec::new(),
        }
    }

    fn ask(&mut self, question: Question) -> Result<Reply, Refusal> {
        let kind = question.kind();
        let reply = self.answers.answer(&question);
        self.asked.push(question);
        reply.ok_or(refusal(20, kind as usize))
    }

    fn value(&mut self, question: Question) -> Result<u32, Refusal> {
        match self.ask(question)? {
            Reply::Value(value) => Ok(value),
            Reply::Order(_) => unreachable!("only kind 7 is answered by an order"),
        }
    }

    /// A question with 0 for no, 1 for yes and 2 for undecided.
    fn yes(&mut self, question: Question) -> Result<bool, Refusal> {
        let kind = question.kind();
        match self.value(question)? {
            0 => Ok(false),
            1 => Ok(true),
            _ => Err(refusal(21, kind as usize)),
        }
    }

    /// The uses round an edge; an empty order is undecided.
    pub fn radial(&mut self, edge: usize) -> Result<Vec<u32>, Refusal> {
        match self.ask(Question::Radial { edge: edge as u32 })? {
            Reply::Order(order) if order.is_empty() => Err(refusal(21, 7)),
            Reply::Order(order) => Ok(order),
            Reply::Value(_) => unreachable!("kind 7 is answered by an order"),
        }
    }

    /// Whether the surfaces beside a pair are the same and, if so, whether
    /// their normals agree.
    pub fn surface(&mut self, lower_use: usize) -> Result<Option<bool>, Refusal> {
        let lower_use = lower_use as u32;
        match self.value(Question::Surface { lower_use })? {
            0 => Ok(None),
            1 => Ok(Some(true)),
            2 => Ok(Some(false)),
            3 => Err(refusal(22, 8)),
            _ => Err(refusal(21, 8)),
        }
    }

    /// Equal numbers are the same point without a question.
    pub fn same_points(&mut self, a: u32, b: u32) -> Result<bool, Refusal> {
        Ok(a == b || self.yes(Question::points(a, b))?)
    }

    /// Equal numbers are the same curve without a question.
    pub fn same_curves(&mut self, a: u32, b: u32) -> Result<bool, Refusal> {
        Ok(a == b || self.yes(Question::curves(a, b))?)
    }

    pub fn singular(
        &mut self,
        curve: u32,
        faces: (usize, usize),
        point: u32,
    ) -> Result<bool, Refusal> {
        self.yes(Question::Singular {
            curve,
            low_face: faces.0 as u32,
            high_face: faces.1 as u32,
            point,
        })
    }

    pub fn outer(&mut self, lowest_face: usize) -> Result<bool, Refusal> {
        self.yes(Question::Orientation {
            face: lowest_face as u32,
        })
    }

    pub fn inside(&mut self, probe: usize, container: usize) -> Result<bool, Refusal> {
        self.yes(Question::Inside {
            probe: probe as u32,
            container: container as u32,
        })
    }
}
