//! Kinds of differences, in the order they are told.

use crate::second::Stage;

#[derive(Clone, Copy, PartialEq, Eq, PartialOrd, Ord, Debug)]
pub enum Kind {
    /// A program stopped by itself, or the reference did what it never should.
    Stop,
    /// One refuses and the other not, or the number or place differs.
    Refusal,
    /// What a stage writes.
    Stage(usize),
    /// The records of the body.
    Body,
    /// The lines of bodies that are alike.
    Listing,
    /// Sewing or the walk stage with a joining table.
    Table,
    /// Sewing for a print shop.
    PrintShop,
}

/// What each stage's output is called, and the fields of its records.
const STAGES: [(&str, &str); 11] = [
    ("uses", "edge, face, sense, old successor"),
    ("twins", "twin of the use"),
    ("face groups", "boundary, merged group"),
    ("vertex loops", "merged face, point"),
    ("successors", "use, successor, passed"),
    ("loops", "merged face, count, uses"),
    ("fans", "use, fan, point"),
    ("edges", "totals, then edges, then loops"),
    ("joining", "totals, then edges, then loops"),
    ("shells", "outer, count, merged faces"),
    ("lumps", "lump, count, merged faces"),
];

impl Kind {
    pub fn of_stage(stage: Stage) -> Self {
        Self::Stage(stage as usize)
    }

    pub fn name(self) -> &'static str {
        match self {
            Self::Stop => "stopped",
            Self::Refusal => "refusal",
            Self::Stage(stage) => STAGES[stage].0,
            Self::Body => "body records",
            Self::Listing => "listing",
            Self::Table => "with a table",
            Self::PrintShop => "for print",
        }
    }

    /// The fields of a stage's records.
    pub fn fields(stage: Stage) -> &'static str {
        STAGES[stage as usize].1
    }
}
