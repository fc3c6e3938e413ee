//! Sums over a run.

use super::answers::SECOND;
use super::hold::End;
use super::kinds::Kind;
use super::run::{Part, Run};
use std::collections::BTreeMap;

#[derive(Default)]
pub struct Totals<'a> {
    pub differing: usize,
    /// By the program under test.
    pub accepted: usize,
    pub refused: BTreeMap<u32, usize>,
    pub stopped: usize,
    /// Parts that do not load, held against the second implementation.
    pub unloaded: usize,
    pub kinds: BTreeMap<Kind, Vec<&'a Part>>,
}

impl<'a> Totals<'a> {
    pub fn of(run: &'a Run) -> Self {
        let mut totals = Self::default();
        for part in &run.parts {
            totals.add(part);
        }
        totals
    }

    fn add(&mut self, part: &'a Part) {
        self.differing += usize::from(part.differs());
        self.unloaded += usize::from(part.held.other.name == SECOND);
        match part.held.tested.end {
            End::Accepted => self.accepted += 1,
            End::Refused(number, _) => *self.refused.entry(number).or_default() += 1,
            End::Stopped => self.stopped += 1,
        }
        for difference in &part.held.differences {
            let parts = self.kinds.entry(difference.kind).or_default();
            if parts.last().is_none_or(|last| !std::ptr::eq(*last, part)) {
                parts.push(part);
            }
        }
    }

    pub fn all_refused(&self) -> usize {
        self.refused.values().sum()
    }
}
