//! What was met for a print shop over many jobs.

use super::sorts::{FEATURES, ending};
use super::{Held, MANY_FANS, MANY_USES};
use crate::summary::counts;
use std::collections::BTreeMap;

#[derive(Default)]
pub struct Prints {
    /// Jobs on which something disagreed.
    pub unlike: usize,
    jobs: usize,
    accepted: usize,
    /// Refusals that are those of ordinary sewing.
    ordinary: BTreeMap<String, usize>,
    /// 41 and 42 by what becomes of ordinary sewing.
    many_uses: BTreeMap<String, usize>,
    many_fans: BTreeMap<String, usize>,
    sorts: BTreeMap<String, usize>,
}

impl Prints {
    pub fn add(&mut self, held: &Held) {
        self.jobs += 1;
        self.unlike += usize::from(!held.differences.is_empty());
        let ordinary = ending(held.ordinary);
        let count = match held.refusal {
            None => &mut self.accepted,
            Some(refusal) if refusal.number == MANY_USES => {
                self.many_uses.entry(ordinary).or_default()
            }
            Some(refusal) if refusal.number == MANY_FANS => {
                self.many_fans.entry(ordinary).or_default()
            }
            Some(_) => self.ordinary.entry(ordinary).or_default(),
        };
        *count += 1;
        for sort in &held.sorts {
            *self.sorts.entry(sort.clone()).or_default() += 1;
        }
    }

    /// What was not met of all that there is to meet.
    pub fn unmet(&self) -> Vec<String> {
        let lists: [(&str, &[&str], &BTreeMap<String, usize>); 4] = [
            ("", &ORDINARY, &self.ordinary),
            ("41 before ", &BEHIND_MANY_USES, &self.many_uses),
            ("42 before ", &BEHIND_MANY_FANS, &self.many_fans),
            ("", &SORTS, &self.sorts),
        ];
        let unmet = lists.into_iter().flat_map(|(lead, wanted, met)| {
            let unmet = wanted.iter().filter(|name| !met.contains_key(**name));
            unmet.map(move |name| format!("{lead}{name}"))
        });
        let features = FEATURES.iter().map(|name| format!("accepted with {name}"));
        let features = features.filter(|name| !self.sorts.contains_key(name));
        unmet.chain(features).collect()
    }

    pub fn lines(&self) -> Vec<String> {
        let sum = |met: &BTreeMap<String, usize>| met.values().sum::<usize>();
        let mut lines = vec![
            format!("for print: {}, accepted {}", self.jobs, self.accepted),
            format!(
                "for print refused as ordinarily: {} ({})",
                sum(&self.ordinary),
                counts(&self.ordinary)
            ),
        ];
        for (number, met) in [(MANY_USES, &self.many_uses), (MANY_FANS, &self.many_fans)] {
            let (sum, met) = (sum(met), counts(met));
            lines.push(format!("{number} by ordinary ending: {sum} ({met})"));
        }
        lines.extend([
            format!("for print by sort: {}", counts(&self.sorts)),
            format!("disagreements for print: {}", self.unlike),
        ]);
        let unmet = self.unmet();
        if !unmet.is_empty() {
            lines.push(format!("not met for print: {}", unmet.join(", ")));
        }
        lines
    }
}

/// Refusals that a print shop meets as ordinary sewing does.
const ORDINARY: [&str; 25] = [
    "1", "2", "3", "4", "5", "6", "7", "45", "10", "11", "20 of 8", "20 of 9", "20 of 10",
    "20 of 11", "20 of 12", "20 of 13", "21 of 8", "21 of 9", "21 of 10", "21 of 11", "21 of 12",
    "21 of 13", "22", "34", "40",
];

/// Endings of ordinary sewing that 41 comes before.
const BEHIND_MANY_USES: [&str; 16] = [
    "accepted", "20 of 7", "21 of 7", "23", "12", "13", "10", "11", "20 of 8", "21 of 8", "30",
    "31", "32", "33", "34", "40",
];

/// Endings of ordinary sewing that 42 comes before.
const BEHIND_MANY_FANS: [&str; 13] = [
    "accepted", "31", "32", "34", "40", "20 of 10", "20 of 11", "20 of 12", "20 of 13", "21 of 10",
    "21 of 11", "21 of 12", "21 of 13",
];

/// What there is to meet about an ending.
const SORTS: [&str; 34] = [
    "41 with four uses",
    "41 with six uses",
    "41 with eight uses or more",
    "41 with more uses in one sense",
    "41 at edge 0",
    "41 at another edge",
    "41 at a ring",
    "41 at an edge with ends",
    "41 within one face",
    "41 before 10",
    "41 before 11",
    "41 before another edge of many uses",
    "10 before 41",
    "11 before 41",
    "11 with three uses",
    "11 with five uses or more",
    "42 at point 0",
    "42 at the highest point",
    "42 at another point",
    "42 at one vertex",
    "42 at several vertices",
    "42 with three fans or more",
    "42 at one of several points",
    "42 not at the first fan met",
    "42 not where most fans are",
    "42 within one boundary",
    "42 of several boundaries",
    "42 of two in one boundary and another",
    "42 and 31 at another point",
    "42 with removed uses",
    "accepted with a vertex loop at a fan",
    "accepted with two vertex loops at a point",
    "accepted with an edge without uses",
    "accepted without faces",
];
