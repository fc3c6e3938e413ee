//! What was met over many jobs.

use crate::compare::Compared;
use crate::generate::CLASSES;
use crate::print_shop::totals::Prints;
use crate::second::{Job, Refusal, load};
use crate::tables::totals::Tables;
use std::collections::BTreeMap;
use std::fmt::Display;

#[derive(Default)]
pub struct Summary {
    pub jobs: usize,
    /// Jobs on which something disagreed.
    pub unlike: usize,
    accepted: usize,
    loaded: usize,
    /// Jobs that did not load, by number: the reference never sees them.
    unloaded: BTreeMap<u32, usize>,
    refusals: BTreeMap<u32, usize>,
    /// Refusals 20 and 21 by kind, 5 by the kind of record too many.
    by_kind: BTreeMap<u32, BTreeMap<u32, usize>>,
    questions: BTreeMap<u32, usize>,
    /// Jobs and accepted jobs.
    classes: BTreeMap<&'static str, [usize; 2]>,
    features: BTreeMap<&'static str, usize>,
    largest: [usize; 7],
    /// Loaded jobs that reach each limit.
    full: [usize; 7],
    pub tables: Tables,
    pub prints: Prints,
}

/// What is counted in a job, and its limit.
const SIZES: [(&str, usize); 7] = [
    ("faces", load::MAX_FACES),
    ("uses", load::MAX_USES),
    ("edges", load::MAX_EDGES),
    ("vertices", load::MAX_VERTICES),
    ("loops", load::MAX_LOOPS),
    ("answers", load::MAX_ANSWERS),
    ("bytes", load::MAX_BYTES),
];

impl Summary {
    pub fn add(&mut self, class: &'static str, bytes: &[u8], compared: &Compared) {
        self.jobs += 1;
        self.unlike += usize::from(!compared.differences.is_empty());
        let of_class = self.classes.entry(class).or_default();
        of_class[0] += 1;
        match compared.refusal {
            Some(refusal) => self.add_refusal(refusal, bytes),
            None => {
                self.accepted += 1;
                of_class[1] += 1;
            }
        }
        match (&compared.job, compared.refusal) {
            (Some(job), _) => {
                self.loaded += 1;
                self.add_sizes(job, bytes.len());
            }
            (None, Some(refusal)) => {
                *self.unloaded.entry(refusal.number).or_default() += 1;
            }
            // A program stopped by itself, which is told.
            (None, None) => {}
        }
        for &kind in &compared.kinds {
            *self.questions.entry(kind).or_default() += 1;
        }
        for &feature in &compared.features {
            *self.features.entry(feature).or_default() += 1;
        }
    }

    fn add_refusal(&mut self, refusal: Refusal, bytes: &[u8]) {
        *self.refusals.entry(refusal.number).or_default() += 1;
        let kind = match refusal.number {
            5 => u32::from(bytes[refusal.place as usize + 4]),
            20 | 21 => refusal.place,
            _ => return,
        };
        let kinds = self.by_kind.entry(refusal.number).or_default();
        *kinds.entry(kind).or_default() += 1;
    }

    fn add_sizes(&mut self, job: &Job, bytes: usize) {
        let sizes = [
            job.faces.len(),
            job.use_count,
            job.edges.len(),
            job.vertices.len(),
            job.payloads.len(),
            job.answers.len(),
            bytes,
        ];
        for (i, size) in sizes.into_iter().enumerate() {
            self.largest[i] = size.max(self.largest[i]);
            self.full[i] += usize::from(size == SIZES[i].1);
        }
    }

    pub fn agrees(&self) -> bool {
        self.all_unlike() == 0
    }

    /// Disagreements, with tables and for print too.
    pub fn all_unlike(&self) -> usize {
        self.unlike + self.tables.unlike + self.prints.unlike
    }

    /// The summary of any jobs.
    pub fn lines(&self) -> Vec<String> {
        let mut lines = vec![
            format!("jobs: {}", self.jobs),
            format!("accepted: {}", self.accepted),
            format!("loaded and held against the reference: {}", self.loaded),
            format!(
                "not loaded, which has no counterpart in the reference: {} ({})",
                self.unloaded.values().sum::<usize>(),
                counts(&self.unloaded)
            ),
            format!("refusals by number: {}", counts(&self.refusals)),
        ];
        for (number, kinds) in &self.by_kind {
            lines.push(format!("refusal {number} by kind: {}", counts(kinds)));
        }
        lines.push(format!(
            "questions put by kind: {}",
            counts(&self.questions)
        ));
        lines.push(format!("largest that loaded: {}", sizes(self.largest)));
        lines.push(format!("disagreements: {}", self.unlike));
        lines
    }

    /// The same with what was drawn, for generated jobs.
    pub fn lines_of_run(&self) -> Vec<String> {
        let mut lines = Vec::new();
        for (class, _) in CLASSES {
            let [jobs, accepted] = self.classes.get(class).copied().unwrap_or_default();
            lines.push(format!("class {class}: {jobs}, accepted {accepted}"));
        }
        for (feature, count) in &self.features {
            lines.push(format!("accepted with {feature}: {count}"));
        }
        lines.push(format!("loaded at a limit: {}", sizes(self.full)));
        lines.extend(self.tables.lines());
        lines.extend(self.prints.lines());
        lines.extend(self.lines());
        lines
    }
}

pub fn counts(map: &BTreeMap<impl Display, usize>) -> String {
    let shown: Vec<String> = map.iter().map(|(k, n)| format!("{k}: {n}")).collect();
    shown.join(", ")
}

fn sizes(numbers: [usize; 7]) -> String {
    let named = SIZES.iter().zip(numbers);
    let shown: Vec<String> = named.map(|((name, _), n)| format!("{name} {n}")).collect();
    shown.join(", ")
}
