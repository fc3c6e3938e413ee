//! What was met with tables over many jobs.

use super::{Held, WRONG_TABLE};
use crate::generate::tables::{FULL, LESSER};
use crate::summary::counts;
use std::collections::BTreeMap;

#[derive(Default)]
pub struct Tables {
    /// Jobs on which something disagreed.
    pub unlike: usize,
    /// Each permitted table: supplied, accepted, and accepted with fewer faces
    /// joined than by the full one.
    permitted: BTreeMap<String, [usize; 3]>,
    /// Accepted jobs by what became of ordinary sewing of the same job.
    accepted: BTreeMap<u32, usize>,
    /// Refusals with permitted tables that join less.
    refusals: BTreeMap<u32, usize>,
    /// 48 by place, and by what becomes of the job without the table, 0 if it is
    /// accepted.
    places: BTreeMap<u32, usize>,
    before: BTreeMap<u32, usize>,
    /// Wrong tables by length, those of four bytes by their faulty entries.
    lengths: BTreeMap<String, usize>,
    faults: BTreeMap<String, usize>,
    /// Accepted jobs with a surface answer at each entry, by table.
    entries: BTreeMap<String, usize>,
}

impl Tables {
    pub fn add(&mut self, held: &Held) {
        self.unlike += usize::from(!held.differences.is_empty());
        let ordinary = held.ordinary.map_or(0, |refusal| refusal.number);
        match held.refusal {
            Some(refusal) if refusal.number == WRONG_TABLE => {
                *self.places.entry(refusal.place).or_default() += 1;
                *self.before.entry(ordinary).or_default() += 1;
                self.add_fault(&held.table);
                return;
            }
            Some(refusal) if held.table != FULL => {
                *self.refusals.entry(refusal.number).or_default() += 1;
            }
            Some(_) => {}
            None if held.table != FULL => *self.accepted.entry(ordinary).or_default() += 1,
            None => {}
        }
        let shown = shown(&held.table);
        let accepted = held.refusal.is_none();
        let sums = self.permitted.entry(shown.clone()).or_default();
        sums[0] += 1;
        sums[1] += usize::from(accepted);
        sums[2] += usize::from(accepted && held.fewer);
        for &entry in &held.entries {
            let name = format!("{shown} {}", ENTRIES[entry]);
            *self.entries.entry(name).or_default() += 1;
        }
    }

    fn add_fault(&mut self, table: &[u8]) {
        if table.len() != FULL.len() {
            let length = match table.len() {
                length @ 0..=8 => length.to_string(),
                260 | 1_028 => "four modulo 256".to_string(),
                65_540 => "four modulo 65,536".to_string(),
                _ => "longer".to_string(),
            };
            *self.lengths.entry(length).or_default() += 1;
            return;
        }
        let faulty: Vec<usize> = (0..4).filter(|&i| table[i] > FULL[i]).collect();
        let [only] = faulty[..] else {
            *self.faults.entry("several".to_string()).or_default() += 1;
            return;
        };
        let value = match table[only] {
            value @ (1 | 2 | 255) => value.to_string(),
            _ => "another".to_string(),
        };
        let name = format!("{only} is {value}");
        *self.faults.entry(name).or_default() += 1;
    }

    /// What was not met of all that there is to meet.
    pub fn unmet(&self) -> Vec<String> {
        let wanted = [
            self.wanted_places(),
            self.wanted_lengths(),
            self.wanted_faults(),
            self.wanted_permitted(),
            self.wanted_before(),
        ];
        let unmet = wanted.into_iter().flatten().filter(|(_, met)| !met);
        unmet.map(|(name, _)| name).collect()
    }

    fn wanted_places(&self) -> Vec<Wanted> {
        let wanted = (0..=4).map(|place| {
            let met = self.places.contains_key(&place);
            (format!("48 at {place}"), met)
        });
        wanted.collect()
    }

    fn wanted_lengths(&self) -> Vec<Wanted> {
        let wanted = LENGTHS.map(|length| {
            let met = self.lengths.contains_key(length);
            (format!("length {length}"), met)
        });
        wanted.to_vec()
    }

    fn wanted_faults(&self) -> Vec<Wanted> {
        let wanted = FAULTS.map(|name| (name.to_string(), self.faults.contains_key(name)));
        wanted.to_vec()
    }

    fn wanted_permitted(&self) -> Vec<Wanted> {
        let tables = std::iter::once(FULL).chain(LESSER);
        let wanted = tables.flat_map(|table| {
            let shown = shown(&table);
            let [_, accepted, fewer] = self.permitted.get(&shown).copied().unwrap_or_default();
            let entries = ENTRIES.map(|entry| {
                let name = format!("{shown} {entry}");
                let met = self.entries.contains_key(&name);
                (name, met)
            });
            let joins_less = fewer > 0 || table == FULL;
            let itself = [
                (format!("{shown} accepted"), accepted > 0),
                (format!("{shown} joins less"), joins_less),
            ];
            itself.into_iter().chain(entries)
        });
        wanted.collect()
    }

    /// 48 comes before every refusal of loading and of room, and others.
    fn wanted_before(&self) -> Vec<Wanted> {
        let numbers = [0, 1, 2, 3, 4, 5, 6, 7, 45, 10, 20, 40];
        let wanted = numbers.map(|number| {
            let met = self.before.contains_key(&number);
            (format!("48 before {number}"), met)
        });
        wanted.to_vec()
    }

    pub fn lines(&self) -> Vec<String> {
        let mut lines = Vec::new();
        for (table, [jobs, accepted, fewer]) in &self.permitted {
            lines.push(format!(
                "table {table}: {jobs}, accepted {accepted}, joining fewer faces than the full one {fewer}"
            ));
        }
        lines.extend([
            format!(
                "accepted with a lesser table, by ordinary ending: {}",
                counts(&self.accepted)
            ),
            format!("refused with a lesser table: {}", counts(&self.refusals)),
            format!(
                "accepted with a surface answer, by table and entry: {}",
                counts(&self.entries)
            ),
            format!("48 by place: {}", counts(&self.places)),
            format!("48 by length: {}", counts(&self.lengths)),
            format!("48 by faulty entry: {}", counts(&self.faults)),
            format!("48 by ordinary ending: {}", counts(&self.before)),
            format!("disagreements with tables: {}", self.unlike),
        ]);
        let unmet = self.unmet();
        if !unmet.is_empty() {
            lines.push(format!("not met with tables: {}", unmet.join(", ")));
        }
        lines
    }
}

/// What there is to meet, and whether it was met.
type Wanted = (String, bool);

/// Wrong lengths of a table in words.
const LENGTHS: [&str; 11] = [
    "0",
    "1",
    "2",
    "3",
    "5",
    "6",
    "7",
    "8",
    "longer",
    "four modulo 256",
    "four modulo 65,536",
];

/// Faulty entries in words: which entry has which value, or several are faulty.
const FAULTS: [&str; 15] = [
    "0 is 2",
    "0 is 255",
    "0 is another",
    "1 is 1",
    "1 is 2",
    "1 is 255",
    "1 is another",
    "2 is 1",
    "2 is 2",
    "2 is 255",
    "2 is another",
    "3 is 2",
    "3 is 255",
    "3 is another",
    "several",
];

/// Entries of a table in words.
const ENTRIES: [&str; 4] = ["1 equal", "1 different", "2 equal", "2 different"];

fn shown(table: &[u8]) -> String {
    table.iter().map(u8::to_string).collect()
}
