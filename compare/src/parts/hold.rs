//! Holds the program under test against the reference on one job.

use super::answers::{self, Answer, Answers, Programs, SECOND};
use super::kinds::Kind;
use super::{loops, split};
use crate::generate::tables::{FULL, LESSER};
use crate::print_shop::{MANY_FANS, MANY_USES};
use crate::second::{self, Stage};
use crate::text;
use reference::Ending;
use std::fmt;
use std::panic::{AssertUnwindSafe, catch_unwind};

/// Words shown before and after the first that differs.
const BEFORE: usize = 5;
const AFTER: usize = 8;

/// How a program ends.
#[derive(Clone, Copy, PartialEq, Eq, Debug)]
pub enum End {
    Accepted,
    /// Number and place.
    Refused(u32, u32),
    Stopped,
}

impl fmt::Display for End {
    fn fmt(&self, f: &mut fmt::Formatter) -> fmt::Result {
        match self {
            Self::Accepted => write!(f, "accepted"),
            Self::Refused(number, place) => write!(f, "refused {number} {place}"),
            Self::Stopped => write!(f, "stopped"),
        }
    }
}

/// What is told of one program.
pub struct Side {
    pub name: &'static str,
    pub end: End,
    /// Loops per face, where they are known.
    pub loops: Option<Vec<usize>>,
}

pub struct Difference {
    pub kind: Kind,
    pub told: String,
}

pub struct Held {
    pub uses: Option<usize>,
    pub tested: Side,
    /// The reference, or the second implementation for a job that does not load.
    pub other: Side,
    /// The first of each kind.
    pub differences: Vec<Difference>,
    /// With whom the second implementation agrees, if there is a difference.
    pub third: Option<String>,
}

/// A program's answers, or what it said when it stopped by itself.
type Given = Result<Answers, String>;

pub fn hold(job: &[u8], programs: &Programs) -> Held {
    let tested = caught(|| (programs.tested)(job));
    let loads = caught(|| second::load(job).is_ok()) == Ok(true);
    let (other, odd, name) = if loads {
        let (other, odd) = reference(job, programs);
        (other, odd, "reference")
    } else {
        (caught(|| answers::second(job)), Vec::new(), SECOND)
    };
    let names = [programs.name, name];
    let mut differences: Vec<Difference> = odd;
    match (&tested, &other) {
        (Ok(ours), Ok(theirs)) if loads => {
            compare(&ours.compared(), theirs, names, &mut differences)
        }
        (Ok(ours), Ok(theirs)) => compare(ours, theirs, names, &mut differences),
        _ => differences.extend(stops(names, [&tested, &other])),
    }
    if loads && programs.name != SECOND && differences.is_empty() {
        differences.extend(left_out(job, programs.name, &tested));
    }
    let asked = loads && programs.name != SECOND && !differences.is_empty();
    if let (Ok(ordinary), true) = (&tested, differences.is_empty()) {
        differences.extend(with_tables(job, programs, ordinary));
        differences.extend(for_print(job, programs, ordinary));
    }
    Held {
        uses: tested.as_ref().ok().and_then(uses),
        third: asked.then(|| third(job, names, [&tested, &other])),
        tested: side(programs.name, &tested),
        other: side(name, &other),
        differences,
    }
}

/// The reference's answers; whatever it should never do is a difference.
fn reference(job: &[u8], programs: &Programs) -> (Given, Vec<Difference>) {
    match caught(|| (programs.reference)(job)) {
        Err(said) => (Err(said), Vec::new()),
        Ok((answers, odd)) => {
            let told = |said: String| Difference {
                kind: Kind::Stop,
                told: format!("reference: {said}"),
            };
            (Ok(answers), odd.into_iter().map(told).take(1).collect())
        }
    }
}

/// What a program gives, or what it said when it stopped.
fn caught<T>(program: impl FnOnce() -> T) -> Result<T, String> {
    catch_unwind(AssertUnwindSafe(program)).map_err(|said| {
        let text = said.downcast_ref::<String>().map(String::as_str);
        let text = text.or_else(|| said.downcast_ref::<&str>().copied());
        text.unwrap_or("without a word").to_string()
    })
}

fn stops(names: [&str; 2], given: [&Given; 2]) -> Vec<Difference> {
    let stopped = names.into_iter().zip(given);
    let told = stopped.filter_map(|(name, given)| {
        let said = given.as_ref().err()?;
        Some(Difference {
            kind: Kind::Stop,
            told: format!("{name} stopped: {said}"),
        })
    });
    told.collect()
}

fn side(name: &'static str, given: &Given) -> Side {
    let (end, loops) = match given {
        Err(_) => (End::Stopped, None),
        Ok(answers) => (end(&answers.body), loops::per_face(answers)),
    };
    Side { name, end, loops }
}

fn end(answer: &Answer) -> End {
    match answer {
        Ok(_) => End::Accepted,
        Err((number, place)) => End::Refused(*number, *place),
    }
}

/// How many uses a job has, if it loads.
fn uses(answers: &Answers) -> Option<usize> {
    let read = answers.stage(Stage::Read).as_ref().ok()?;
    Some(split::records(Stage::Read, read).len())
}

/// What the reference is not compared on is held against the second
/// implementation.
fn left_out(job: &[u8], name: &str, tested: &Given) -> Vec<Difference> {
    let second = caught(|| answers::second(job));
    let names = [name, SECOND];
    let mut differences = stops(names, [tested, &second]);
    if let (Ok(ours), Ok(theirs)) = (tested, &second) {
        compare(ours, theirs, names, &mut differences);
    }
    differences
}

/// Tables of the tester's run besides the full one: those that join less, and two
/// that are refused.
const TABLES: [&[u8]; 5] = [
    &LESSER[0],
    &LESSER[1],
    &LESSER[2],
    &[1, 1, 0, 2],
    &[2, 0, 0, 1, 0],
];

/// What the program's own answers are called that a table must not change.
const WITHOUT: &str = "without a table";

/// And those that a print shop must get too.
const ORDINARILY: &str = "ordinarily";

/// With the full table sewing and the walk stage end as without one; with others
/// as in the second implementation, since the reference has none. The first
/// difference.
fn with_tables(job: &[u8], programs: &Programs, ordinary: &Answers) -> Option<Difference> {
    let without = [&ordinary.body, ordinary.stage(Stage::Walk)].map(Answer::clone);
    let full = with_table(job, programs, &FULL, WITHOUT, |_, _| without.clone());
    let mut others = TABLES.into_iter();
    full.or_else(|| {
        others
            .find_map(|table| with_table(job, programs, table, SECOND, answers::second_with_table))
    })
}

fn with_table(
    job: &[u8],
    programs: &Programs,
    table: &[u8],
    other: &'static str,
    answers: impl Fn(&[u8], &[u8]) -> [Answer; 2],
) -> Option<Difference> {
    let names = [programs.name, other];
    let ours = caught(|| (programs.with_table)(table, job));
    let theirs = caught(|| answers(table, job));
    match (ours, theirs) {
        (Ok(ours), Ok(theirs)) => unlike_with_table(table, names, &ours, &theirs),
        (ours, theirs) => {
            let with = format!("with table {}", shown(table));
            stopped(&with, names, [ours.err(), theirs.err()])
        }
    }
}

/// The first program that stopped, by what each said if it did.
fn stopped(how: &str, names: [&str; 2], given: [Option<String>; 2]) -> Option<Difference> {
    let stopped = names.into_iter().zip(given);
    let mut said = stopped.filter_map(|(name, said)| Some((name, said?)));
    let (name, said) = said.next()?;
    Some(Difference {
        kind: Kind::Stop,
        told: format!("{name} stopped {how}: {said}"),
    })
}

/// Sewing or, if it ends alike, the walk stage.
fn unlike_with_table(
    table: &[u8],
    names: [&str; 2],
    ours: &[Answer; 2],
    theirs: &[Answer; 2],
) -> Option<Difference> {
    let operations = [Kind::Body, Kind::of_stage(Stage::Walk)];
    let pairs = operations.into_iter().zip(ours.iter().zip(theirs));
    let mut unlike = pairs.filter(|(_, (a, b))| a != b);
    let (operation, (a, b)) = unlike.next()?;
    let what = match operation {
        Kind::Body => format!("sewing with table {}", shown(table)),
        _ => format!("the walk stage with table {}", shown(table)),
    };
    let told = match (a, b) {
        (Ok(ours), Ok(theirs)) => format!("{what}: {}", outputs(operation, names, [ours, theirs])),
        _ => sides(&what, names, [end(a), end(b)]),
    };
    Some(Difference {
        kind: Kind::Table,
        told,
    })
}

/// For a print shop sewing ends as in the second implementation, since the
/// reference has no such rules, and if it is not refused for them, as it does
/// ordinarily.
fn for_print(job: &[u8], programs: &Programs, ordinary: &Answers) -> Option<Difference> {
    let names = [programs.name, SECOND];
    let ours = caught(|| (programs.for_print)(job));
    let theirs = caught(|| answers::second_for_print(job));
    let (ours, theirs) = match (ours, theirs) {
        (Ok(ours), Ok(theirs)) => (ours, theirs),
        (ours, theirs) => return stopped("for print", names, [ours.err(), theirs.err()]),
    };
    let only_there = |(number, _): &Ending| [MANY_USES, MANY_FANS].contains(number);
    let fault = ours.as_ref().is_err_and(only_there);
    unlike_for_print(names, &ours, &theirs).or_else(|| match fault {
        true => None,
        false => unlike_for_print([programs.name, ORDINARILY], &ours, &ordinary.body),
    })
}

fn unlike_for_print(names: [&str; 2], ours: &Answer, theirs: &Answer) -> Option<Difference> {
    if ours == theirs {
        return None;
    }
    let what = "sewing for print";
    let told = match (ours, theirs) {
        (Ok(ours), Ok(theirs)) => format!("{what}: {}", outputs(Kind::Body, names, [ours, theirs])),
        _ => sides(what, names, [end(ours), end(theirs)]),
    };
    Some(Difference {
        kind: Kind::PrintShop,
        told,
    })
}

/// A table by its entries.
fn shown(table: &[u8]) -> String {
    table.iter().map(u8::to_string).collect()
}

/// With whom the second implementation agrees.
fn third(job: &[u8], names: [&str; 2], [tested, reference]: [&Given; 2]) -> String {
    let second = caught(|| answers::second(job));
    let compared = second.as_ref().ok().map(Answers::compared);
    let agrees = [
        second.is_ok() && second == *tested,
        compared.is_some() && compared.as_ref() == reference.as_ref().ok(),
    ];
    let alike: Vec<&str> = names
        .into_iter()
        .zip(agrees)
        .filter(|(_, agrees)| *agrees)
        .map(|(name, _)| name)
        .collect();
    match alike[..] {
        [name] => format!("the second implementation agrees with the {name}"),
        _ => "the second implementation agrees with neither".to_string(),
    }
}

/// The first difference of each kind.
fn compare(ours: &Answers, theirs: &Answers, names: [&str; 2], all: &mut Vec<Difference>) {
    let mut pairs: Vec<(&str, Kind, [&Answer; 2])> = Vec::new();
    for stage in Stage::ALL {
        let answers = [ours.stage(stage), theirs.stage(stage)];
        pairs.push((stage.name(), Kind::of_stage(stage), answers));
    }
    pairs.push(("sewing", Kind::Body, [&ours.body, &theirs.body]));
    let mut endings = Vec::new();
    for (operation, kind, [a, b]) in pairs {
        match [a, b] {
            [Ok(ours), Ok(theirs)] if ours != theirs => {
                let told = outputs(kind, names, [ours, theirs]);
                all.push(Difference { kind, told });
            }
            _ if end(a) != end(b) => endings.push(Difference {
                kind: Kind::Refusal,
                told: sides(operation, names, [end(a), end(b)]),
            }),
            _ => {}
        }
    }
    all.extend(endings.into_iter().take(1));
    if ours.body == theirs.body && ours.listing != theirs.listing {
        all.push(Difference {
            kind: Kind::Listing,
            told: lines(names, [&ours.listing, &theirs.listing]),
        });
    }
    all.sort_by_key(|difference| difference.kind);
}

/// Something of both programs, in words.
fn sides<T: fmt::Display>(what: &str, names: [&str; 2], [ours, theirs]: [T; 2]) -> String {
    format!("{what}: {} {ours}, {} {theirs}", names[0], names[1])
}

/// The first difference of two outputs, in words.
fn outputs(kind: Kind, names: [&str; 2], outputs: [&[u8]; 2]) -> String {
    let Kind::Stage(stage) = kind else {
        let listings = outputs.map(text::listing);
        return lines(names, [&listings[0], &listings[1]]);
    };
    let stage = Stage::ALL[stage];
    let fields = format!(" ({})", Kind::fields(stage));
    let words = |record: Vec<u32>| record.iter().map(u32::to_string).collect();
    let records = outputs.map(|bytes| {
        split::records(stage, bytes)
            .into_iter()
            .map(words)
            .collect()
    });
    first_unlike(&fields, names, records)
}

/// The first difference of two listings.
fn lines(names: [&str; 2], listings: [&str; 2]) -> String {
    let words = |line: &str| line.split(' ').map(str::to_string).collect();
    first_unlike(
        "",
        names,
        listings.map(|text| text.lines().map(words).collect()),
    )
}

fn first_unlike(fields: &str, names: [&str; 2], [a, b]: [Vec<Vec<String>>; 2]) -> String {
    let at = (0..a.len().max(b.len())).find(|&i| a.get(i) != b.get(i));
    let Some(at) = at else {
        return "the records are alike, but not the bytes".to_string();
    };
    let what = format!("record {at}{fields}");
    sides(&what, names, window([a.get(at), b.get(at)]))
}

/// Two records in words, those far from the first difference left out.
fn window(records: [Option<&Vec<String>>; 2]) -> [String; 2] {
    let word = |record: Option<&Vec<String>>, i: usize| record.and_then(|r| r.get(i)).cloned();
    let longest = records.iter().flatten().map(|r| r.len()).max().unwrap_or(0);
    let unlike = (0..longest).find(|&i| word(records[0], i) != word(records[1], i));
    let start = unlike.unwrap_or(0).saturating_sub(BEFORE);
    records.map(|record| {
        let Some(record) = record else {
            return "nothing".to_string();
        };
        let (start, end) = (
            start.min(record.len()),
            record.len().min(start + BEFORE + AFTER),
        );
        let before = if start > 0 { ".. " } else { "" };
        let after = if end < record.len() { " .." } else { "" };
        format!("`{before}{}{after}`", record[start..end].join(" "))
    })
}
