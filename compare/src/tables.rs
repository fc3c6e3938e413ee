//! What is asked of sewing and the walk stage with a joining table.
//!
//! The Rust has no table. With the full one everything must be as in ordinary
//! sewing, which is held against it. A lesser one is held against what must be
//! alike and what may only be less, and against ordinary sewing of another job:
//! the one whose surface answers say "different" where the full table joins and
//! this one does not. That is a job without a table, which the Rust sews.

pub mod totals;

use crate::compare::{compare, unlike_faces, unlike_members};
use crate::generate::tables::{Drawn, FULL};
use crate::records;
use crate::second::{self, Job, Question, Refusal, Reply, Sewn, Stage, Supplied, Trail};
use std::collections::BTreeSet;

/// The refusal of a table.
pub const WRONG_TABLE: u32 = 48;

/// One job held with a table.
#[derive(Default)]
pub struct Held {
    pub table: Vec<u8>,
    /// How sewing with the table ends, and ordinary sewing of the same job.
    pub refusal: Option<Refusal>,
    pub ordinary: Option<Refusal>,
    /// Whether a lesser table joins fewer faces than the full one.
    pub fewer: bool,
    /// The surface answers of an accepted job, each by its entry of a table.
    pub entries: BTreeSet<usize>,
    pub differences: Vec<String>,
}

pub fn hold(bytes: &[u8], room: usize, table: &Drawn) -> Held {
    let ordinary = second::sewn(&Supplied::Nothing, bytes);
    let tabled = second::sewn(&table.supplied(), bytes);
    let body = sew_in(&tabled, room);
    let mut held = Held {
        table: table.bytes.clone(),
        refusal: body.as_ref().err().copied(),
        ordinary: sew_in(&ordinary, room).err(),
        ..Held::default()
    };
    let differences = match (table.fault, &ordinary, &tabled) {
        (Some(place), _, _) => not_refused(place, &tabled).into_iter().collect(),
        (None, Ok(ordinary), Ok(tabled)) => {
            let job = second::load(bytes).expect("it was sewn");
            if body.is_ok() {
                held.entries = entries(&job, tabled);
            }
            held.fewer = joins(tabled) < joins(ordinary);
            permitted(bytes, &job, &table.bytes, tabled, ordinary, room)
        }
        (None, _, _) if tabled.as_ref().err() == ordinary.as_ref().err() => Vec::new(),
        (None, _, _) => vec![format!(
            "ordinary {}, with the table {}",
            ended(&ordinary),
            ended(&tabled)
        )],
    };
    held.differences = differences;
    held
}

pub fn sew_in(sewn: &Sewn, room: usize) -> Result<Vec<u8>, Refusal> {
    second::sew_output(sewn.as_ref().map_err(|refusal| *refusal)?, room)
}

pub fn ended(sewn: &Sewn) -> String {
    let refusal = sewn
        .as_ref()
        .map_or_else(|r| Some(*r), |trail| trail.refusal);
    refusal.map_or("accepted".to_string(), |refusal| refusal.to_string())
}

fn joins(trail: &Trail) -> u32 {
    trail.merged.as_ref().map_or(0, |merged| merged.joins)
}

/// A faulty table is refused before anything else.
fn not_refused(place: u32, tabled: &Sewn) -> Option<String> {
    let wanted = Refusal {
        number: WRONG_TABLE,
        place,
    };
    let right = tabled.as_ref().err() == Some(&wanted);
    (!right).then(|| format!("should be {wanted}, second {}", ended(tabled)))
}

/// Where two sewings differ: in a stage, the body, or the questions put.
pub fn unlike(a: &Trail, b: &Trail, room: usize) -> Vec<String> {
    let mut told = Vec::new();
    for stage in Stage::ALL {
        for room in [usize::MAX, room] {
            let output = |trail| second::stage_output(trail, stage, room);
            if output(a) != output(b) {
                told.push(format!("stage {} differs in {room} bytes", stage.name()));
            }
        }
    }
    if second::sew_output(a, room) != second::sew_output(b, room) {
        told.push("the body differs".to_string());
    }
    if a.asked != b.asked {
        told.push("the questions differ".to_string());
    }
    told
}

/// What holds of a permitted table.
fn permitted(
    bytes: &[u8],
    job: &Job,
    table: &[u8],
    tabled: &Trail,
    ordinary: &Trail,
    room: usize,
) -> Vec<String> {
    let whole = second::sew_output(tabled, usize::MAX).unwrap_or_default();
    let mut told: Vec<String> = Vec::new();
    told.extend(questions_differ(tabled, ordinary));
    told.extend(joined_more(table, tabled, ordinary));
    told.extend(left_apart(job, table, tabled));
    told.extend(loops_lack(tabled));
    told.extend(totals_differ(&whole, tabled, ordinary));
    told.extend(unlike_faces(job, &whole));
    told.extend(unlike_members(job, &whole));
    // The same by ordinary sewing alone; with the full table of the job itself.
    let less = joined_less(bytes, table, ordinary);
    match second::sewn(&Supplied::Nothing, &less) {
        Ok(less) => told.extend(unlike(tabled, &less, room)),
        Err(refusal) => told.push(format!("with other answers it is {refusal}")),
    }
    let with_reference = compare(&less, room).differences;
    told.extend(with_reference.into_iter().take(1));
    told
}

/// Reading, pairing and the questions up to merging do not know the table, nor
/// does a refusal there.
fn questions_differ(tabled: &Trail, ordinary: &Trail) -> Option<String> {
    let put = |trail: &Trail| -> Vec<Question> {
        let asked = trail.asked.iter();
        let early = |question: &&Question| matches!(question.kind(), 7 | 8);
        asked.filter(early).cloned().collect()
    };
    if put(tabled) != put(ordinary) || tabled.twins != ordinary.twins {
        return Some("pairs or surface questions differ".to_string());
    }
    let refused = |trail: &Trail| trail.refusal.filter(|_| trail.merged.is_none());
    let (ours, theirs) = (refused(tabled), refused(ordinary));
    (ours != theirs).then(|| format!("up to merging {ours:?}, ordinary {theirs:?}"))
}

/// Groups of a lesser table lie within those of the full one, and so do the uses
/// removed.
fn joined_more(table: &[u8], tabled: &Trail, ordinary: &Trail) -> Option<String> {
    let (ours, full) = (tabled.merged.as_ref()?, ordinary.merged.as_ref()?);
    let reading = tabled.reading.as_ref()?;
    let twins = tabled.twins.as_ref()?;
    let faces = 0..ours.group.len();
    let outside = faces
        .clone()
        .find(|&f| full.group[ours.group[f]] != full.group[f]);
    if let Some(face) = outside {
        return Some(format!("face {face} is joined, and not by the full table"));
    }
    if let Some(h) = (0..twins.len()).find(|&h| ours.removed[h] && !full.removed[h]) {
        return Some(format!("use {h} is removed, and not by the full table"));
    }
    let groups = faces.clone().filter(|&f| ours.group[f] == f).count();
    if ours.joins as usize + groups != ours.group.len() {
        return Some(format!("{} joins leave {groups} groups", ours.joins));
    }
    if ours.boundary != full.boundary {
        return Some("boundaries differ".to_string());
    }
    // A table without a 1 joins nothing, and seams alone go.
    let seam = |h: usize| reading.uses[h].face == reading.uses[twins[h]].face;
    let bare = !table.contains(&1);
    let kept_apart = ours.joins == 0 && (0..twins.len()).all(|h| ours.removed[h] == seam(h));
    (bare && !kept_apart).then(|| "a table of zeros joins faces".to_string())
}

/// Faces are joined over each answer for which the table has a 1.
fn left_apart(job: &Job, table: &[u8], tabled: &Trail) -> Option<String> {
    let group = &tabled.merged.as_ref()?.group;
    let (reading, twins) = (tabled.reading.as_ref()?, tabled.twins.as_ref()?);
    let apart = |question: &&Question| {
        let (Question::Surface { lower_use }, Some(i)) =
            (question, entry_of(job, tabled, question))
        else {
            return false;
        };
        let h = *lower_use as usize;
        table[i] == 1 && group[reading.uses[h].face] != group[reading.uses[twins[h]].face]
    };
    let question = tabled.asked.iter().find(apart)?;
    Some(format!("{question:?} joins no faces"))
}

/// Each kept use stands in one loop, once.
pub fn loops_lack(tabled: &Trail) -> Option<String> {
    let (loops, steps) = (tabled.loops.as_ref()?, tabled.steps.as_ref()?);
    let mut walked: Vec<usize> = loops.iter().flat_map(|l| l.uses.clone()).collect();
    walked.sort_unstable();
    let kept: Vec<usize> = (0..steps.len()).filter(|&h| steps[h].is_some()).collect();
    let removed = &tabled.merged.as_ref()?.removed;
    let right = walked == kept && kept.iter().all(|&h| !removed[h]);
    (!right).then(|| format!("loops of {walked:?}, kept {kept:?}"))
}

/// Uses, removed ones, those passed over and face joins, as the body counts them.
fn totals_differ(body: &[u8], tabled: &Trail, ordinary: &Trail) -> Option<String> {
    let (list, _) = records::split(body);
    let (_, totals) = list.first()?;
    let uses = ordinary.reading.as_ref()?.uses.len();
    let steps = tabled.steps.as_ref()?;
    let kept = steps.iter().flatten();
    let passed: u32 = kept.clone().map(|step| step.passed).sum();
    let counted = [uses as u32, (uses - kept.count()) as u32, passed];
    let wanted = [&counted[..], &[joins(tabled)]].concat();
    let written = [&totals[1..4], &totals[6..]].concat();
    (written != wanted).then(|| format!("totals {written:?}, counted {wanted:?}"))
}

/// The entry of a table for each surface answer 1 or 2 of a pair.
fn entry(job: &Job, trail: &Trail, lower_use: u32, value: u32) -> Option<usize> {
    let (reading, twins) = (trail.reading.as_ref()?, trail.twins.as_ref()?);
    let h = lower_use as usize;
    let stored = |h: usize| {
        let face = &job.faces[reading.uses[h].face];
        face.own == face.selected
    };
    let different = stored(h) != stored(twins[h]);
    match value {
        1 | 2 => Some(2 * (value as usize - 1) + usize::from(different)),
        _ => None,
    }
}

/// The same of a question that was put.
fn entry_of(job: &Job, trail: &Trail, question: &Question) -> Option<usize> {
    match (question, job.answers.get(question)) {
        (Question::Surface { lower_use }, Some(Reply::Value(value))) => {
            entry(job, trail, *lower_use, *value)
        }
        _ => None,
    }
}

/// The entries of a table that the answers to the questions put come to.
fn entries(job: &Job, trail: &Trail) -> BTreeSet<usize> {
    let of = |question: &Question| entry_of(job, trail, question);
    trail.asked.iter().filter_map(of).collect()
}

/// The job with 0 for each surface answer that the full table joins and this one
/// does not.
pub fn joined_less(bytes: &[u8], table: &[u8], ordinary: &Trail) -> Vec<u8> {
    let Ok(job) = second::load(bytes) else {
        return bytes.to_vec();
    };
    let (mut list, _) = records::split(bytes);
    for (kind, fields) in &mut list {
        if *kind == 8
            && let Some(i) = entry(&job, ordinary, fields[0], fields[1])
            && table[i] < FULL[i]
        {
            fields[1] = 0;
        }
    }
    records::to_bytes(&list)
}
