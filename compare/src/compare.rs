//! Holds the reference against the second implementation on one job.

use crate::compared::{UNLOADED, compared, in_room, lacking};
use crate::features::features;
use crate::records;
use crate::second::{self, Job, Refusal, Stage, Trail};
use crate::text;
use reference::{Ending, Observed};
use std::panic::{AssertUnwindSafe, catch_unwind};

/// Bytes that a listing program lends for the body.
pub const ROOM: usize = 65_536;

#[derive(Default)]
pub struct Compared {
    /// Refusal of sewing by the second implementation, in the room given.
    pub refusal: Option<Refusal>,
    /// The job as loaded; none after a load refusal.
    pub job: Option<Job>,
    /// Kinds of the questions put.
    pub kinds: Vec<u32>,
    /// What an accepted job has in it.
    pub features: Vec<&'static str>,
    /// What the reference gives of a job that loads.
    pub reference: Option<Reference>,
    pub differences: Vec<String>,
}

/// The reference's body in the room given, with what it has of one, and the fan
/// and the point of each kept use that has ends.
pub struct Reference {
    pub body: Result<Vec<u8>, Ending>,
    pub fans: Observed,
}

pub fn compare(bytes: &[u8], room: usize) -> Compared {
    let job = match second::load(bytes) {
        Ok(job) => job,
        Err(refusal) => return refused_at_load(refusal),
    };
    let both = catch_unwind(AssertUnwindSafe(|| compare_loaded(bytes, &job, room)));
    let mut compared = both.unwrap_or_else(|_| Compared {
        differences: vec!["an implementation stopped by itself".to_string()],
        ..Compared::default()
    });
    compared.job = Some(job);
    compared
}

/// Load refusals, 45 among them, have no counterpart in the reference.
fn refused_at_load(refusal: Refusal) -> Compared {
    let known = UNLOADED.contains(&refusal.number);
    let other = (!known).then(|| format!("{refusal} is no load refusal"));
    Compared {
        refusal: Some(refusal),
        differences: other.into_iter().collect(),
        ..Compared::default()
    }
}

fn compare_loaded(bytes: &[u8], job: &Job, room: usize) -> Compared {
    let verdict = reference::observe(bytes);
    let trail = second::sew(job, &mut &job.answers);
    let mut differences = verdict.oddities.clone();
    compare_stages(&trail, &verdict.stages, &mut differences);
    let whole = second::sew_output(&trail, usize::MAX).unwrap_or_default();
    differences.extend(unlike_faces(job, &whole));
    differences.extend(unlike_members(job, &whole));
    differences.extend(member_twice(&whole));
    let body = second::sew_output(&trail, room);
    let reference = in_room(verdict.body, lacking(&whole), room);
    compare_bodies(&body, &reference, &mut differences);
    compare_questions(&trail, &verdict.asked, &mut differences);
    let kinds = trail.asked.iter().map(|question| question.kind());
    let features = match body {
        Ok(_) => features(job, &trail),
        Err(_) => Vec::new(),
    };
    Compared {
        refusal: body.err(),
        job: None,
        kinds: kinds.collect(),
        features,
        reference: Some(Reference {
            body: reference,
            fans: verdict.stages[Stage::Fans as usize].clone(),
        }),
        differences,
    }
}

/// Faces selected less face joins equals faces written.
pub fn unlike_faces(job: &Job, body: &[u8]) -> Option<String> {
    let (list, _) = records::split(body);
    let (_, totals) = list.first()?;
    let (selected, joins) = (job.faces.len(), totals[6] as usize);
    let written = list.iter().filter(|(kind, _)| *kind == 24).count();
    let told = format!("{selected} faces selected, {joins} face joins, {written} faces written");
    (selected != joins + written).then_some(told)
}

/// Each face of the body is followed by its members, and each selected face
/// stands in exactly one such record.
pub fn unlike_members(job: &Job, body: &[u8]) -> Option<String> {
    let (list, _) = records::split(body);
    let after = |pair: &[records::Record]| (pair[0].0 == 24) == (pair[1].0 == 29);
    let mut told = members(&list);
    let selected = job.faces.iter().map(|face| vec![face.body, face.source]);
    let mut selected: Vec<Vec<u32>> = selected.collect();
    let written = !list.is_empty();
    told.sort_unstable();
    selected.sort_unstable();
    let unlike = !list.windows(2).all(after) || (written && told != selected);
    unlike.then(|| format!("members {told:?} of the faces {selected:?}"))
}

/// Body and source of all members of a body.
fn members(list: &[records::Record]) -> Vec<Vec<u32>> {
    let members = list.iter().filter(|(kind, _)| *kind == 29);
    let fields = members.flat_map(|(_, fields)| fields.chunks(2));
    fields.map(<[u32]>::to_vec).collect()
}

/// No body and source stand twice among the members of all faces.
fn member_twice(body: &[u8]) -> Option<String> {
    let mut told = members(&records::split(body).0);
    told.sort_unstable();
    let twice = told.windows(2).find(|pair| pair[0] == pair[1])?;
    Some(format!("member {:?} stands twice in a body", twice[0]))
}

pub fn ending(refusal: Refusal) -> Ending {
    (refusal.number, refusal.place)
}

fn compare_stages(trail: &Trail, found: &[reference::Observed], differences: &mut Vec<String>) {
    for (stage, reference) in Stage::ALL.into_iter().zip(found) {
        let ours = second::stage_output(trail, stage, usize::MAX).map_err(ending);
        if ours != *reference {
            let name = stage.name();
            differences.push(format!(
                "stage {name}: reference {}, second {}",
                shown(reference, |r| text::field_lines(r)),
                shown(&ours, |r| text::field_lines(r))
            ));
        }
    }
}

fn compare_bodies(
    ours: &Result<Vec<u8>, Refusal>,
    reference: &Result<Vec<u8>, Ending>,
    differences: &mut Vec<String>,
) {
    let ours = ours.as_deref().map(compared).map_err(|r| ending(*r));
    if ours != *reference {
        differences.push(format!(
            "sewing: reference {}, second {}",
            shown(reference, |body| text::listing(body)),
            shown(&ours, |body| text::listing(body))
        ));
    }
}

/// A result in one line.
fn shown<T>(result: &Result<T, Ending>, text: impl Fn(&T) -> String) -> String {
    match result {
        Ok(value) => format!("[{}]", text(value).trim_end().replace('\n', "; ")),
        Err((number, place)) => format!("refused {number} {place}"),
    }
}

fn compare_questions(trail: &Trail, reference: &[Vec<u32>], differences: &mut Vec<String>) {
    let ours: Vec<Vec<u32>> = trail
        .asked
        .iter()
        .map(|question| {
            let mut numbers = question.numbers();
            numbers.insert(0, question.kind());
            numbers
        })
        .collect();
    if ours != reference {
        let first = ours
            .iter()
            .zip(reference)
            .take_while(|(a, b)| a == b)
            .count();
        differences.push(format!(
            "question {first}: reference {:?}, second {:?}",
            reference.get(first),
            ours.get(first)
        ));
    }
}
