//! What is asked of sewing for a print shop.
//!
//! The Rust has no such entry, but it has what document 02 asks of one: the body
//! of an accepted job is the Rust's, and a job with neither fault ends as in the
//! Rust. Both faults are worked out here by other means than sewing for print: 10,
//! 11 and 41 by the uses of each edge, counted in the job, and 42 by the fans that
//! the Rust gives. So they are known before, and any other ending disagrees.

pub mod sorts;
pub mod totals;

use crate::compare::{Compared, Reference, ending};
use crate::compared::compared;
use crate::demand;
use crate::records;
use crate::second::job::Loop;
use crate::second::{self, Job, Refusal, Sewn, Stage, Supplied, Trail};
use crate::tables::{ended, sew_in, unlike};
use reference::Records;
use std::collections::{BTreeMap, BTreeSet};

/// The refusals of an edge with more than two uses and of a point with more than
/// one fan.
pub const MANY_USES: u32 = 41;
pub const MANY_FANS: u32 = 42;

/// All refusals that there are for a print shop: 12, 13, 23 and 30 to 33 are not.
const NUMBERS: [u32; 17] = [
    1, 2, 3, 4, 5, 6, 7, 45, 10, 11, MANY_USES, 20, 21, 22, MANY_FANS, 34, 40,
];

/// One job held as sewn for a print shop.
#[derive(Default)]
pub struct Held {
    /// How it ends, and ordinary sewing of the same job.
    pub refusal: Option<Refusal>,
    pub ordinary: Option<Refusal>,
    /// What there is about how it ends.
    pub sorts: Vec<String>,
    pub differences: Vec<String>,
}

/// Holds sewing for print against what the reference gave of the same job.
pub fn hold(bytes: &[u8], room: usize, with_reference: &Compared) -> Held {
    let ordinary = second::sewn(&Supplied::Nothing, bytes);
    let printed = second::sewn(&Supplied::PrintShop, bytes);
    let body = sew_in(&printed, room);
    let mut held = Held {
        refusal: body.as_ref().err().copied(),
        ordinary: sew_in(&ordinary, room).err(),
        ..Held::default()
    };
    held.differences = match (&with_reference.job, &ordinary, &printed) {
        (Some(job), Ok(ordinary), Ok(printed)) => {
            let Some(reference) = &with_reference.reference else {
                // It stopped by itself, which is told.
                return held;
            };
            let fault = fault(job, reference);
            let trails = [printed, ordinary];
            let mut told = differences(job, fault, trails, room);
            told.extend(unlike_reference(fault, &body, reference));
            if told.is_empty() {
                held.sorts = sorts::of(job, with_reference, ordinary, held.refusal);
            }
            told
        }
        _ if printed.as_ref().err() == ordinary.as_ref().err() => Vec::new(),
        _ => vec![differ(&ordinary, &printed)],
    };
    held.differences.extend(not_a_number(held.refusal));
    held
}

fn differ(ordinary: &Sewn, printed: &Sewn) -> String {
    let (ordinary, printed) = (ended(ordinary), ended(printed));
    format!("ordinary {ordinary}, for print {printed}")
}

/// How many uses of each sense an edge has in the selected faces, each edge in
/// turn. A face selected Reversed turns the senses of its uses.
pub fn counted(job: &Job) -> Vec<[usize; 2]> {
    let mut counts = vec![[0, 0]; job.edges.len()];
    for face in &job.faces {
        let uses = face.loops.iter().flat_map(|l| match l {
            Loop::Uses(uses) => &uses[..],
            Loop::Vertex(_) => &[],
        });
        for (edge, sense) in uses {
            let turned = *sense != face.selected;
            counts[*edge][usize::from(turned)] += 1;
        }
    }
    counts
}

/// The refusal of an edge with so many uses of each sense.
fn of_edge(edge: usize, uses: [usize; 2]) -> Option<Refusal> {
    let number = match uses {
        [0, 0] | [1, 1] => return None,
        [2, 0] | [0, 2] => 10,
        [a, b] if !(a + b).is_multiple_of(2) => 11,
        _ => MANY_USES,
    };
    let place = edge as u32;
    Some(Refusal { number, place })
}

/// The fans at each point, by the reference's records of use, fan and point.
pub fn fans_by_point(fans: &Records) -> BTreeMap<u32, BTreeSet<u32>> {
    let mut at: BTreeMap<u32, BTreeSet<u32>> = BTreeMap::new();
    for record in fans {
        at.entry(record[2]).or_default().insert(record[1]);
    }
    at
}

/// What a print shop must be told: the lowest edge that does not pair, else, where
/// the walks are known, the lowest point of several fans.
fn fault(job: &Job, reference: &Reference) -> Option<Refusal> {
    let mut edges = counted(job).into_iter().enumerate();
    let of_edges = edges.find_map(|(edge, uses)| of_edge(edge, uses));
    of_edges.or_else(|| {
        let points = fans_by_point(reference.fans.as_ref().ok()?);
        let (place, _) = points.into_iter().find(|(_, fans)| fans.len() > 1)?;
        let number = MANY_FANS;
        Some(Refusal { number, place })
    })
}

/// Where sewing for print and ordinary sewing are not as the fault has it.
fn differences(job: &Job, fault: Option<Refusal>, trails: [&Trail; 2], room: usize) -> Vec<String> {
    let [printed, ordinary] = trails;
    let Some(wanted) = fault else {
        let mut told = unlike(printed, ordinary, room);
        if let Ok(body) = second::sew_output(printed, usize::MAX) {
            told.extend(demand::unmet(printed, &body));
            told.extend(not_for_print(job, &body));
        }
        return told;
    };
    let mut told = Vec::new();
    if printed.refusal != Some(wanted) {
        let ending = printed.refusal;
        told.push(format!("should be {wanted}, second {ending:?}"));
    }
    told.extend(asked_more(wanted, trails));
    told.extend(gone_further(wanted, trails));
    told
}

/// Pairing puts no question, and 42 comes right after the walks: those of surfaces
/// and of vertex loops are put, and no others.
fn asked_more(wanted: Refusal, [printed, ordinary]: [&Trail; 2]) -> Option<String> {
    let asked = ordinary.asked.iter();
    let before = asked.filter(|question| matches!(question.kind(), 8 | 9));
    let right = match wanted.number {
        MANY_FANS => printed.asked.iter().eq(before),
        _ => printed.asked.is_empty(),
    };
    (!right).then(|| format!("{wanted}, questions {:?}", printed.asked))
}

/// The stages before the fault are those of ordinary sewing, and no later one is
/// reached.
fn gone_further(wanted: Refusal, [printed, ordinary]: [&Trail; 2]) -> Option<String> {
    let last = match wanted.number {
        MANY_FANS => Stage::Fans,
        _ => Stage::Read,
    };
    let wrong = Stage::ALL.into_iter().find(|&stage| {
        let output = |trail| second::stage_output(trail, stage, usize::MAX);
        match stage as usize <= last as usize {
            true => output(printed) != output(ordinary),
            false => output(printed) != Err(wanted),
        }
    })?;
    Some(format!("{wanted}, stage {}", wrong.name()))
}

/// A job with neither fault ends as the reference does, an accepted one with its
/// body.
fn unlike_reference(
    fault: Option<Refusal>,
    body: &Result<Vec<u8>, Refusal>,
    reference: &Reference,
) -> Option<String> {
    let ours = body.as_deref().map(compared).map_err(|r| ending(*r));
    let unlike = match fault {
        None => ours != reference.body,
        Some(_) => ours.is_ok(),
    };
    unlike.then(|| match &ours {
        Ok(_) => "another body than the reference's, or none is due".to_string(),
        Err((number, place)) => format!("refused {number} {place}, not as the reference"),
    })
}

/// Each edge of a body has two uses, one in each sense, and no point stands twice
/// among its vertices; and of the job each edge has two uses or none.
fn not_for_print(job: &Job, body: &[u8]) -> Option<String> {
    let (list, _) = records::split(body);
    let of_kind = |wanted: u16| {
        let of_kind = list.iter().filter(move |(kind, _)| *kind == wanted);
        of_kind.flat_map(|(_, fields)| fields.clone())
    };
    let items: Vec<u32> = of_kind(25).collect();
    let mut items: Vec<[u32; 2]> = items.chunks(2).map(|item| [item[0], item[1]]).collect();
    items.sort_unstable();
    let edges = list.iter().filter(|(kind, _)| *kind == 23).count() as u32;
    let wanted = (0..edges).flat_map(|edge| [[edge, 0], [edge, 1]]);
    if !wanted.eq(items.iter().copied()) {
        return Some(format!("{edges} edges have the uses {items:?}"));
    }
    let points: Vec<u32> = of_kind(22).collect();
    let apart: BTreeSet<&u32> = points.iter().collect();
    if apart.len() < points.len() {
        return Some(format!("a point stands twice among {points:?}"));
    }
    let many = counted(job).into_iter().position(|[a, b]| a + b > 2);
    many.map(|edge| format!("accepted with more than two uses of edge {edge}"))
}

/// A refusal that a print shop cannot meet.
fn not_a_number(refusal: Option<Refusal>) -> Option<String> {
    let refusal = refusal?;
    let round = matches!(refusal.number, 20 | 21) && refusal.place == 7;
    let known = NUMBERS.contains(&refusal.number) && !round;
    (!known).then(|| format!("{refusal} is no ending for a print shop"))
}
