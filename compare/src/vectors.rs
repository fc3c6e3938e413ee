//! `vectors`: jobs with their answers in one packed file.

use crate::cli::Failed;
use crate::compare::{ROOM, compare};
use crate::generate::rng::Rng;
use crate::generate::tables::{Drawn, FAULTY, FULL, LESSER, suited};
use crate::generate::{self, CLASSES, Sample, limits};
use crate::print_shop::{self, MANY_FANS, MANY_USES, sorts};
use crate::run::{self, judge};
use crate::second::load::MAX_BYTES;
use crate::second::{self, Refusal, Sewn, Stage, Supplied};
use crate::tables;
use crate::twice;
use std::collections::{BTreeMap, BTreeSet};

/// Bytes the file may have at most.
const MOST: usize = 3_000_000;
/// Bytes of most jobs.
const SMALL: usize = 1_000;
/// Bytes of some accepted jobs, which have more in them.
const MIDDLING: usize = 4_000;
/// Bytes of some jobs of many faces, refused with 45.
const LONG: usize = 8_000;
/// Jobs drawn of each class.
const DRAWN: u64 = 3_000;
/// Jobs kept for a table of each class, and of each refusal.
const SUITED: usize = 2;
/// Jobs drawn of each class for a print shop.
const DRAWN_FOR_PRINT: u64 = 1_800;
/// Jobs kept for a print shop of each ending, of each that it comes before, and of
/// each sort.
const PRINTED: usize = 2;
/// Longest body that is written out.
const WRITTEN_OUT: usize = 4_096;

/// Every refusal number.
const NUMBERS: [u32; 21] = [
    1, 2, 3, 4, 5, 6, 7, 10, 11, 12, 13, 20, 21, 22, 23, 30, 31, 32, 33, 34, 45,
];

/// Document 01's parts as text.
const PARTS: [&str; 9] = [
    include_str!("../parts/P1.txt"),
    include_str!("../parts/P2.txt"),
    include_str!("../parts/P3.txt"),
    include_str!("../parts/P4.txt"),
    include_str!("../parts/P5.txt"),
    include_str!("../parts/P6.txt"),
    include_str!("../parts/P7.txt"),
    include_str!("../parts/P8.txt"),
    include_str!("../parts/P9.txt"),
];

/// The parts for a print shop.
const PRINT_SHOP_PARTS: [&str; 39] = [
    include_str!("../parts/requests/two-before-31.txt"),
    include_str!("../parts/requests/two-before-34.txt"),
    include_str!("../parts/requests/two-before-eleven.txt"),
    include_str!("../parts/requests/two-before-joining.txt"),
    include_str!("../parts/requests/two-before-ten.txt"),
    include_str!("../parts/requests/two-both.txt"),
    include_str!("../parts/requests/two-edge-not-use.txt"),
    include_str!("../parts/requests/two-eleven-first.txt"),
    include_str!("../parts/requests/two-equal-senses.txt"),
    include_str!("../parts/requests/two-five-uses.txt"),
    include_str!("../parts/requests/two-four-uses.txt"),
    include_str!("../parts/requests/two-higher-points.txt"),
    include_str!("../parts/requests/two-highest-point.txt"),
    include_str!("../parts/requests/two-joined.txt"),
    include_str!("../parts/requests/two-loading-first.txt"),
    include_str!("../parts/requests/two-lower-than-31.txt"),
    include_str!("../parts/requests/two-lowest-point.txt"),
    include_str!("../parts/requests/two-lump.txt"),
    include_str!("../parts/requests/two-no-faces.txt"),
    include_str!("../parts/requests/two-no-fan-left.txt"),
    include_str!("../parts/requests/two-one-fan-two-vertices.txt"),
    include_str!("../parts/requests/two-opposed.txt"),
    include_str!("../parts/requests/two-other-points.txt"),
    include_str!("../parts/requests/two-point-zero.txt"),
    include_str!("../parts/requests/two-removed.txt"),
    include_str!("../parts/requests/two-rings.txt"),
    include_str!("../parts/requests/two-seam.txt"),
    include_str!("../parts/requests/two-six-uses.txt"),
    include_str!("../parts/requests/two-surfaces-first.txt"),
    include_str!("../parts/requests/two-ten-first.txt"),
    include_str!("../parts/requests/two-three-uses.txt"),
    include_str!("../parts/requests/two-touching.txt"),
    include_str!("../parts/requests/two-two-such-edges.txt"),
    include_str!("../parts/requests/two-two-vertices.txt"),
    include_str!("../parts/requests/two-undecided.txt"),
    include_str!("../parts/requests/two-vertex-loop.txt"),
    include_str!("../parts/requests/two-vertex-loops-first.txt"),
    include_str!("../parts/requests/two-walls-removed.txt"),
    include_str!("../parts/requests/two-walls.txt"),
];

pub struct Packed {
    pub bytes: Vec<u8>,
    pub jobs: usize,
}

pub fn vectors(seed: u64) -> Result<Packed, Failed> {
    let mut jobs: Vec<(Vec<u8>, usize)> = Vec::new();
    for part in PARTS {
        let job = job_text::assemble(part.as_bytes());
        jobs.push((job.map_err(|_| "a part is wrong")?, ROOM));
    }
    let mut met = BTreeSet::new();
    drawn_jobs(seed, &mut jobs, &mut met)?;
    limit_jobs(seed, &mut jobs, &mut met)?;
    if let Some(number) = NUMBERS.iter().find(|number| !met.contains(number)) {
        return Err(format!("no job with refusal {number} was drawn"));
    }
    let given = jobs.into_iter().enumerate();
    let mut all: Vec<(Vec<u8>, usize, Vec<Drawn>)> = given
        .map(|(i, (job, room))| {
            let tables = tables_for(i, &job);
            (job, room, tables)
        })
        .collect();
    let suited = suited_jobs(seed, SMALL, SUITED)?.into_iter();
    all.extend(suited.map(|(job, table)| (job, ROOM, vec![table])));
    let printed = print_shop_parts()?.into_iter();
    let printed = printed.chain(printed_jobs(seed, SMALL, PRINTED)?);
    all.extend(printed.map(|job| (job, ROOM, Vec::new())));
    let mut bytes = (all.len() as u32).to_le_bytes().to_vec();
    for (job, room, tables) in &all {
        agreed(job, tables)?;
        pack(&mut bytes, job, *room, tables);
    }
    if bytes.len() >= MOST {
        return Err(format!("{} bytes are too many", bytes.len()));
    }
    Ok(Packed {
        bytes,
        jobs: all.len(),
    })
}

/// The jobs of the parts for a print shop.
pub fn print_shop_parts() -> Result<Vec<Vec<u8>>, Failed> {
    let jobs = PRINT_SHOP_PARTS.map(|part| job_text::assemble(part.as_bytes()));
    let jobs: Result<Vec<Vec<u8>>, _> = jobs.into_iter().collect();
    jobs.map_err(|_| "a part for a print shop is wrong".to_string())
}

/// The tables for a job: all that are permitted for a part, one of them for the
/// others in turn, and for some a faulty one.
fn tables_for(number: usize, job: &[u8]) -> Vec<Drawn> {
    let permitted = [FULL, LESSER[0], LESSER[1], LESSER[2]];
    let mut tables: Vec<Drawn> = match number < PARTS.len() {
        true => permitted.map(Drawn::permitted).to_vec(),
        false => vec![Drawn::permitted(permitted[number % 4])],
    };
    if number.is_multiple_of(3) || job.len() > MAX_BYTES {
        tables.push(Drawn::faulty(FAULTY[number / 3 % FAULTY.len()]));
    }
    tables
}

/// Jobs of every class for each lesser table that joins fewer faces than the full
/// one: so many accepted of a class, and so many of each refusal that is not the
/// ordinary one. None is longer than so many bytes.
pub fn suited_jobs(
    seed: u64,
    longest: usize,
    most: usize,
) -> Result<Vec<(Vec<u8>, Drawn)>, Failed> {
    let mut jobs = Vec::new();
    let mut kept: BTreeMap<SuitedSort, usize> = BTreeMap::new();
    let draws = (0..CLASSES.len()).flat_map(|c| (0..DRAWN).map(move |i| (c, i)));
    for (c, i) in draws {
        let Some((job, table, sort)) = suited_job(seed, c, i, longest)? else {
            continue;
        };
        let count = kept.entry(sort).or_default();
        if *count < most {
            *count += 1;
            jobs.push((job, table));
        }
    }
    Ok(jobs)
}

/// A lesser table, and the class of a job that is accepted with it or the refusal
/// of one that is not.
type SuitedSort = (Vec<u8>, Result<&'static str, (u32, u32)>);

/// The job drawn so of a class, made to suit a lesser table, if the table joins
/// fewer faces than the full one and the job is not refused as it is without it.
fn suited_job(
    seed: u64,
    c: usize,
    i: u64,
    longest: usize,
) -> Result<Option<(Vec<u8>, Drawn, SuitedSort)>, Failed> {
    let (class, _) = CLASSES[c];
    let mut rng = Rng::new(seed, (c as u64) << 32 | i);
    let table = Drawn::permitted(LESSER[i as usize % LESSER.len()]);
    let job = generate::sample_of(class, &mut rng).job;
    if job.len() > longest {
        return Ok(None);
    }
    let job = suited(&job, &table, &mut rng.apart(49));
    let held = tables::hold(&job, ROOM, &table);
    if let Some(difference) = held.differences.first() {
        return Err(format!("{class} job {i} with a table: {difference}"));
    }
    let as_without = held.refusal.is_some() && held.refusal == held.ordinary;
    if job.len() > longest || !held.fewer || as_without {
        return Ok(None);
    }
    let sort = match held.refusal {
        None => Ok(class),
        Some(refusal) => Err(sort_of_ending(refusal)),
    };
    let sort = (table.bytes.clone(), sort);
    Ok(Some((job, table, sort)))
}

/// Jobs for a print shop, of every class and none longer than so many bytes: so many
/// of each ending, of each ending that 41 and 42 come before, and of each sort.
pub fn printed_jobs(seed: u64, longest: usize, most: usize) -> Result<Vec<Vec<u8>>, Failed> {
    let mut jobs = Vec::new();
    let mut kept: BTreeMap<String, usize> = BTreeMap::new();
    let draws = (0..CLASSES.len()).flat_map(|c| (0..DRAWN_FOR_PRINT).map(move |i| (c, i)));
    for (c, i) in draws {
        let (class, _) = CLASSES[c];
        let mut rng = Rng::new(seed, (c as u64) << 32 | i);
        let sample = generate::sample_of(class, &mut rng);
        let job = run::for_print(&sample.job, seed, (c as u64) << 32 | i);
        if job.len() > longest || second::load(&job).is_err() {
            continue;
        }
        let sorts =
            sorts_for_print(&job).map_err(|told| format!("{class} job {i} for print: {told}"))?;
        let few = |sort: &String| kept.get(sort).is_none_or(|count| *count < most);
        if sorts.iter().any(few) {
            for sort in sorts {
                *kept.entry(sort).or_default() += 1;
            }
            jobs.push(job);
        }
    }
    Ok(jobs)
}

/// The sorts of a job's ending for print, with the ordinary one that a fault comes
/// before; or a difference.
fn sorts_for_print(job: &[u8]) -> Result<Vec<String>, String> {
    let compared = compare(job, ROOM);
    let held = print_shop::hold(job, ROOM, &compared);
    if let Some(difference) = compared
        .differences
        .into_iter()
        .chain(held.differences)
        .next()
    {
        return Err(difference);
    }
    let fault = held
        .refusal
        .filter(|refusal| [MANY_USES, MANY_FANS].contains(&refusal.number));
    let ending = match fault {
        Some(fault) => format!("{} before {}", fault.number, sorts::ending(held.ordinary)),
        None => format!("{} for print", sorts::ending(held.refusal)),
    };
    Ok(held.sorts.into_iter().chain([ending]).collect())
}

/// Jobs of every class, mostly small ones, a few for each ending.
fn drawn_jobs(
    seed: u64,
    jobs: &mut Vec<(Vec<u8>, usize)>,
    met: &mut BTreeSet<u32>,
) -> Result<(), Failed> {
    for (c, (class, _)) in CLASSES.into_iter().enumerate() {
        if class == "limits" || class == "large" {
            continue;
        }
        let mut kept: BTreeMap<(bool, u32, u32, u32), usize> = BTreeMap::new();
        for i in 0..DRAWN {
            let mut rng = Rng::new(seed, (c as u64) << 32 | i);
            let sample = generate::sample_of(class, &mut rng);
            let compared = judge(&sample);
            if let Some(difference) = compared.differences.first() {
                return Err(format!("{class} job {i}: {difference}"));
            }
            let ending = compared
                .refusal
                .map(|refusal| sort_of_job(&sample.job, refusal));
            let (number, kind) = ending.unwrap_or((0, 0));
            let small = sample.job.len() <= SMALL;
            let beside = beside(class, &sample.job, number);
            let count = kept.entry((small, number, kind, beside)).or_default();
            if *count < most_kept(class, sample.job.len(), number) {
                *count += 1;
                met.insert(number);
                jobs.push((sample.job, sample.room));
            }
        }
    }
    Ok(())
}

/// How many jobs of a class with one ending are kept. Answers are missing in
/// many classes; their own classes show that best. Faces that are far from each
/// other need a long job.
fn most_kept(class: &str, length: usize, number: u32) -> usize {
    match number {
        45 => usize::from(length <= LONG),
        0 if class == "repeats" && length <= MIDDLING => 1,
        5 if class == "repeats" => 2,
        _ if length > MIDDLING => 0,
        0 if length > SMALL => 4,
        _ if length > SMALL => 0,
        0 => 14,
        20 if class != "missing" => 1,
        21 if class != "undecided" => 1,
        3 | 4 => 2,
        _ => 4,
    }
}

/// Number, and the kind for refusals 20 and 21.
pub fn sort_of_ending(refusal: Refusal) -> (u32, u32) {
    match refusal.number {
        20 | 21 => (refusal.number, refusal.place),
        number => (number, 0),
    }
}

/// The same, for refusals 3 and 4 with the kind of the refused record, if it
/// has one.
fn sort_of_job(job: &[u8], refusal: Refusal) -> (u32, u32) {
    let kind = job.get(refusal.place as usize + 4..);
    match (refusal.number, kind) {
        (3 | 4, Some([kind @ 1..=13, 0, ..])) => (refusal.number, u32::from(*kind)),
        _ => sort_of_ending(refusal),
    }
}

/// What else there is in a job of faces selected twice. Beside 45 it is another
/// refusal or, alone, how far the faces are apart and how alike they are; beside
/// another refusal, whether a face is selected twice at or after it. Of a job
/// without such faces it is how close they are.
pub fn beside(class: &str, job: &[u8], number: u32) -> u32 {
    if class != "repeats" {
        return 0;
    }
    match twice::sort(job) {
        Some(sort) if (number, sort.beside) == (45, 0) => {
            let alike = 2 * u32::from(sort.alike) + u32::from(sort.chained);
            100 + 4 * sort.doublings + alike
        }
        Some(sort) => 1 + sort.beside,
        None if number == 0 => {
            let faces = twice::faces(job).into_iter();
            let close = twice::close(faces.map(|(_, fields)| (fields[3], fields[4])));
            let bits = close.into_iter().map(u32::from);
            bits.fold(0, |bits, bit| 2 * bits + bit)
        }
        None => 0,
    }
}

/// Jobs at each limit and one past it.
fn limit_jobs(
    seed: u64,
    jobs: &mut Vec<(Vec<u8>, usize)>,
    met: &mut BTreeSet<u32>,
) -> Result<(), Failed> {
    for sort in 0..limits::SORTS {
        for past in [false, true] {
            let mut rng = Rng::new(seed, u64::MAX - (2 * sort + usize::from(past)) as u64);
            let (job, expected) = limits::limited(sort, past, &mut rng);
            let sample = Sample {
                class: "limits",
                job,
                room: ROOM,
                expected,
            };
            let compared = judge(&sample);
            if let Some(difference) = compared.differences.first() {
                return Err(format!("limit {sort}: {difference}"));
            }
            met.extend(compared.refusal.map(|refusal| refusal.number));
            jobs.push((sample.job, ROOM));
        }
    }
    Ok(())
}

fn agreed(job: &[u8], tables: &[Drawn]) -> Result<(), Failed> {
    let with_tables = tables.iter().map(|table| tables::hold(job, ROOM, table));
    let compared = compare(job, ROOM);
    let mut differences = print_shop::hold(job, ROOM, &compared).differences;
    differences.extend(compared.differences);
    differences.extend(with_tables.flat_map(|held| held.differences));
    match differences.into_iter().next() {
        None => Ok(()),
        Some(difference) => Err(difference),
    }
}

/// The refusal of an operation, or the bytes it writes.
pub type Answer = Result<Vec<u8>, Refusal>;

fn pack(out: &mut Vec<u8>, job: &[u8], room: usize, tables: &[Drawn]) {
    put(out, job.len() as u32);
    out.extend(job);
    let sewn = second::sewn(&Supplied::Nothing, job);
    let body = sew_answer(&sewn, ROOM);
    let rooms = rooms(&body, room);
    put(out, (14 + rooms.len() + 2 * tables.len()) as u32);
    put_answer(out, 0, &body);
    put_body(out, &body);
    for (i, stage) in Stage::ALL.into_iter().enumerate() {
        put_answer(out, 1 + i as u32, &stage_answer(&sewn, stage));
    }
    put_answer(out, 12, &Ok(all_requests(job)));
    for room in rooms {
        put(out, 13);
        put(out, room as u32);
        let body = sew_answer(&sewn, room);
        put_ending(out, &body);
        put_body(out, &body);
    }
    for table in tables {
        let sewn = second::sewn(&table.supplied(), job);
        put_table(out, 14, &table.bytes);
        let body = sew_answer(&sewn, ROOM);
        put_ending(out, &body);
        put_body(out, &body);
        put_table(out, 15, &table.bytes);
        put_ending(out, &stage_answer(&sewn, Stage::Walk));
    }
    let for_print = sew_answer(&second::sewn(&Supplied::PrintShop, job), ROOM);
    put_answer(out, 16, &for_print);
    put_body(out, &for_print);
}

/// An operation with a table, and the table.
fn put_table(out: &mut Vec<u8>, operation: u32, table: &[u8]) {
    put(out, operation);
    put(out, table.len() as u32);
    out.extend(table);
}

/// Rooms to sew in: about the length of the body, and the job's own.
fn rooms(body: &Answer, room: usize) -> Vec<usize> {
    let mut rooms = match body {
        Ok(bytes) => vec![0, bytes.len() - 1, bytes.len()],
        Err(_) => vec![0],
    };
    if room != ROOM && !rooms.contains(&room) {
        rooms.push(room);
    }
    rooms
}

pub fn sew_answer(sewn: &Sewn, room: usize) -> Answer {
    second::sew_output(sewn.as_ref().map_err(|refusal| *refusal)?, room)
}

pub fn stage_answer(sewn: &Sewn, stage: Stage) -> Answer {
    let trail = sewn.as_ref().map_err(|refusal| *refusal)?;
    let records = second::stage_output(trail, stage, usize::MAX)?;
    Ok(crate::records::field_bytes(&records.concat()))
}

/// All loop requests, from 0 to the number of loops: number and place, or 0
/// and length with the payload. A job that does not load has no loops.
fn all_requests(job: &[u8]) -> Vec<u8> {
    let count = second::load(job).map_or(0, |loaded| loaded.payloads.len());
    let mut out = Vec::new();
    for number in 0..=count as u32 {
        match second::request(job, number) {
            Ok(payload) => {
                put(&mut out, 0);
                put(&mut out, payload.len() as u32);
                out.extend(payload);
            }
            Err(refusal) => {
                put(&mut out, refusal.number);
                put(&mut out, refusal.place);
            }
        }
    }
    out
}

fn put(out: &mut Vec<u8>, field: u32) {
    out.extend(field.to_le_bytes());
}

fn put_answer(out: &mut Vec<u8>, operation: u32, answer: &Answer) {
    put(out, operation);
    put_ending(out, answer);
}

fn put_ending(out: &mut Vec<u8>, answer: &Answer) {
    match answer {
        Ok(bytes) => {
            put(out, 0);
            put(out, bytes.len() as u32);
            put(out, fnv(bytes));
        }
        Err(refusal) => {
            put(out, refusal.number);
            put(out, refusal.place);
        }
    }
}

/// Writes an accepted body out if it is short; a count of 0 if it is not.
fn put_body(out: &mut Vec<u8>, body: &Answer) {
    if let Ok(bytes) = body {
        let shown = if bytes.len() <= WRITTEN_OUT {
            &bytes[..]
        } else {
            &[]
        };
        put(out, shown.len() as u32);
        out.extend(shown);
    }
}

/// FNV-1a of 32 bits.
fn fnv(bytes: &[u8]) -> u32 {
    bytes.iter().fold(0x811C_9DC5, |hash, &byte| {
        (hash ^ u32::from(byte)).wrapping_mul(0x0100_0193)
    })
}

/// What a stored answer is of: the operation, and the table if one is supplied.
pub type Of = (u32, Vec<u8>);

/// A stored job and what its answers are of.
pub type Stored = (Vec<u8>, Vec<Of>);

/// The jobs of a packed file.
pub fn stored(bytes: &[u8]) -> Result<Vec<Stored>, Failed> {
    let mut reader = Reader { rest: bytes };
    let jobs = reader.jobs();
    jobs.filter(|_| reader.rest.is_empty())
        .ok_or("not a file of packed vectors".to_string())
}

struct Reader<'a> {
    rest: &'a [u8],
}

impl<'a> Reader<'a> {
    fn bytes(&mut self, count: usize) -> Option<&'a [u8]> {
        let (taken, rest) = self.rest.split_at_checked(count)?;
        self.rest = rest;
        Some(taken)
    }

    fn field(&mut self) -> Option<u32> {
        let bytes = self.bytes(4)?;
        Some(u32::from_le_bytes([bytes[0], bytes[1], bytes[2], bytes[3]]))
    }

    fn jobs(&mut self) -> Option<Vec<Stored>> {
        let mut jobs = Vec::new();
        for _ in 0..self.field()? {
            let length = self.field()? as usize;
            let job = self.bytes(length)?.to_vec();
            let count = self.field()?;
            let answers: Option<Vec<Of>> = (0..count).map(|_| self.answer()).collect();
            jobs.push((job, answers?));
        }
        Some(jobs)
    }

    fn answer(&mut self) -> Option<Of> {
        let operation = self.field()?;
        if operation == 13 {
            self.field()?;
        }
        let mut table = Vec::new();
        if operation == 14 || operation == 15 {
            let length = self.field()? as usize;
            table.extend(self.bytes(length)?);
        }
        let number = self.field()?;
        self.field()?;
        if number == 0 {
            self.field()?;
            if [0, 13, 14, 16].contains(&operation) {
                let shown = self.field()? as usize;
                self.bytes(shown)?;
            }
        }
        Some((operation, table))
    }
}
