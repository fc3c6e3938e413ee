//! `table`: small jobs of every class and ending, with their answers, as a
//! module of antt that computes them by the definitions of `crates/rules`.

use crate::cli::Failed;
use crate::compare::ROOM;
use crate::generate::rng::Rng;
use crate::generate::tables::{Drawn, FAULTY, FULL, LESSER};
use crate::generate::{self, CLASSES};
use crate::records;
use crate::run::judge;
use crate::second::load::{MAX_BYTES, MAX_FACES};
use crate::second::{self, Stage, Supplied};
use crate::vectors::{
    Answer, print_shop_parts, printed_jobs, sew_answer, stage_answer, suited_jobs,
};
use std::collections::BTreeMap;
use std::fmt::Write;

/// Bytes of a job in the table; the definitions take some microseconds a byte.
const LONGEST: usize = 700;
/// Jobs drawn of each class.
const DRAWN: u64 = 2_000;
/// Jobs of one class and ending; more of those that have much in them. Of faces
/// selected twice one at each distance and beside each other refusal, and one of
/// each way to be close.
const ONE: usize = 1;
const FEW: usize = 2;
const MORE: usize = 6;
/// Rows computed by one fact, which may take fifty million steps.
const ROWS: usize = 24;

const P9: &str = include_str!("../parts/P9.txt");

const HEAD: &str = "\
-- Jobs of every class and ending with the judge's answers. Written by `judge table`.
use Rattle.std.specs.Prelude.{◌≡◌, refl, List, [], ◌∷◌, Bool, true, false, not, ◌&&◌, cond, ℕ, eqb, replicate}
use Rattle.lists.specs.Lists.{positions, same}
use Rattle.rules.specs.Outcome.{Outcome, Ok, Err, fault_number}
use Rattle.rules.specs.Rules.{ordinary, print_shop}
use Rattle.rules.specs.Sew.{sewn, sewn_with_table}
use Rattle.rules.specs.Stage.{read_stage, pair_stage, merge_stage, vertex_loop_stage, walk_stage, walk_stage_with_table, loop_stage, fan_stage, edge_stage, joining_stage, shell_stage, lump_stage}
use Rattle.rules.specs.Open.{computes}

-- an answer of the judge: the bytes written, or a refusal's number and place
pub data Told : Type 0 where
  wrote : List ℕ → Told
  refused : ℕ → ℕ → Told

-- a job, the operation (0 sewing, 1 to 11 the stages, 14 and 15 sewing and the walk stage with a table, 16 sewing for a
-- print shop), the table, the room, the answer
pub record Row : Type 0 where
  pub job : List ℕ
  pub operation : ℕ
  pub table : List ℕ
  pub room : ℕ
  pub answer : Told

abbrev agrees : Outcome (List ℕ) → Told → Bool
agrees (Ok a) (wrote b) = same a b
agrees (Ok a) (refused n p) = false
agrees (Err r) (wrote b) = false
agrees (Err r) (refused n p) = eqb (fault_number r.fault) n && eqb r.place p

unfoldable stages : ℕ → List ℕ → List ℕ → ℕ → Outcome (List ℕ)
stages o table job room =
    cond (eqb o 16) (sewn print_shop job room)
    (cond (eqb o 14) (sewn_with_table table job room)
    (cond (eqb o 15) (walk_stage_with_table table job room)
    (cond (eqb o 1) (read_stage job room)
    (cond (eqb o 2) (pair_stage ordinary job room)
    (cond (eqb o 3) (merge_stage ordinary job room)
    (cond (eqb o 4) (vertex_loop_stage ordinary job room)
    (cond (eqb o 5) (walk_stage ordinary job room)
    (cond (eqb o 6) (loop_stage ordinary job room)
    (cond (eqb o 7) (fan_stage ordinary job room)
    (cond (eqb o 8) (edge_stage ordinary job room)
    (cond (eqb o 9) (joining_stage ordinary job room)
    (cond (eqb o 10) (shell_stage ordinary job room)
    (cond (eqb o 11) (lump_stage ordinary job room)
    (sewn ordinary job room))))))))))))))

unfoldable wrong : Row → Bool
wrong r = not (agrees (stages r.operation r.table r.job r.room) r.answer)
";

struct Row {
    job: String,
    operation: usize,
    table: Vec<u8>,
    room: usize,
    answer: Answer,
}

/// The module, and a line that says what is in it.
pub fn table(seed: u64) -> Result<(String, String), Failed> {
    let mut rows = vec![too_long(), too_many_faces()];
    let mut classes = BTreeMap::new();
    let mut numbers = BTreeMap::from([(1, 1), (5, 1)]);
    for (c, (class, _)) in CLASSES.into_iter().enumerate() {
        for job in jobs_of(class, c, seed)? {
            *classes.entry(class).or_insert(0usize) += 1;
            let number = add_rows(&mut rows, &job.0, job.1);
            *numbers.entry(number).or_insert(0usize) += 1;
        }
    }
    let jobs: usize = classes.values().sum();
    let with_tables = table_rows(seed)?;
    let for_print = print_shop_rows(seed)?;
    let said = format!(
        "{} jobs, {} rows; by class {classes:?}; by ending (0 accepted) {numbers:?}; {} rows with tables; {} jobs more for print",
        jobs + 2,
        rows.len(),
        with_tables.len(),
        for_print.len()
    );
    rows.extend(with_tables);
    rows.extend(for_print);
    Ok((module(&rows), said))
}

/// A job of one byte too many.
fn too_long() -> Row {
    Row {
        job: "replicate 65537 0".to_string(),
        operation: 0,
        table: Vec::new(),
        room: ROOM,
        answer: Err(second::refusal::refusal(1, 65_536)),
    }
}

/// A face past the limit, with a sense that is none: the limit comes first.
fn too_many_faces() -> Row {
    let mut records = vec![(1, vec![0])];
    records.extend((0..MAX_FACES as u32).map(|i| (4, vec![i, 0, 0, 0, i])));
    records.push((4, vec![0, 7, 0, 0, 0]));
    let job = records::to_bytes(&records);
    Row {
        job: list(&job),
        operation: 0,
        table: Vec::new(),
        room: ROOM,
        answer: Err(second::refusal::refusal(5, job.len() - 26)),
    }
}

/// Short jobs of a class, a few for each ending.
fn jobs_of(class: &'static str, c: usize, seed: u64) -> Result<Vec<(Vec<u8>, usize)>, Failed> {
    let mut kept: BTreeMap<((u32, u32), u32), usize> = BTreeMap::new();
    let mut jobs = Vec::new();
    for i in 0..DRAWN {
        let mut rng = Rng::new(seed, (c as u64) << 32 | i);
        let sample = generate::sample_of(class, &mut rng);
        if sample.job.len() > LONGEST {
            continue;
        }
        let compared = judge(&sample);
        if let Some(difference) = compared.differences.first() {
            return Err(format!("{class} job {i}: {difference}"));
        }
        let ending = compared
            .refusal
            .map_or((0, 0), crate::vectors::sort_of_ending);
        let beside = crate::vectors::beside(class, &sample.job, ending.0);
        let count = kept.entry((ending, beside)).or_default();
        let most = match ending.0 {
            0 if class == "repeats" => ONE,
            45 => ONE,
            0 | 31 | 32 => MORE,
            _ => FEW,
        };
        if *count < most {
            *count += 1;
            jobs.push((sample.job, sample.room));
        }
    }
    Ok(jobs)
}

/// Rows for sewing, ordinarily and for print, and for each stage of a job; gives
/// ordinary sewing's number.
fn add_rows(rows: &mut Vec<Row>, job: &[u8], room: usize) -> u32 {
    let sewn = second::sewn(&Supplied::Nothing, job);
    let answer = sew_answer(&sewn, room);
    let number = answer.as_ref().err().map_or(0, |refusal| refusal.number);
    rows.push(Row {
        job: list(job),
        operation: 0,
        table: Vec::new(),
        room,
        answer,
    });
    rows.push(print_shop_row(job, room));
    if sewn.is_err() {
        return number;
    }
    for (i, stage) in Stage::ALL.into_iter().enumerate() {
        let answer = stage_answer(&sewn, stage);
        let refused = answer.is_err();
        rows.push(Row {
            job: list(job),
            operation: 1 + i,
            table: Vec::new(),
            room: 2 * ROOM,
            answer,
        });
        if refused {
            break; // the later stages end alike
        }
    }
    number
}

/// The parts for a print shop, and jobs of each of its endings.
fn print_shop_rows(seed: u64) -> Result<Vec<Row>, Failed> {
    let drawn = printed_jobs(seed, LONGEST, ONE)?;
    let jobs = print_shop_parts()?.into_iter().chain(drawn);
    Ok(jobs.map(|job| print_shop_row(&job, ROOM)).collect())
}

/// A job sewn for a print shop.
fn print_shop_row(job: &[u8], room: usize) -> Row {
    let sewn = second::sewn(&Supplied::PrintShop, job);
    Row {
        job: list(job),
        operation: 16,
        table: Vec::new(),
        room,
        answer: sew_answer(&sewn, room),
    }
}

/// Rows with tables: the faulty ones, the permitted ones, and the lesser ones with
/// jobs of which they join less.
fn table_rows(seed: u64) -> Result<Vec<Row>, Failed> {
    let part = job_text::assemble(P9.as_bytes()).map_err(|_| "P9 is wrong")?;
    let mut calls = faulty_calls(&part);
    calls.extend(permitted_calls(&part));
    let suited = suited_jobs(seed, LONGEST, ONE)?.into_iter();
    calls.extend(suited.map(|(job, table)| (job, ROOM, table)));
    let mut rows = Vec::new();
    for (job, room, table) in &calls {
        add_with_table(&mut rows, job, *room, table);
    }
    Ok(rows)
}

/// A job, the room, and the table.
type Call = (Vec<u8>, usize, Drawn);

/// The faulty tables come before all that is wrong with a job and its room.
fn faulty_calls(part: &[u8]) -> Vec<Call> {
    let calls = FAULTY.into_iter().enumerate().flat_map(|(i, faulty)| {
        let other = match i % 2 {
            0 => (part.to_vec(), 0),
            _ => (vec![0; MAX_BYTES + 1], ROOM),
        };
        [(Vec::new(), ROOM), other].map(|(job, room)| (job, room, Drawn::faulty(faulty)))
    });
    calls.collect()
}

/// The permitted tables with no bytes, and with P9 in rooms at the limit.
fn permitted_calls(part: &[u8]) -> Vec<Call> {
    let tables = std::iter::once(FULL).chain(LESSER);
    let calls = tables.flat_map(|bytes| {
        let rooms = [ROOM, 71, 72, 47].map(|room| (part.to_vec(), room));
        let jobs = std::iter::once((Vec::new(), ROOM)).chain(rooms);
        jobs.map(move |(job, room)| (job, room, Drawn::permitted(bytes)))
    });
    calls.collect()
}

/// Sewing and the walk stage with a table.
fn add_with_table(rows: &mut Vec<Row>, job: &[u8], room: usize, table: &Drawn) {
    let sewn = second::sewn(&table.supplied(), job);
    let text = match job.len() > MAX_BYTES {
        true => format!("replicate {} 0", job.len()),
        false => list(job),
    };
    let walk = sewn.as_ref().map_err(|refusal| *refusal);
    let walk = walk.and_then(|trail| {
        let records = second::stage_output(trail, Stage::Walk, room)?;
        Ok(records::field_bytes(&records.concat()))
    });
    for (operation, answer) in [(14, sew_answer(&sewn, room)), (15, walk)] {
        rows.push(Row {
            job: text.clone(),
            operation,
            table: table.bytes.clone(),
            room,
            answer,
        });
    }
}

fn list(bytes: &[u8]) -> String {
    let mut text = String::new();
    for byte in bytes {
        let _ = write!(text, "{byte} ∷ ");
    }
    text + "[]"
}

fn module(rows: &[Row]) -> String {
    let mut text = HEAD.to_string();
    for (i, chunk) in rows.chunks(ROWS).enumerate() {
        let _ = write!(text, "\nunfoldable table{i} : List Row\ntable{i} =\n");
        for row in chunk {
            let answer = match &row.answer {
                Ok(bytes) => format!("wrote ({})", list(bytes)),
                Err(refusal) => format!("refused {} {}", refusal.number, refusal.place),
            };
            let _ = writeln!(
                text,
                "    record {{ job = {}; operation = {}; table = {}; room = {}; answer = {answer} }} ∷",
                row.job,
                row.operation,
                list(&row.table),
                row.room
            );
        }
        let _ = write!(
            text,
            "    []\n\nright{i} : positions wrong 0 table{i} ≡ []\nunfolding computes stages wrong table{i}\nright{i} = refl\n"
        );
    }
    text
}
