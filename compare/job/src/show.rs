//! Bytes to text.

use crate::kinds::{EDGE, ENDS, Kind};
use crate::records::{self, HEADER, Record};
use crate::{BYTES, NO_VERTEX};

/// Bytes on one line of raw bytes.
const ROW: usize = 24;

/// The text of any bytes; `assemble` gives exactly these bytes back.
pub fn show(job: &[u8]) -> String {
    let mut text = String::new();
    let mut at = 0;
    while at < job.len() {
        let end = match records::one(job, at) {
            Some((record, end)) => {
                text += &line_of_record(&record);
                end
            }
            None => {
                let (end, why) = damaged(job, at);
                text += &format!("# {why}, at byte {at}:\n{}", raw_lines(&job[at..end]));
                end
            }
        };
        at = end;
    }
    text
}

/// By name if the fields fit the kind, else by its number.
fn line_of_record((kind, fields): &Record) -> String {
    match Kind::numbered(*kind).filter(|kind| kind.fits(fields.len())) {
        Some(known) => line(known.name, fields, *kind == EDGE),
        None => line(&kind.to_string(), fields, false),
    }
}

/// A first word, then fields in decimal; `-` for no vertex at an edge's ends.
pub fn line(first: &str, fields: &[u32], edge: bool) -> String {
    let mut text = first.to_string();
    for (i, &field) in fields.iter().enumerate() {
        if edge && ENDS.contains(&i) && field == NO_VERTEX {
            text += " -";
        } else {
            text += &format!(" {field}");
        }
    }
    text + "\n"
}

/// Where something that is no record of whole fields ends, and what it is.
fn damaged(job: &[u8], at: usize) -> (usize, &'static str) {
    let Some(length) = job[at..].first_chunk::<4>() else {
        return (job.len(), "cut short");
    };
    let payload = u32::from_le_bytes(*length) as usize;
    match at.checked_add(HEADER + payload) {
        Some(end) if end <= job.len() => (end, "a length of no whole fields"),
        _ => (job.len(), "cut short"),
    }
}

fn raw_lines(bytes: &[u8]) -> String {
    let row = |row: &[u8]| {
        let words: Vec<String> = row.iter().map(|byte| format!("{byte:02x}")).collect();
        format!("{BYTES} {}\n", words.join(" "))
    };
    bytes.chunks(ROW).map(row).collect()
}
