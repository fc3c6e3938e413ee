//! The run as a table of comma-separated values, a row per part.

use super::hold::Side;
use super::run::{Part, Run};

const HEAD: [&str; 14] = [
    "part",
    "bytes",
    "uses",
    "verdict",
    "tested",
    "tested ending",
    "held against",
    "its ending",
    "faces",
    "loops",
    "loops per face",
    "its loops per face",
    "differences",
    "first difference",
];

/// Parts in the order of their names, then the odd files.
pub fn table(run: &Run) -> String {
    let mut text = row(HEAD.map(str::to_string));
    for part in &run.parts {
        text += &row(fields(part));
    }
    for odd in &run.odd {
        let mut fields = HEAD.map(|_| String::new());
        fields[0] = odd.name.clone();
        fields[3] = "odd".to_string();
        fields[13] = odd.why.clone();
        text += &row(fields);
    }
    text
}

fn fields(part: &Part) -> [String; 14] {
    let held = &part.held;
    let verdict = if part.differs() { "differs" } else { "same" };
    let loops = held.tested.loops.as_ref();
    let told = |number: Option<usize>| number.map_or(String::new(), |n| n.to_string());
    let mut kinds: Vec<&str> = held.differences.iter().map(|d| d.kind.name()).collect();
    kinds.dedup();
    let first = held.differences.first();
    let first = first.map(|d| format!("{}: {}", d.kind.name(), d.told));
    [
        part.name.clone(),
        part.length.to_string(),
        told(held.uses),
        verdict.to_string(),
        held.tested.name.to_string(),
        held.tested.end.to_string(),
        held.other.name.to_string(),
        held.other.end.to_string(),
        told(loops.map(Vec::len)),
        told(loops.map(|counts| counts.iter().sum())),
        per_face(&held.tested),
        per_face(&held.other),
        kinds.join("; "),
        first.unwrap_or_default(),
    ]
}

fn per_face(side: &Side) -> String {
    let counts = side.loops.as_deref().unwrap_or(&[]);
    let words: Vec<String> = counts.iter().map(usize::to_string).collect();
    words.join(" ")
}

/// A row ends as RFC 4180 has it.
fn row(fields: [String; 14]) -> String {
    fields.map(|field| quoted(&field)).join(",") + "\r\n"
}

/// In quotes if the field has a comma, quote or end of line, or spaces around it.
fn quoted(field: &str) -> String {
    let plain = !field.contains([',', '"', '\n', '\r']) && field.trim() == field;
    if plain {
        return field.to_string();
    }
    format!("\"{}\"", field.replace('"', "\"\""))
}
