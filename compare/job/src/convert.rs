//! Older jobs, whose faces had three fields, in the form of today.

use crate::kinds::{FACE, Kind};
use crate::records;

/// Fields of a face before it had a body and a source face.
const OLDER: usize = 3;

/// Gives each face of three fields body 0 and its own number as source face.
/// All else stays as it is, a text a text with its comments and bytes bytes.
pub fn convert(job: &[u8]) -> Vec<u8> {
    match std::str::from_utf8(job) {
        // The bytes of a job have a zero in their first length.
        Ok(text) if !job.contains(&0) => convert_text(text).into_bytes(),
        _ => convert_bytes(job),
    }
}

fn convert_bytes(job: &[u8]) -> Vec<u8> {
    let (mut list, end) = records::split(job);
    let faces = list.iter_mut().filter(|(kind, _)| *kind == FACE);
    for (number, (_, fields)) in faces.enumerate() {
        if fields.len() == OLDER {
            fields.extend([0, number as u32]);
        }
    }
    [&records::to_bytes(&list), &job[end..]].concat()
}

fn convert_text(text: &str) -> String {
    let mut number = 0;
    let mut converted = String::new();
    for line in text.split_inclusive('\n') {
        let content = line.split(['#', '\n', '\r']).next().unwrap_or("");
        let mut words = content.split_whitespace();
        if !words.next().is_some_and(is_face) {
            converted += line;
            continue;
        }
        let record = content.trim_end();
        converted += record;
        if words.count() == OLDER {
            converted += &format!(" 0 {number}");
        }
        converted += &line[record.len()..];
        number += 1;
    }
    converted
}

/// A face by its name, or by the number of its kind.
fn is_face(word: &str) -> bool {
    Kind::named(word).is_some_and(|kind| kind.number == FACE) || word.parse() == Ok(FACE)
}
