//! Text to bytes.

use crate::kinds::{EDGE, ENDS, JOB, Kind};
use crate::{BYTES, NO_VERTEX, records};

/// Some editors put it before a text.
const BYTE_ORDER_MARK: &[u8] = "\u{feff}".as_bytes();

/// A line that cannot be read, and why; lines count from 1.
#[derive(Debug, PartialEq, Eq)]
pub struct Wrong {
    pub line: usize,
    pub reason: String,
}

/// A job's bytes, or every line that cannot be read.
pub fn assemble(text: &[u8]) -> Result<Vec<u8>, Vec<Wrong>> {
    let mut job = Vec::new();
    let mut wrong = Vec::new();
    let text = text.strip_prefix(BYTE_ORDER_MARK).unwrap_or(text);
    for (i, line) in text.split(|&byte| byte == b'\n').enumerate() {
        match bytes_of_line(line) {
            Ok(bytes) => job.extend(bytes),
            Err(reason) => wrong.push(Wrong {
                line: i + 1,
                reason,
            }),
        }
    }
    if wrong.is_empty() {
        Ok(job)
    } else {
        Err(wrong)
    }
}

/// The bytes of a line, none if it is empty or a comment.
fn bytes_of_line(line: &[u8]) -> Result<Vec<u8>, String> {
    let line = std::str::from_utf8(line).map_err(|_| "not text in UTF-8".to_string())?;
    let content = line.split('#').next().unwrap_or("");
    let mut words = content.split_whitespace();
    let Some(first) = words.next() else {
        return Ok(Vec::new());
    };
    let words: Vec<&str> = words.collect();
    if first == BYTES {
        return raw(&words);
    }
    let record = match Kind::named(first) {
        Some(kind) => (kind.number, named_fields(kind, &words)?),
        None => (kind_number(first)?, fields(None, &words)?),
    };
    Ok(records::to_bytes(&[record]))
}

fn kind_number(word: &str) -> Result<u16, String> {
    if !decimal(word) {
        let names: Vec<&str> = JOB.iter().map(|kind| kind.name).collect();
        let names = names.join(", ");
        return Err(format!(
            "no record is called `{word}` ({names}, {BYTES}, or the number of a kind)"
        ));
    }
    word.parse()
        .map_err(|_| format!("{word} is too large for a kind, which is at most 65535"))
}

/// Fields of a record written by its name: as many as it has.
fn named_fields(kind: &Kind, words: &[&str]) -> Result<Vec<u32>, String> {
    let fields = fields(Some(kind), words)?;
    if kind.fits(fields.len()) {
        return Ok(fields);
    }
    Err(format!(
        "{} fields do not make `{}` (a damaged record goes by number: `{} ..`)",
        fields.len(),
        kind.form(),
        kind.number
    ))
}

fn fields(kind: Option<&Kind>, words: &[&str]) -> Result<Vec<u32>, String> {
    let edge = kind.is_some_and(|kind| kind.number == EDGE);
    let field = |(i, word): (usize, &&str)| field_of_word(word, edge && ENDS.contains(&i));
    words.iter().enumerate().map(field).collect()
}

fn field_of_word(word: &str, end: bool) -> Result<u32, String> {
    if word == "-" && end {
        return Ok(NO_VERTEX);
    }
    if word == "-" {
        return Err("`-`, no vertex, is only for the ends of an `edge`".to_string());
    }
    if !decimal(word) {
        return Err(format!("`{word}` is not a number"));
    }
    word.parse().map_err(|_| {
        format!(
            "{word} is too large for a field, which is at most {}",
            u32::MAX
        )
    })
}

fn decimal(word: &str) -> bool {
    word.bytes().all(|byte| byte.is_ascii_digit())
}

/// Bytes in hexadecimal, as they are.
fn raw(words: &[&str]) -> Result<Vec<u8>, String> {
    if words.is_empty() {
        return Err(format!("`{BYTES}` without any byte"));
    }
    words.iter().map(|word| byte_of_word(word)).collect()
}

fn byte_of_word(word: &str) -> Result<u8, String> {
    let digits = word.len() == 2 && word.bytes().all(|byte| byte.is_ascii_hexdigit());
    let byte = digits.then(|| u8::from_str_radix(word, 16).ok()).flatten();
    byte.ok_or(format!("`{word}` is not a byte of two hexadecimal digits"))
}
