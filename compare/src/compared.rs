//! What the Rust is compared on. It has no loader, so no job that is refused
//! while loading is held against it; a face selected twice (45) is such a job.
//! It writes no face joins and no members: they are left out before a body is
//! held against its. All this is held against the second implementation.

use crate::records;
use crate::text;
use reference::Ending;

/// The refusals of loading, which the Rust has not: document 01's seven, and 45
/// of document 02's request Eight. The Rust sews a face that is selected twice.
pub const UNLOADED: [u32; 8] = [1, 2, 3, 4, 5, 6, 7, 45];

/// The fields of a record that the Rust has too; none if it has no such record.
fn compared_fields<T>(kind: u16, fields: &[T]) -> Option<&[T]> {
    match kind {
        // Face joins come after the six fields of document 01.
        21 => Some(&fields[..fields.len().min(6)]),
        // Members are document 02's.
        29 => None,
        _ => Some(fields),
    }
}

/// A body with what the Rust has too.
pub fn compared(body: &[u8]) -> Vec<u8> {
    let (list, end) = records::split(body);
    let kept = list.iter().filter_map(|(kind, fields)| {
        let fields = compared_fields(*kind, fields)?;
        Some((*kind, fields.to_vec()))
    });
    let kept: Vec<records::Record> = kept.collect();
    [&records::to_bytes(&kept), &body[end..]].concat()
}

/// The lines of such a body.
pub fn compared_lines(listing: &str) -> String {
    let lines = listing.lines().filter_map(|line| {
        let words: Vec<&str> = line.split(' ').collect();
        let kind = text::kind_named(words[0]).unwrap_or(0);
        let fields = compared_fields(kind, &words[1..])?;
        Some([&words[..1], fields].concat().join(" ") + "\n")
    });
    lines.collect()
}

/// A body of the Rust in a room. 40 has no counterpart in it, but its condition
/// can be told: by the length of the whole body, of which it lacks some bytes.
pub fn in_room(
    body: Result<Vec<u8>, Ending>,
    lacking: usize,
    room: usize,
) -> Result<Vec<u8>, Ending> {
    let body = body?;
    let needed = body.len() + lacking;
    if needed > room {
        return Err((40, needed as u32));
    }
    Ok(body)
}

/// Bytes that the Rust's body lacks of a whole one.
pub fn lacking(body: &[u8]) -> usize {
    body.len() - compared(body).len()
}
