//! Refusals and counts in words.

use super::answers::SECOND;

/// What each refusal number means.
const REFUSALS: [(u32, &str); 22] = [
    (1, "the job is longer than 65,536 bytes"),
    (2, "a record is cut short"),
    (3, "unknown kind, wrong length or position; no Head"),
    (4, "a field is not permitted"),
    (5, "a limit is passed"),
    (6, "a loop's uses do not join end to start, by point"),
    (7, "the question was answered before"),
    (10, "two uses of the edge in one sense"),
    (11, "one use of the edge, or an odd number"),
    (12, "round the edge a Same use follows a Same use"),
    (13, "the use has no twin"),
    (20, "no record answers a question that was put"),
    (21, "the answer to a question is undecided"),
    (22, "normals vanish"),
    (23, "the radial list is not each use of the edge once"),
    (30, "two pairs of the edge lie in one boundary"),
    (31, "two fans at the point lie in one boundary"),
    (32, "two fans at the point lie in one lump"),
    (33, "two pairs of the edge lie in one lump"),
    (34, "the void lies in no outer shell"),
    (40, "the records do not fit the output"),
    (
        45,
        "the face is selected twice: the same body and source face",
    ),
];

pub fn refusal(number: u32) -> &'static str {
    let known = REFUSALS.iter().find(|(known, _)| *known == number);
    known.map_or("no refusal of the papers", |(_, words)| words)
}

/// A count with its noun.
pub fn count(number: usize, one: &str, many: &str) -> String {
    format!("{number} {}", if number == 1 { one } else { many })
}

/// What parts that do not load were held against.
pub fn unloaded(tested: &str, parts: usize) -> Option<String> {
    let parts = match parts {
        0 => return None,
        n => count(n, "part does", "parts do"),
    };
    let instead = if tested == SECOND {
        "nothing was compared"
    } else {
        "the second implementation stood in"
    };
    Some(format!(
        "{parts} not load (1 to 7 and 45): the reference has no loader, so {instead}"
    ))
}
