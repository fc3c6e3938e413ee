//! Bodies and stages as text, a line per record.

use crate::records;

/// Kinds of body records with their names.
const KINDS: [(u16, &str); 9] = [
    (21, "body"),
    (22, "vertex"),
    (23, "edge"),
    (24, "face"),
    (25, "loop"),
    (26, "vertex-loop"),
    (27, "lump"),
    (28, "shell"),
    (29, "members"),
];

/// The listing of a body.
pub fn listing(body: &[u8]) -> String {
    let mut text = String::new();
    for (kind, fields) in records::split(body).0 {
        let name = match KINDS.iter().find(|(k, _)| *k == kind) {
            Some((_, name)) => name.to_string(),
            None => kind.to_string(),
        };
        text += &job_text::line(&name, &fields, name == "edge");
    }
    text
}

/// The kind that a line of a listing names.
pub fn kind_named(word: &str) -> Option<u16> {
    let named = KINDS.iter().find(|(_, name)| *name == word);
    named.map(|(kind, _)| *kind)
}

/// Lines of decimal fields.
pub fn field_lines(list: &[Vec<u32>]) -> String {
    let mut text = String::new();
    for fields in list {
        let words: Vec<String> = fields.iter().map(u32::to_string).collect();
        text += &words.join(" ");
        text += "\n";
    }
    text
}
