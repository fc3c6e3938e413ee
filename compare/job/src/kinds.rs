//! The records of a job: document 01's table.

/// A kind of record: its number and name, the names of its fields, and of those
/// that may follow them any number of times.
pub struct Kind {
    pub number: u16,
    pub name: &'static str,
    pub fields: &'static [&'static str],
    pub repeated: &'static [&'static str],
}

const fn kind(number: u16, name: &'static str, fields: &'static [&'static str]) -> Kind {
    Kind {
        number,
        name,
        fields,
        repeated: &[],
    }
}

const fn more(mut kind: Kind, repeated: &'static [&'static str]) -> Kind {
    kind.repeated = repeated;
    kind
}

pub const JOB: [Kind; 13] = [
    kind(1, "head", &["proven"]),
    kind(2, "vertex", &["point"]),
    kind(3, "edge", &["curve", "sense", "start", "end"]),
    kind(
        4,
        "face",
        &[
            "surface",
            "own-sense",
            "selected-sense",
            "body",
            "source-face",
        ],
    ),
    more(kind(5, "loop", &["edge", "sense"]), &["edge", "sense"]),
    kind(6, "vertex-loop", &["vertex"]),
    more(kind(7, "radial", &["edge"]), &["use"]),
    kind(8, "surface", &["lower-use", "answer"]),
    kind(9, "points", &["point", "point", "answer"]),
    kind(10, "curves", &["curve", "curve", "answer"]),
    kind(
        11,
        "singular",
        &["curve", "lower-face", "higher-face", "point", "answer"],
    ),
    kind(12, "orientation", &["lowest-face", "answer"]),
    kind(13, "inside", &["probe", "container", "answer"]),
];

/// The kind of faces.
pub const FACE: u16 = 4;

/// The kind of edges, whose ends may be no vertex.
pub const EDGE: u16 = 3;
/// Where the ends of an edge stand among its fields.
pub const ENDS: std::ops::Range<usize> = 2..4;

impl Kind {
    pub fn named(name: &str) -> Option<&'static Self> {
        JOB.iter().find(|kind| kind.name == name)
    }

    pub fn numbered(number: u16) -> Option<&'static Self> {
        JOB.iter().find(|kind| kind.number == number)
    }

    /// Whether so many fields make a record of this kind.
    pub fn fits(&self, count: usize) -> bool {
        match count.checked_sub(self.fields.len()) {
            None => false,
            Some(left) if self.repeated.is_empty() => left == 0,
            Some(left) => left.is_multiple_of(self.repeated.len()),
        }
    }

    /// How a line of this kind is written.
    pub fn form(&self) -> String {
        let mut form = format!("{} {}", self.name, self.fields.join(" "));
        if !self.repeated.is_empty() {
            form += &format!(" [{} ..]", self.repeated.join(" "));
        }
        form
    }
}
