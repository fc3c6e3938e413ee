//! Refusals in words.
use std::error::Error;
use std::fmt;

/// Why a job was refused: the number of document 01, and one place whose meaning depends on the number.
#[derive(Clone, Copy, Debug, PartialEq, Eq, Hash)]
pub struct Refusal {
    pub number: usize,
    pub place: usize,
}

/// Every number that a refusal can have, what is wrong, and what its place is.
const TABLE: [(usize, &str, &str); 25] = [
    (1, "the job is longer than 65,536 bytes", "byte"),
    (2, "a record is cut short", "record at byte"),
    (
        3,
        "unknown kind, wrong length or wrong position of a record, or no Head",
        "record at byte",
    ),
    (
        4,
        "a field is not permitted, or no loop has the number asked for",
        "record at byte, or loop",
    ),
    (5, "a limit is passed", "record at byte"),
    (
        6,
        "a loop's uses do not join end to start, by point",
        "record at byte",
    ),
    (7, "the question was answered before", "record at byte"),
    (10, "two uses of the edge in one sense", "edge"),
    (11, "one use of the edge, or an odd number", "edge"),
    (12, "round the edge a Same use follows a Same use", "edge"),
    (13, "the use has no twin", "use"),
    (
        20,
        "no record answers a question that was put",
        "question of kind",
    ),
    (
        21,
        "the answer to a question is undecided",
        "question of kind",
    ),
    (22, "normals vanish", "question of kind"),
    (
        23,
        "the radial list is not each use of the edge once",
        "edge",
    ),
    (30, "two pairs of the edge lie in one boundary", "edge"),
    (31, "two fans at the point lie in one boundary", "point"),
    (32, "two fans at the point lie in one lump", "point"),
    (33, "two pairs of the edge lie in one lump", "edge"),
    (34, "the void lies in no outer shell", "lowest merged face"),
    (40, "the records do not fit the output", "bytes needed"),
    (41, "more than two uses of the edge (print shop)", "edge"),
    (42, "more than one fan at the point (print shop)", "point"),
    (
        45,
        "the face is selected twice: the same body and source face",
        "record at byte",
    ),
    (
        48,
        "the joining table is not four bytes, or has an entry that is not permitted",
        "entry, or 4 for the length",
    ),
];

impl Refusal {
    /// The numbers that a refusal can have, ascending.
    pub fn numbers() -> impl Iterator<Item = usize> {
        TABLE.iter().map(|row| row.0)
    }

    /// What is wrong, in words.
    pub fn words(&self) -> &'static str {
        self.row().0
    }

    /// What the place is: an edge, a point, the byte of a record, ..
    pub fn place_words(&self) -> &'static str {
        self.row().1
    }

    fn row(&self) -> (&'static str, &'static str) {
        let found = TABLE.iter().find(|row| row.0 == self.number);
        found.map_or(("refused for an unknown reason", "place"), |row| {
            (row.1, row.2)
        })
    }
}

impl fmt::Display for Refusal {
    fn fmt(&self, f: &mut fmt::Formatter<'_>) -> fmt::Result {
        write!(
            f,
            "refused {}: {} ({} {})",
            self.number,
            self.words(),
            self.place_words(),
            self.place
        )
    }
}

impl Error for Refusal {}
