//! Jobs as plain text, a record a line, and back to bytes.
//!
//! A line is the record's name and its fields in decimal. A record whose name
//! does not fit its fields is written by the number of its kind, and what is no
//! whole record of 4-byte fields as `bytes` in hexadecimal. So every string of
//! bytes has a text, which gives exactly these bytes.

mod assemble;
mod convert;
pub mod kinds;
pub mod records;
mod show;

pub use assemble::{Wrong, assemble};
pub use convert::convert;
pub use show::{line, show};

/// No vertex: written `-` at the ends of an edge.
pub const NO_VERTEX: u32 = u32::MAX;

/// First word of a line of raw bytes.
pub(crate) const BYTES: &str = "bytes";
