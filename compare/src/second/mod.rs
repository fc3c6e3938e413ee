//! A second implementation of sewing, written from documents 01 and 02 and from
//! docs/STAGES.md alone. One file per rule or stage.

pub mod body;
pub mod contact;
pub mod edges;
pub mod fans;
pub mod job;
pub mod joining;
pub mod load;
pub mod loops;
pub mod lumps;
pub mod merge;
pub mod output;
pub mod pair;
pub mod partition;
pub mod questions;
pub mod read;
pub mod refusal;
pub mod request;
pub mod rules;
pub mod sew;
pub mod shells;
pub mod vertex_loops;
pub mod walk;

pub use job::{Job, NONE, Sense};
pub use load::load;
pub use output::{Stage, sew_output, stage_output};
pub use questions::{Question, Reply};
pub use refusal::Refusal;
pub use request::request;
pub use rules::{Rules, Supplied};
pub use sew::{Sewn, Trail, sew, sew_by, sewn};
