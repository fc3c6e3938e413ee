//! Sewing of selected faces, from a job's bytes to a body's bytes. The functions below call the proved library of
//! Zaxclover; none can fail but by a [`Refusal`], and a refusal leaves the output untouched.
//!
//! ```
//! let job = [4, 0, 0, 0, 1, 0, 0, 0, 0, 0]; // Head only
//! let mut out = [0u8; 64];
//! assert_eq!(zaxclover::sew(&job, &mut out), Ok(34));
//! assert_eq!(zaxclover::listing(&job).unwrap(), "body 0 0 0 0 0 0 0\n");
//! assert_eq!(zaxclover::list(&job[..5]), "refused 2 0\n");
//! ```
//!
//! Jobs and bodies are those of format version 2 ([`VERSION`]): a face of a job has five fields (surface, own
//! sense, selected sense, body, source face), and each face of a body is followed by its members, a record of kind
//! 29 with body and source face of each selected face in it:
//!
//! ```
//! let mut job = vec![4, 0, 0, 0, 1, 0, 1, 0, 0, 0]; // Head
//! job.extend([20, 0, 0, 0, 4, 0]); // a face without loops: source face 12 of body 1, on surface 7
//! job.extend([7u32, 0, 0, 1, 12].map(u32::to_le_bytes).concat());
//! let text = "body 1 0 0 0 0 0 0\nface 7 0\nmembers 1 12\nlump\nshell 0\n";
//! assert_eq!(zaxclover::list(&job), text);
//! ```
//!
//! An older job, whose faces have three fields, is refused with 3; `tools/job convert` makes it one of today.
//!
//! Body and source face together say which face is selected. The same two in a second face are refused with 45, and the
//! place is the byte where that record starts, whatever surface and senses are:
//!
//! ```
//! let mut job = vec![4, 0, 0, 0, 1, 0, 1, 0, 0, 0]; // Head
//! for face in [[7u32, 0, 0, 1, 12], [8, 0, 0, 0, 12], [7, 1, 0, 1, 12]] {
//!     job.extend([20, 0, 0, 0, 4, 0]);
//!     job.extend(face.map(u32::to_le_bytes).concat());
//! }
//! let why = zaxclover::body(&job).unwrap_err();
//! assert_eq!((why.number, why.place), (45, 62));
//! assert_eq!(why.words(), "the face is selected twice: the same body and source face");
//! ```
//!
//! Which surface answers join two faces is the shop's own choice, within what the rules permit: a joining table goes with
//! the call of [`sew_with_table`], [`body_with_table`], [`listing_with_table`] and [`walk_stage_with_table`]. All else
//! joins by the full table, [`FULL_TABLE`].
//!
//! A shop with a resin printer calls [`sew_for_print`], [`body_for_print`] or [`listing_for_print`]: an edge with more than
//! two uses is refused with 41, a point with more than one fan with 42, and all else is as in ordinary sewing.
//!
//! The library may assume that the output shares no byte with job or table. Rust's borrows see to it:
//!
//! ```compile_fail,E0502
//! let mut bytes = [0u8; 64];
//! let job = &bytes[..32];
//! let _ = zaxclover::sew(job, &mut bytes[16..]);
//! ```
//!
//! ```compile_fail,E0502
//! let mut bytes = [1, 0, 0, 1, 0, 0];
//! let table = &bytes[..4];
//! let _ = zaxclover::sew_with_table(table, &[], &mut bytes[3..]);
//! ```
//!
//! A loop's payload is a part of the job, which cannot change as long as the payload is in use:
//!
//! ```compile_fail,E0506
//! let mut job = [4, 0, 0, 0, 1, 0, 0, 0, 0, 0];
//! let payload = zaxclover::loop_payload(&job, 0);
//! job[0] = 5;
//! assert!(payload.is_err());
//! ```
mod raw;
mod refusal;

pub use refusal::Refusal;

/// The version of the format, as `ZAXCLOVER_VERSION` in `include/sewing.h`: raised when the form of jobs or bodies
/// changes. 2: faces have body and source face, and bodies have members.
pub const VERSION: u32 = 2;

/// A call takes less stack than this.
pub const STACK: usize = 512 * 1024;

/// No job of more bytes loads.
pub const LONGEST_JOB: usize = 65_536;

/// The text of [`list`] is not longer.
pub const LONGEST_LISTING: usize = 196_608;

/// The joining table by which [`sew`] and every stage join. Its bytes are 1 (the two faces join) or 0 (they do not), a
/// row for each answer, 1 and then 2, a column for the faces' stored senses, equal and then different. A 1 is
/// permitted only where this table has one, so that there are three more: `[1, 0, 0, 0]` joins no opposed surfaces,
/// `[0, 0, 0, 1]` no agreeing ones, `[0, 0, 0, 0]` none.
pub const FULL_TABLE: [u8; 4] = [1, 0, 0, 1];

/// The single stages. What each writes is in `docs/STAGES.md`.
#[derive(Clone, Copy, Debug, PartialEq, Eq, Hash)]
pub enum Stage {
    Read,
    Pair,
    Merge,
    VertexLoops,
    Walk,
    Loops,
    Fans,
    Edges,
    Joining,
    Shells,
    Lumps,
}

impl Stage {
    /// All stages in the order in which they are done.
    pub const ALL: [Stage; 11] = [
        Stage::Read,
        Stage::Pair,
        Stage::Merge,
        Stage::VertexLoops,
        Stage::Walk,
        Stage::Loops,
        Stage::Fans,
        Stage::Edges,
        Stage::Joining,
        Stage::Shells,
        Stage::Lumps,
    ];

    fn operation(self) -> raw::Operation {
        match self {
            Stage::Read => raw::zaxclover_read_stage,
            Stage::Pair => raw::zaxclover_pair_stage,
            Stage::Merge => raw::zaxclover_merge_stage,
            Stage::VertexLoops => raw::zaxclover_vertex_loop_stage,
            Stage::Walk => raw::zaxclover_walk_stage,
            Stage::Loops => raw::zaxclover_loop_stage,
            Stage::Fans => raw::zaxclover_fan_stage,
            Stage::Edges => raw::zaxclover_edge_stage,
            Stage::Joining => raw::zaxclover_joining_stage,
            Stage::Shells => raw::zaxclover_shell_stage,
            Stage::Lumps => raw::zaxclover_lump_stage,
        }
    }
}

/// Sews a job: the body's records are written to the start of `out`, and their length is returned. Refusal 40 has the
/// length needed as its place.
pub fn sew(job: &[u8], out: &mut [u8]) -> Result<usize, Refusal> {
    run(raw::zaxclover_sew, job, out)
}

/// Runs the stages up to one and writes its fields to the start of `out`; returns how many bytes.
pub fn stage(stage: Stage, job: &[u8], out: &mut [u8]) -> Result<usize, Refusal> {
    run(stage.operation(), job, out)
}

/// Sews a job as [`sew`] does, but that faces join by a joining table. A table that is not permitted is refused with 48
/// before anything else: its place is 4 if the table is not of four bytes, else the first entry that is not permitted.
///
/// ```
/// use zaxclover::{FULL_TABLE, sew, sew_with_table};
///
/// let mut job = Vec::new(); // a ring between two faces on opposed surfaces, whose senses differ
/// for (kind, fields) in [
///     (1u16, vec![1u32]),
///     (3, vec![5, 0, u32::MAX, u32::MAX]),
///     (4, vec![7, 0, 0, 0, 0]),
///     (5, vec![0, 0]),
///     (4, vec![8, 1, 0, 0, 1]),
///     (5, vec![0, 1]),
///     (8, vec![0, 2]),
/// ] {
///     job.extend((4 * fields.len() as u32).to_le_bytes());
///     job.extend(kind.to_le_bytes());
///     job.extend(fields.iter().flat_map(|field| field.to_le_bytes()));
/// }
/// let mut out = [0u8; 256];
/// let face_joins = 30; // the byte where the body's record has them
/// assert_eq!(sew_with_table(&FULL_TABLE, &job, &mut out), sew(&job, &mut [0; 256]));
/// assert_eq!(out[face_joins], 1);
/// let length = sew_with_table(&[1, 0, 0, 0], &job, &mut out)?;
/// assert_eq!((length, out[face_joins]), (160, 0)); // two faces, and the edge between them
///
/// let why = sew_with_table(&[1, 1, 0, 1], &job, &mut out).unwrap_err();
/// assert_eq!((why.number, why.place), (48, 1));
/// let why = sew_with_table(&[1, 0], &[], &mut []).unwrap_err();
/// assert_eq!((why.number, why.place), (48, 4));
/// # Ok::<(), zaxclover::Refusal>(())
/// ```
pub fn sew_with_table(table: &[u8], job: &[u8], out: &mut [u8]) -> Result<usize, Refusal> {
    run_with_table(raw::zaxclover_sew_with_table, table, job, out)
}

/// Runs [`Stage::Walk`], but that faces join by a joining table: the table is tested first, as for [`sew_with_table`].
///
/// ```
/// use zaxclover::{FULL_TABLE, Stage, stage, walk_stage_with_table};
///
/// let job = [4, 0, 0, 0, 1, 0, 0, 0, 0, 0]; // Head only
/// let mut out = [0u8; 64];
/// assert_eq!(walk_stage_with_table(&FULL_TABLE, &job, &mut out), stage(Stage::Walk, &job, &mut []));
/// assert_eq!(walk_stage_with_table(&[0, 0, 0, 0], &job, &mut out), Ok(0));
/// let why = walk_stage_with_table(b"1001", &job, &mut out).unwrap_err(); // digits are not 0 and 1
/// assert_eq!((why.number, why.place), (48, 0));
/// ```
pub fn walk_stage_with_table(table: &[u8], job: &[u8], out: &mut [u8]) -> Result<usize, Refusal> {
    run_with_table(raw::zaxclover_walk_stage_with_table, table, job, out)
}

/// Sews a job as [`sew`] does, but for a shop whose printer accepts only boundaries where each edge has two uses and each
/// point one fan. An edge with four uses or any larger even number is refused with 41, right after the edge was tested for
/// an odd number; no radial list is asked for. The lowest point with more than one fan is refused with 42, before a
/// question of joining is put. A job with neither fault ends as it does with [`sew`], and an accepted one has the same body.
///
/// ```
/// use zaxclover::{sew, sew_for_print};
///
/// /// A ring that lies in the loops of so many faces, by turns Same and Reversed.
/// fn ring_in_faces(faces: u32) -> Vec<u8> {
///     let mut records = vec![(1u16, vec![1]), (3, vec![5, 0, u32::MAX, u32::MAX])];
///     for face in 0..faces {
///         records.push((4, vec![7 + face, 0, 0, 0, face]));
///         records.push((5, vec![0, face % 2]));
///     }
///     records.push((8, vec![0, 0])); // the surfaces of the first pair differ
///     let bytes = |(kind, fields): (u16, Vec<u32>)| {
///         let length = (4 * fields.len() as u32).to_le_bytes();
///         let fields = fields.into_iter().flat_map(u32::to_le_bytes);
///         length.into_iter().chain(kind.to_le_bytes()).chain(fields)
///     };
///     records.into_iter().flat_map(bytes).collect()
/// }
/// let (mut out, mut ordinary) = ([0u8; 256], [0u8; 256]);
/// let pair = ring_in_faces(2);
/// assert_eq!(sew_for_print(&pair, &mut out), sew(&pair, &mut ordinary));
/// assert_eq!(out, ordinary);
///
/// let why = sew_for_print(&ring_in_faces(4), &mut out).unwrap_err();
/// assert_eq!((why.number, why.place), (41, 0));
/// assert_eq!(why.words(), "more than two uses of the edge (print shop)");
/// let why = sew(&ring_in_faces(4), &mut out).unwrap_err(); // no radial list is there
/// assert_eq!((why.number, why.place), (20, 7));
/// ```
pub fn sew_for_print(job: &[u8], out: &mut [u8]) -> Result<usize, Refusal> {
    run(raw::zaxclover_sew_for_print, job, out)
}

/// The payload of loop `n` of a job, of both sorts of loops, as it stands in the job.
pub fn loop_payload(job: &[u8], n: usize) -> Result<&[u8], Refusal> {
    let (mut start, mut value) = (0, 0);
    // SAFETY: the job is readable for its length, and the two numbers are written by nobody else.
    let number = unsafe { raw::zaxclover_loop(job.as_ptr(), job.len(), n, &mut start, &mut value) };
    let length = answer(number, value)?;
    Ok(&job[start..start + length])
}

/// The body of a job, in as many bytes as it needs.
pub fn body(job: &[u8]) -> Result<Vec<u8>, Refusal> {
    whole(|out| sew(job, out))
}

/// The body of a job as [`body`] gives it, but that faces join by a joining table: the table is tested first, as for
/// [`sew_with_table`].
///
/// ```
/// use zaxclover::{FULL_TABLE, body, body_with_table};
///
/// let job = [4, 0, 0, 0, 1, 0, 0, 0, 0, 0]; // Head only
/// assert_eq!(body_with_table(&FULL_TABLE, &job), body(&job));
/// assert_eq!(body_with_table(&[0, 0, 0, 0], &job).unwrap().len(), 34);
/// let why = body_with_table(&[1, 0, 1, 0], &job).unwrap_err();
/// assert_eq!((why.number, why.place), (48, 2));
/// ```
pub fn body_with_table(table: &[u8], job: &[u8]) -> Result<Vec<u8>, Refusal> {
    whole(|out| sew_with_table(table, job, out))
}

/// The body of a job as [`body`] gives it, but for a print shop: refused as by [`sew_for_print`].
///
/// ```
/// use zaxclover::{body, body_for_print};
///
/// let job = [4, 0, 0, 0, 1, 0, 0, 0, 0, 0]; // Head only
/// assert_eq!(body_for_print(&job), body(&job));
/// let why = body_for_print(&job[..9]).unwrap_err();
/// assert_eq!((why.number, why.place), (2, 0));
/// ```
pub fn body_for_print(job: &[u8]) -> Result<Vec<u8>, Refusal> {
    whole(|out| sew_for_print(job, out))
}

/// The listing of a job, as the program `listing` prints it: the body's lines, or the line `refused NUMBER PLACE`. The job
/// is sewn into 65,536 bytes, so that a longer body is refused with 40; [`listing`] has it.
pub fn list(job: &[u8]) -> String {
    let mut page = vec![0; LONGEST_LISTING];
    // SAFETY: the job is readable and the page writable for their lengths. The page is new, so that it shares no byte
    // with the job.
    let length =
        unsafe { raw::zaxclover_list(job.as_ptr(), job.len(), page.as_mut_ptr(), page.len()) };
    String::from_utf8(page[..length].to_vec()).expect("a listing is ASCII")
}

/// The listing of a job's body, however long: a line for each record, its name and then its fields in decimal. A refusal
/// is an error, not a line.
pub fn listing(job: &[u8]) -> Result<String, Refusal> {
    Ok(lines(&body(job)?))
}

/// The listing of a job's body as [`listing`] gives it, but that faces join by a joining table: the table is tested first,
/// as for [`sew_with_table`].
///
/// ```
/// use zaxclover::{FULL_TABLE, listing, listing_with_table};
///
/// let mut job = Vec::new(); // a ring between two faces on one surface, with equal senses
/// for (kind, fields) in [
///     (1u16, vec![1u32]),
///     (3, vec![5, 0, u32::MAX, u32::MAX]),
///     (4, vec![7, 0, 0, 0, 0]),
///     (5, vec![0, 0]),
///     (4, vec![7, 0, 0, 0, 1]),
///     (5, vec![0, 1]),
///     (8, vec![0, 1]),
/// ] {
///     job.extend((4 * fields.len() as u32).to_le_bytes());
///     job.extend(kind.to_le_bytes());
///     job.extend(fields.iter().flat_map(|field| field.to_le_bytes()));
/// }
/// let joined = "body 1 2 2 0 0 0 1\nface 7 0\nmembers 0 0 0 1\nlump\nshell 0\n";
/// assert_eq!(listing(&job)?, joined);
/// assert_eq!(listing_with_table(&FULL_TABLE, &job)?, joined);
/// assert_eq!(listing_with_table(&[1, 0, 0, 0], &job)?, joined);
/// let apart = listing_with_table(&[0, 0, 0, 1], &job)?; // agreeing surfaces do not join
/// assert!(apart.starts_with("body 1 2 0 0 0 0 0\nedge 5 0 - -\nface 7 0\nmembers 0 0\nloop 0 0\n"));
///
/// let why = listing_with_table(&[1, 0], &job).unwrap_err();
/// assert_eq!((why.number, why.place), (48, 4));
/// # Ok::<(), zaxclover::Refusal>(())
/// ```
pub fn listing_with_table(table: &[u8], job: &[u8]) -> Result<String, Refusal> {
    Ok(lines(&body_with_table(table, job)?))
}

/// The listing of a job's body as [`listing`] gives it, but for a print shop: refused as by [`sew_for_print`].
///
/// ```
/// use zaxclover::{listing, listing_for_print};
///
/// let mut job = Vec::new(); // two closed edges at one vertex, each between two faces: two fans at point 4
/// for (kind, fields) in [
///     (1u16, vec![1u32]),
///     (2, vec![4]),
///     (3, vec![5, 0, 0, 0]),
///     (3, vec![6, 0, 0, 0]),
///     (4, vec![7, 0, 0, 0, 0]),
///     (5, vec![0, 0]),
///     (4, vec![8, 0, 0, 0, 1]),
///     (5, vec![0, 1]),
///     (4, vec![7, 0, 0, 0, 2]),
///     (5, vec![1, 0]),
///     (4, vec![8, 0, 0, 0, 3]),
///     (5, vec![1, 1]),
///     (8, vec![0, 0]),
///     (8, vec![2, 0]),
///     (11, vec![5, 0, 1, 4, 1]),
///     (11, vec![6, 2, 3, 4, 1]),
/// ] {
///     job.extend((4 * fields.len() as u32).to_le_bytes());
///     job.extend(kind.to_le_bytes());
///     job.extend(fields.iter().flat_map(|field| field.to_le_bytes()));
/// }
/// let text = listing(&job)?; // in two lumps
/// assert!(text.ends_with("lump\nshell 0 1\nlump\nshell 2 3\n"));
/// let why = listing_for_print(&job).unwrap_err();
/// assert_eq!((why.number, why.place), (42, 4));
/// assert_eq!(why.words(), "more than one fan at the point (print shop)");
/// # Ok::<(), zaxclover::Refusal>(())
/// ```
pub fn listing_for_print(job: &[u8]) -> Result<String, Refusal> {
    Ok(lines(&body_for_print(job)?))
}

/// What sewing writes, in as many bytes as it needs.
fn whole(sew: impl Fn(&mut [u8]) -> Result<usize, Refusal>) -> Result<Vec<u8>, Refusal> {
    let mut out = vec![0; LONGEST_JOB];
    let length = match sew(&mut out) {
        Err(Refusal { number: 40, place }) => {
            out.resize(place, 0);
            sew(&mut out)?
        }
        answer => answer?,
    };
    out.truncate(length);
    Ok(out)
}

/// The lines of a body that sewing wrote.
fn lines(body: &[u8]) -> String {
    // An empty page stores nothing and tells the length.
    let mut page = vec![0; put_lines(body, &mut [])];
    put_lines(body, &mut page);
    String::from_utf8(page).expect("a listing is ASCII")
}

fn put_lines(body: &[u8], page: &mut [u8]) -> usize {
    // SAFETY: the body is readable and the page writable for their lengths. The page is borrowed mutably, so that it
    // shares no byte with the body.
    unsafe {
        raw::zaxclover_listing(
            0,
            body.len(),
            body.as_ptr(),
            body.len(),
            page.as_mut_ptr(),
            page.len(),
        )
    }
}

fn run(operation: raw::Operation, job: &[u8], out: &mut [u8]) -> Result<usize, Refusal> {
    let mut value = 0;
    // SAFETY: the job is readable and the output writable for their lengths. The output is borrowed mutably, so that
    // it shares no byte with the job, and the value is a local.
    let number = unsafe {
        operation(
            job.as_ptr(),
            job.len(),
            out.as_mut_ptr(),
            out.len(),
            &mut value,
        )
    };
    answer(number, value)
}

fn run_with_table(
    operation: raw::TableOperation,
    table: &[u8],
    job: &[u8],
    out: &mut [u8],
) -> Result<usize, Refusal> {
    let mut value = 0;
    // SAFETY: table and job are readable and the output writable for their lengths. The output is borrowed mutably, so
    // that it shares no byte with the two, and the value is a local.
    let number = unsafe {
        operation(
            table.as_ptr(),
            table.len(),
            job.as_ptr(),
            job.len(),
            out.as_mut_ptr(),
            out.len(),
            &mut value,
        )
    };
    answer(number, value)
}

fn answer(number: usize, value: usize) -> Result<usize, Refusal> {
    match number {
        0 => Ok(value),
        _ => Err(Refusal {
            number,
            place: value,
        }),
    }
}

#[cfg(test)]
mod tests {
    use super::*;

    /// Sewing that writes 70,000 bytes, more than the first output has.
    fn sew_long(out: &mut [u8]) -> Result<usize, Refusal> {
        let (number, place) = (40, 70_000);
        if out.len() < place {
            return Err(Refusal { number, place });
        }
        out[..place].fill(7);
        Ok(place)
    }

    #[test]
    fn an_output_is_lent_anew_where_the_first_is_too_short() {
        assert_eq!(whole(sew_long), Ok(vec![7; 70_000]));
        for number in [4, 48] {
            let why = Refusal { number, place: 3 };
            assert_eq!(whole(|_| Err(why)), Err(why));
        }
    }
}
