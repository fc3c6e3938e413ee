//! The loop request: the bytes of the job that hold a loop's payload.

use super::load::load;
use super::refusal::{Refusal, refusal};

pub fn request(bytes: &[u8], number: u32) -> Result<&[u8], Refusal> {
    let job = load(bytes)?;
    match job.payloads.get(number as usize) {
        Some(payload) => Ok(&bytes[payload.clone()]),
        None => Err(refusal(4, number as usize)),
    }
}
