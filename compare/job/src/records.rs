//! Records as bytes: a 4-byte payload length, a 2-byte kind, 4-byte fields, all
//! little-endian. Jobs and bodies share this framing.

/// Kind and fields.
pub type Record = (u16, Vec<u32>);

/// Bytes before the payload.
pub const HEADER: usize = 6;

pub fn write(out: &mut Vec<u8>, kind: u16, payload: &[u8]) {
    out.extend((payload.len() as u32).to_le_bytes());
    out.extend(kind.to_le_bytes());
    out.extend(payload);
}

pub fn field_bytes(fields: &[u32]) -> Vec<u8> {
    fields.iter().flat_map(|f| f.to_le_bytes()).collect()
}

pub fn fields_of(payload: &[u8]) -> Vec<u32> {
    payload
        .chunks_exact(4)
        .map(|b| u32::from_le_bytes([b[0], b[1], b[2], b[3]]))
        .collect()
}

pub fn to_bytes(records: &[Record]) -> Vec<u8> {
    let mut out = Vec::new();
    for (kind, fields) in records {
        write(&mut out, *kind, &field_bytes(fields));
    }
    out
}

/// The records of whole fields that bytes begin with, and how many bytes those
/// are. Anything after them is damaged.
pub fn split(bytes: &[u8]) -> (Vec<Record>, usize) {
    let mut records = Vec::new();
    let mut at = 0;
    while let Some((record, end)) = one(bytes, at) {
        records.push(record);
        at = end;
    }
    (records, at)
}

/// The record of whole fields at a byte, and where it ends.
pub fn one(bytes: &[u8], at: usize) -> Option<(Record, usize)> {
    let header = bytes.get(at..at + HEADER)?;
    let length = u32::from_le_bytes([header[0], header[1], header[2], header[3]]) as usize;
    let kind = u16::from_le_bytes([header[4], header[5]]);
    let payload = bytes.get(at + HEADER..at + HEADER + length)?;
    if !length.is_multiple_of(4) {
        return None;
    }
    Some(((kind, fields_of(payload)), at + HEADER + length))
}
