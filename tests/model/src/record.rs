//! Records of a freeze file: "one byte of kind, then a body whose length the kind fixes".

use crate::refusal::{BadFile, FILE_ENDS_EARLY, OTHER_KIND};

pub const KIND_COUNTS: u8 = 1;
pub const KIND_CONTROL: u8 = 2;
pub const KIND_STACK: u8 = 3;
pub const KIND_HEAP: u8 = 4;
pub const KIND_TRAIL: u8 = 5;
pub const KIND_END: u8 = 6;

pub const WORD_BYTES: usize = 4;
pub const COUNTS_BYTES: usize = 4 * WORD_BYTES;

/// The body's length, or nothing for an unused kind.
pub fn body_length(kind: u8) -> Option<usize> {
    match kind {
        KIND_COUNTS => Some(COUNTS_BYTES),
        KIND_CONTROL | KIND_STACK | KIND_HEAP | KIND_TRAIL => Some(WORD_BYTES),
        KIND_END => Some(0),
        _ => None,
    }
}

/// A whole record: its kind, where its body starts, and where the next record begins.
#[derive(Clone, Copy, Debug, PartialEq, Eq)]
pub struct Record {
    pub kind: u8,
    pub body: usize,
    pub next: usize,
}

/// Reads one record at `offset`: "11 for an unused kind, 10 for a cut or missing record".
pub fn record_at(file: &[u8], offset: u64) -> Result<Record, BadFile> {
    let offset = match usize::try_from(offset) {
        Ok(offset) if offset < file.len() => offset,
        _ => return Err(ends_early(file.len())),
    };
    let kind = file[offset];
    let length = body_length(kind).ok_or(other_kind(offset))?;
    let body = offset + 1;
    if file.len() - body < length {
        return Err(ends_early(offset));
    }
    Ok(Record {
        kind,
        body,
        next: body + length,
    })
}

/// Reads the record at `offset` as one of the expected kind. Another kind is 11 "whether or not
/// its body is whole".
pub fn expected_record(file: &[u8], offset: usize, kind: u8) -> Result<Record, BadFile> {
    if file.get(offset).is_some_and(|found| *found != kind) {
        return Err(other_kind(offset));
    }
    record_at(file, offset as u64)
}

/// The little-endian number whose first byte is at `at`, inside a whole body.
pub fn number_at(file: &[u8], at: usize) -> u32 {
    let bytes = &file[at..at + WORD_BYTES];
    u32::from_le_bytes([bytes[0], bytes[1], bytes[2], bytes[3]])
}

fn ends_early(offset: usize) -> BadFile {
    BadFile {
        number: FILE_ENDS_EARLY,
        offset,
    }
}

fn other_kind(offset: usize) -> BadFile {
    BadFile {
        number: OTHER_KIND,
        offset,
    }
}
