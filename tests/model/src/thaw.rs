//! The reader of freeze files.

use crate::check::areas_legal;
use crate::image::{Image, FIXED_WORDS};
use crate::record::*;
use crate::refusal::*;

/// The four counts of a file, in the order in which it states them.
#[derive(Clone, Copy, Debug, Default, PartialEq, Eq)]
pub struct FileCounts {
    pub control: usize,
    pub stack: usize,
    pub heap: usize,
    pub trail: usize,
}

impl FileCounts {
    /// How long a file with these counts is, from its kind 1 to its kind 6.
    pub fn file_length(&self) -> usize {
        let words = self.control + self.stack + self.heap + self.trail;
        (1 + COUNTS_BYTES) + words * (1 + WORD_BYTES) + 1
    }
}

/// Fills the fronts of the four lent areas from the file, or refuses and changes nothing.
pub fn thaw(file: &[u8], lent: &mut Image) -> Result<FileCounts, BadFile> {
    if !areas_legal(lent) {
        return Err(bad(SIZES, 0));
    }
    let record = expected_record(file, 0, KIND_COUNTS)?;
    let counts = counts_at(file, record.body);
    if !room_for(&counts, lent) {
        return Err(bad(COUNT_ABOVE_ROOM, 0));
    }
    let read = words_from(file, record.next, &counts)?;
    if !counts_agree(&counts, &read) {
        return Err(bad(COUNTS_DIFFER, 0));
    }
    lent.control[..counts.control].copy_from_slice(&read.control);
    lent.stack[..counts.stack].copy_from_slice(&read.stack);
    lent.heap[..counts.heap].copy_from_slice(&read.heap);
    lent.trail[..counts.trail].copy_from_slice(&read.trail);
    Ok(counts)
}

fn bad(number: u32, offset: usize) -> BadFile {
    BadFile { number, offset }
}

/// The counts in the body of a whole counts record.
pub fn counts_at(file: &[u8], body: usize) -> FileCounts {
    let count = |place: usize| number_at(file, body + place * WORD_BYTES) as usize;
    FileCounts {
        control: count(0),
        stack: count(1),
        heap: count(2),
        trail: count(3),
    }
}

fn room_for(counts: &FileCounts, lent: &Image) -> bool {
    counts.control <= lent.control.len()
        && counts.stack <= lent.stack.len()
        && counts.heap <= lent.heap.len()
        && counts.trail <= lent.trail.len()
}

/// "all of 2, 3, 4, 5 in order, as many as counted, then 6", and nothing after it.
fn words_from(file: &[u8], first: usize, counts: &FileCounts) -> Result<Image, BadFile> {
    let mut offset = first;
    let read = Image {
        control: words(file, &mut offset, KIND_CONTROL, counts.control)?,
        stack: words(file, &mut offset, KIND_STACK, counts.stack)?,
        heap: words(file, &mut offset, KIND_HEAP, counts.heap)?,
        trail: words(file, &mut offset, KIND_TRAIL, counts.trail)?,
    };
    let end = expected_record(file, offset, KIND_END)?.next;
    if end < file.len() {
        return Err(bad(BYTES_AFTER_END, end));
    }
    Ok(read)
}

/// Reads `count` words of one kind and moves the offset past them.
fn words(file: &[u8], offset: &mut usize, kind: u8, count: usize) -> Result<Vec<u32>, BadFile> {
    let mut read = Vec::new();
    for _ in 0..count {
        let record = expected_record(file, *offset, kind)?;
        read.push(number_at(file, record.body));
        *offset = record.next;
    }
    Ok(read)
}

/// "Control count is 7 + n, heap count H, trail count T", by the file's own control words.
fn counts_agree(counts: &FileCounts, read: &Image) -> bool {
    if counts.control < FIXED_WORDS {
        return false;
    }
    let control = read.control_header();
    counts.control == FIXED_WORDS + control.n
        && counts.heap == control.h
        && counts.trail == control.t
}
