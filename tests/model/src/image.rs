//! The four areas, and the layout that control area and choice point share.

/// "P, L, E, B, T, H, n, then n saved arguments".
pub const FIELD_L: usize = 1;
pub const FIELD_E: usize = 2;
pub const FIELD_B: usize = 3;
pub const FIELD_T: usize = 4;
pub const FIELD_H: usize = 5;
pub const FIELD_N: usize = 6;
pub const FIXED_WORDS: usize = 7;

/// A choice point "has n at most 255".
pub const MOST_ARGUMENTS: usize = 255;

#[derive(Clone, Debug, Default, PartialEq, Eq)]
pub struct Image {
    pub control: Vec<u32>,
    pub stack: Vec<u32>,
    pub heap: Vec<u32>,
    pub trail: Vec<u32>,
}

/// The fields that the collector reads; E and B keep their "none".
#[derive(Clone, Copy, Debug, PartialEq, Eq)]
pub struct Header {
    pub l: u32,
    pub e: u32,
    pub b: u32,
    pub t: usize,
    pub h: usize,
    pub n: usize,
}

/// Reads the fixed part that begins at `at`, or nothing if it is not all inside the area.
pub fn header(area: &[u32], at: usize) -> Option<Header> {
    let words = area.get(at..at + FIXED_WORDS)?;
    Some(Header {
        l: words[FIELD_L],
        e: words[FIELD_E],
        b: words[FIELD_B],
        t: words[FIELD_T] as usize,
        h: words[FIELD_H] as usize,
        n: words[FIELD_N] as usize,
    })
}

impl Image {
    /// The control area's header; an area too short for one reads as the empty machine.
    pub fn control_header(&self) -> Header {
        let none = crate::word::NONE;
        header(&self.control, 0).unwrap_or(Header {
            l: 0,
            e: none,
            b: none,
            t: 0,
            h: 0,
            n: 0,
        })
    }

    /// "work shorter than heap + stack": the words that a call is to be lent.
    pub fn work_needed(&self) -> usize {
        self.heap.len() + self.stack.len()
    }
}
