//! "What the engine can read", the measure of demand 3.

use crate::check::Checked;
use crate::image::{Image, FIXED_WORDS};

#[derive(Clone, Debug, PartialEq, Eq)]
pub struct Readable {
    pub control: Vec<u32>,
    /// Index and word of each stack word with a role.
    pub stack: Vec<(usize, u32)>,
    pub heap: Vec<u32>,
    pub trail: Vec<u32>,
}

/// "control words below 7 + n, heap below H, trail below T, stack words with a role"
pub fn readable(image: &Image, checked: &Checked) -> Readable {
    let control = image.control_header();
    let with_a_role = checked.roles.with_a_role();
    Readable {
        control: image.control[..FIXED_WORDS + control.n].to_vec(),
        stack: with_a_role.iter().map(|x| (*x, image.stack[*x])).collect(),
        heap: image.heap[..control.h].to_vec(),
        trail: image.trail[..control.t].to_vec(),
    }
}
