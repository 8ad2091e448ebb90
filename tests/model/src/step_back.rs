//! "Step back".

use crate::check::check;
use crate::collect::leave_work;
use crate::image::{Image, FIXED_WORDS};
use crate::refusal::{refused, Refusal, CONTROL_TOO_SHORT, NO_CHOICE_POINT};
use crate::word::{address, stack_address, unbound, Address};

/// Undoes the entries above the newest choice point's T and returns to it.
/// The answer is the number of entries undone.
pub fn step_back(image: &mut Image, work: &mut [u32]) -> Result<usize, Refusal> {
    let verdict = check(image, work.len());
    leave_work(image, work, verdict.as_ref().err());
    let checked = verdict?;
    let Some(newest) = checked.chains.choice_points.first() else {
        return Err(refused(NO_CHOICE_POINT));
    };
    let words = FIXED_WORDS + newest.header.n;
    if words > image.control.len() {
        return Err(refused(CONTROL_TOO_SHORT));
    }
    let undone = newest.header.t..image.control_header().t;
    for index in undone.clone() {
        undo(image, image.trail[index]);
    }
    // The undo comes first: an undone saved argument is copied as the unbound stack cell it became.
    let copied = &image.stack[newest.at..newest.at + words];
    image.control[..words].copy_from_slice(copied);
    Ok(undone.len())
}

/// "has its cell set to unbound (a stack word with no role is written too)"
fn undo(image: &mut Image, entry: u32) {
    match address(entry) {
        Address::Heap(x) => image.heap[x] = unbound(entry),
        Address::Stack(x) => image.stack[x] = unbound(stack_address(x)),
    }
}
