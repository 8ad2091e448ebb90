//! The writer of freeze files.

use crate::check::{areas_legal, counts_fit};
use crate::image::{Image, FIXED_WORDS};
use crate::record::*;
use crate::refusal::{COUNTS_ABOVE_LENGTHS, OUTPUT_TOO_SHORT, SIZES};

/// Writes the image into the lent output and answers the byte count, or answers the refusal's
/// number and writes nothing.
pub fn freeze(image: &Image, output: &mut [u8]) -> Result<usize, u32> {
    if !areas_legal(image) {
        return Err(SIZES);
    }
    if !counts_fit(image) {
        return Err(COUNTS_ABOVE_LENGTHS);
    }
    let file = file_of(&counted_front(image));
    if file.len() > output.len() {
        return Err(OUTPUT_TOO_SHORT);
    }
    output[..file.len()].copy_from_slice(&file);
    Ok(file.len())
}

/// "Control count is 7 + n, heap count H, trail count T, stack count the stack's length."
fn counted_front(image: &Image) -> Image {
    let control = image.control_header();
    Image {
        control: image.control[..FIXED_WORDS + control.n].to_vec(),
        stack: image.stack.clone(),
        heap: image.heap[..control.h].to_vec(),
        trail: image.trail[..control.t].to_vec(),
    }
}

/// The records of four lists of words, whatever their control words say. Of an image cut to its
/// counts it is the image's freeze file; of other lists it is a file that the reader refuses.
pub fn file_of(lists: &Image) -> Vec<u8> {
    let areas = [
        (KIND_CONTROL, &lists.control),
        (KIND_STACK, &lists.stack),
        (KIND_HEAP, &lists.heap),
        (KIND_TRAIL, &lists.trail),
    ];
    let mut file = vec![KIND_COUNTS];
    for (_, words) in areas {
        file.extend((words.len() as u32).to_le_bytes());
    }
    for (kind, words) in areas {
        for word in words {
            file.push(kind);
            file.extend(word.to_le_bytes());
        }
    }
    file.push(KIND_END);
    file
}

/// The length of the freeze file of an image whose counts fit.
pub fn file_length(image: &Image) -> usize {
    file_of(&counted_front(image)).len()
}
