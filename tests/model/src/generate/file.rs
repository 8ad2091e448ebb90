//! Freeze files, legal and damaged, each with the sizes of the areas lent to its reader.

use super::any_sound_image;
use crate::check::{MOST_CONTROL, MOST_TRAIL};
use crate::freeze::file_of;
use crate::image::*;
use crate::random::Random;
use crate::record::*;

/// A file and the image's lists that it was made from, before any damage.
pub struct FileCase {
    pub file: Vec<u8>,
    /// Lengths of the lent control, stack, heap and trail.
    pub lent: [usize; 4],
}

pub fn file_case(random: &mut Random) -> FileCase {
    let mut lists = some_lists(random);
    let damaged = random.percent(60);
    if damaged && random.percent(25) {
        misstate(random, &mut lists);
    }
    let mut file = file_of(&lists);
    let lent = some_room(random, &lists);
    if damaged {
        damage_file(random, &mut file);
        while random.percent(15) {
            damage_file(random, &mut file);
        }
    }
    FileCase { file, lent }
}

/// Lists whose counts agree with the control words. To a reader of files the cells are nothing
/// but words, so most lists are arbitrary; some come from a sound image.
fn some_lists(random: &mut Random) -> Image {
    if random.percent(10) {
        return cut_to_counts(any_sound_image(random));
    }
    let arguments = random.below(5);
    let (stack, heap, trail) = (random.below(9), random.below(9), random.below(6));
    let mut lists = Image {
        control: random.garbage_list(FIXED_WORDS + arguments),
        stack: random.garbage_list(stack),
        heap: random.garbage_list(heap),
        trail: random.garbage_list(trail),
    };
    lists.control[FIELD_T] = trail as u32;
    lists.control[FIELD_H] = heap as u32;
    lists.control[FIELD_N] = arguments as u32;
    lists
}

/// The words that a freeze file of the image holds.
pub fn cut_to_counts(mut image: Image) -> Image {
    let control = image.control_header();
    image.control.truncate(FIXED_WORDS + control.n);
    image.heap.truncate(control.h);
    image.trail.truncate(control.t);
    image
}

/// Lists for refusal 14: a count that differs from its control word, or a short control area.
pub fn misstate(random: &mut Random, lists: &mut Image) {
    if random.percent(30) {
        let length = random.below(FIXED_WORDS);
        lists.control.truncate(length);
        return;
    }
    let field = random.one_of(&[FIELD_T, FIELD_H, FIELD_N]);
    let count = lists.control[field];
    lists.control[field] = match random.below(4) {
        0 => count.saturating_sub(1),
        1 => u32::MAX - random.below(9) as u32,
        _ => count + 1,
    };
}

/// Mostly room enough; now and then too little, or a size that is refused.
fn some_room(random: &mut Random, lists: &Image) -> [usize; 4] {
    let mut room = [
        lists.control.len().max(FIXED_WORDS),
        lists.stack.len(),
        lists.heap.len(),
        lists.trail.len(),
    ];
    for length in &mut room {
        if random.percent(50) {
            *length += random.below(4);
        }
    }
    room[0] = room[0].min(MOST_CONTROL);
    match random.below(100) {
        0..=5 => {
            let area = random.below(4);
            room[area] = room[area].saturating_sub(random.between(1, 2));
        }
        6 => room[0] = random.one_of(&[0, 6, MOST_CONTROL + 1]),
        7 if random.percent(4) => room[3] = MOST_TRAIL + random.below(2),
        8 => room[0] = MOST_CONTROL,
        _ => {}
    }
    room
}

/// One change to the bytes.
pub fn damage_file(random: &mut Random, file: &mut Vec<u8>) {
    match random.below(9) {
        0 | 1 => file.truncate(random.below(file.len() + 1)),
        2 | 3 => change_kind(random, file),
        4 => change_count(random, file),
        5 => {
            let extra = random.between(1, 3);
            file.extend((0..extra).map(|_| random.below(8) as u8));
        }
        6 => remove_record(random, file),
        7 => change_byte(random, file),
        _ => {}
    }
}

/// The offset of some record of a file that was whole, or nothing for a file too short.
fn some_record(random: &mut Random, file: &[u8]) -> Option<usize> {
    let first = 1 + COUNTS_BYTES;
    let words = file.len().checked_sub(first + 1)? / (1 + WORD_BYTES);
    match random.below(5) {
        0 => Some(0),
        1 => Some(file.len() - 1),
        _ => Some(first + random.below(words + 1) * (1 + WORD_BYTES)),
    }
}

fn change_kind(random: &mut Random, file: &mut [u8]) {
    if let Some(kind) = some_record(random, file).and_then(|at| file.get_mut(at)) {
        *kind = match random.below(4) {
            0 => random.below(256) as u8,
            1 => random.one_of(&[0, 7, 8, 9, 16, 31, 32, 33, 255]),
            _ => random.between(1, 6) as u8,
        };
    }
}

fn change_count(random: &mut Random, file: &mut [u8]) {
    let at = 1 + WORD_BYTES * random.below(4);
    if file.len() < at + WORD_BYTES {
        return;
    }
    let count = number_at(file, at);
    let new = match random.below(6) {
        0 => random.below(FIXED_WORDS) as u32,
        1 => random.garbage(),
        2 => count.saturating_sub(1),
        _ => count.saturating_add(1),
    };
    file[at..at + WORD_BYTES].copy_from_slice(&new.to_le_bytes());
}

fn remove_record(random: &mut Random, file: &mut Vec<u8>) {
    if let Some(at) = some_record(random, file) {
        let end = (at + 1 + WORD_BYTES).min(file.len());
        file.drain(at..end);
    }
}

fn change_byte(random: &mut Random, file: &mut [u8]) {
    let at = random.below(file.len());
    if let Some(byte) = file.get_mut(at) {
        *byte = random.word() as u8;
    }
}
