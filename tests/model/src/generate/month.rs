//! Months: freeze files laid end to end. Each is made from a seed and its own number alone.

use super::damage::damage;
use super::file::{cut_to_counts, damage_file, misstate};
use super::sizes::{draw_listed, Sizes, TINY};
use super::sound_image;
use crate::check::{areas_legal, counts_fit, MOST_CONTROL};
use crate::freeze::file_of;
use crate::image::Image;
use crate::listing::{LISTING_HEAP, LISTING_STACK, LISTING_TRAIL};
use crate::month::MOST_FILES;
use crate::random::Random;
use crate::record::{COUNTS_BYTES, KIND_COUNTS, KIND_END};

/// The first items of every seed try the number of files; all others are arbitrary.
pub const FULL_MONTHS: u64 = 4;

/// The most files of an arbitrary month.
const MOST_DRAWN: usize = 300;

/// Different files in a full month. The model is slow, and it is their number that counts.
const DIFFERENT: usize = 24;

/// The bytes of one month.
pub fn month_input(seed: u64, item: u64) -> Vec<u8> {
    let mut random = Random::for_item(seed, item);
    if item < FULL_MONTHS {
        full_month(&mut random, item)
    } else {
        some_month(&mut random)
    }
}

/// One file of a month to measure: sound but for one in fifty, and every third one large.
pub fn measured_file(seed: u64, number: u64) -> Vec<u8> {
    let mut random = Random::for_item(seed, number);
    let sizes = draw_listed(&mut random, 33);
    some_file(&mut random, &sizes, 2)
}

/// The file of an image that the listing program has room for; `damaged` of a hundred are so.
pub fn some_file(random: &mut Random, sizes: &Sizes, damaged: usize) -> Vec<u8> {
    loop {
        let mut image = sound_image(random, sizes);
        if random.percent(damaged) {
            damage(random, &mut image);
        }
        if is_listed(&image) {
            return file_of(&cut_to_counts(image));
        }
    }
}

/// Whether the image can be frozen and read by the listing program.
fn is_listed(image: &Image) -> bool {
    let control = image.control_header();
    areas_legal(image)
        && counts_fit(image)
        && image.stack.len() <= LISTING_STACK
        && control.h <= LISTING_HEAP
        && control.t <= LISTING_TRAIL
}

/// As many files as there may be: just so, one byte more, one file more, the last one cut.
fn full_month(random: &mut Random, item: u64) -> Vec<u8> {
    let files = (0..DIFFERENT).map(|_| some_file(random, &TINY, 40));
    let files: Vec<Vec<u8>> = files.collect();
    let mut month = Vec::new();
    for _ in 1..MOST_FILES {
        month.extend(&files[random.below(DIFFERENT)]);
    }
    let last = &files[0];
    match item {
        0 => month.extend(last),
        1 => month.extend([&last[..], &[KIND_END]].concat()),
        2 => month.extend(files[..2].concat()),
        _ => month.extend(&last[..last.len() - 1]),
    }
    month
}

fn some_month(random: &mut Random) -> Vec<u8> {
    let count = match random.below(20) {
        0 => 0,
        1 => 1,
        2..=9 => random.between(2, 20),
        _ => random.between(20, MOST_DRAWN),
    };
    let damaged = random.one_of(&[0, 10, 50]);
    let large = random.one_of(&[0, 2, 10]);
    let mut files = Vec::new();
    for _ in 0..count {
        let sizes = draw_listed(random, large);
        files.push(some_file(random, &sizes, damaged));
    }
    if random.percent(25) {
        let at = random.below(count + 1);
        files.insert(at, bad_file(random));
    }
    let mut month = files.concat();
    match random.below(10) {
        0 => month.truncate(random.below(month.len() + 1)),
        1 => month.truncate(month.len().saturating_sub(random.between(1, 99))),
        2 => change_byte(random, &mut month),
        3 => add_bytes(random, &mut month),
        _ => {}
    }
    month
}

/// A file that is refused, in most cases.
pub fn bad_file(random: &mut Random) -> Vec<u8> {
    let mut lists = cut_to_counts(sound_image(random, &TINY));
    match random.below(5) {
        0 => misstate(random, &mut lists),
        1 => outgrow(random, &mut lists),
        _ => {
            let mut file = file_of(&lists);
            damage_file(random, &mut file);
            return file;
        }
    }
    file_of(&lists)
}

/// Makes one area longer than its room by a word.
fn outgrow(random: &mut Random, lists: &mut Image) {
    let (area, room) = match random.below(4) {
        0 => (&mut lists.control, MOST_CONTROL),
        1 => (&mut lists.stack, LISTING_STACK),
        2 => (&mut lists.heap, LISTING_HEAP),
        _ => (&mut lists.trail, LISTING_TRAIL),
    };
    area.resize(room + 1, 0);
}

fn change_byte(random: &mut Random, month: &mut [u8]) {
    let at = random.below(month.len());
    let any = random.word() as u8;
    if let Some(byte) = month.get_mut(at) {
        *byte = random.one_of(&[0, KIND_COUNTS, KIND_END, any, any]);
    }
}

/// The beginning of one more file, often just the counts record or all of it but a byte, or a few
/// bytes that are none.
fn add_bytes(random: &mut Random, month: &mut Vec<u8>) {
    let file = some_file(random, &TINY, 0);
    let length = match random.below(3) {
        0 => COUNTS_BYTES + random.below(2),
        _ => random.between(1, 24),
    };
    if random.percent(70) {
        month.extend(&file[..length]);
    } else {
        month.extend((0..length).map(|_| random.below(9) as u8));
    }
}
