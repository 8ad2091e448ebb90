//! Damage to chains: refusal 3, and what just passes it.

use super::spot::*;
use crate::chain::{frame_size, FRAME_CE, FRAME_WORDS};
use crate::image::*;
use crate::random::Random;
use crate::word::{cell, Tag, NONE};

/// `base` plus a small number that may be negative, as a 32-bit word; below 0 it is 0.
fn near(base: usize, offset: isize) -> u32 {
    base.saturating_add_signed(offset) as u32
}

/// Breaks a chain, or puts a frame or choice point just at its bound.
pub fn break_chain(random: &mut Random, image: &mut Image) {
    let Some(spots) = spots(image) else { return };
    let frame = random.one_of(&spots.frame_links);
    let choice = random.one_of(&spots.choice_links);
    match random.below(7) {
        0 => point_frame(random, image, frame),
        1 => size_frame(random, image, frame),
        2 => point_choice_point(random, image, choice),
        3 => size_choice_point(random, image, choice),
        4 => raise_boundary(random, image, choice),
        5 => add_wide_choice_point(random, image),
        _ => {
            frame.e.set(image, random.garbage());
        }
    }
}

/// Moves a frame pointer to its bound, near it, to its own index, or near 2^32.
fn point_frame(random: &mut Random, image: &mut Image, link: FrameLink) {
    let size = frame_size(link.l.get(image)) as isize;
    let length = image.stack.len();
    let word = match random.below(8) {
        0 => NONE - 1,
        1 => NONE - 1 - random.below(4) as u32,
        2 => link.bound as u32,
        3 => near(link.bound, -1 - size),
        4 | 5 => near(link.bound, -2 - size),
        6 => near(link.bound, -(random.below(4) as isize)),
        _ => near(length, random.below(3) as isize - 1),
    };
    link.e.set(image, word);
    land_frame(random, image, word as usize);
}

/// Makes what stands at `at` a last frame. Now and then it is left as it was.
pub fn land_frame(random: &mut Random, image: &mut Image, at: usize) {
    if at < image.stack.len() && random.percent(80) {
        Spot::Stack(at + FRAME_CE).set(image, NONE);
    }
}

/// Gives a frame a size that ends it at its bound, one past it, or anywhere.
fn size_frame(random: &mut Random, image: &mut Image, link: FrameLink) {
    let at = link.e.get(image) as usize;
    let room = link.bound.saturating_sub(at + FRAME_WORDS);
    let size = match random.below(3) {
        0 => room,
        1 => room + 1,
        _ => random.below(256),
    };
    let l = link.l.get(image) / 256 * 256 + size.min(255) as u32;
    link.l.set(image, l);
}

/// Moves a choice point's pointer likewise.
fn point_choice_point(random: &mut Random, image: &mut Image, link: ChoiceLink) {
    let word = match random.below(7) {
        0 => NONE - FIXED_WORDS as u32 + 1,
        1 => NONE - 1 - random.below(9) as u32,
        2 => link.bound as u32,
        3 => near(link.bound, -6),
        4 | 5 => near(link.bound, -7),
        _ => near(link.bound, -7 - random.below(4) as isize),
    };
    link.b.set(image, word);
    if random.percent(80) {
        let n = (link.bound).saturating_sub(word as usize + FIXED_WORDS);
        land_choice_point(image, word as usize, n.min(MOST_ARGUMENTS) as u32);
    }
}

/// Makes what stands at `at` a last choice point with n saved arguments.
pub fn land_choice_point(image: &mut Image, at: usize, n: u32) {
    for (field, word) in [
        (FIELD_E, NONE),
        (FIELD_B, NONE),
        (FIELD_T, 0),
        (FIELD_H, 0),
        (FIELD_N, n),
    ] {
        Spot::Stack(at + field).set(image, word);
    }
}

/// Gives a choice point an n at its bound, one past it, above 255 or near 2^32.
fn size_choice_point(random: &mut Random, image: &mut Image, link: ChoiceLink) {
    let at = link.b.get(image) as usize;
    let room = link.bound.saturating_sub(at + FIXED_WORDS) as u32;
    let n = match random.below(7) {
        0 => NONE - FIXED_WORDS as u32 + 1,
        1 => NONE - random.below(9) as u32,
        2 => 256,
        3 => 255,
        4 => room,
        5 => room + 1,
        _ => 256 + random.below(256) as u32,
    };
    Spot::Stack(at + FIELD_N).set(image, n);
}

/// Puts a newest choice point with n of 255 or 256 on top of the stack, which grows to hold it.
fn add_wide_choice_point(random: &mut Random, image: &mut Image) {
    let at = image.stack.len();
    let n = MOST_ARGUMENTS + random.below(2);
    image.stack.extend(&image.control[..FIXED_WORDS]);
    image.stack[at + FIELD_N] = n as u32;
    let spare = random.below(2);
    image
        .stack
        .resize(at + FIXED_WORDS + n + spare, cell(Tag::Const, 1));
    image.control[FIELD_B] = at as u32;
}

/// Sets a choice point's T or H to the newer one's, one above it, or near 2^32.
fn raise_boundary(random: &mut Random, image: &mut Image, link: ChoiceLink) {
    let at = link.b.get(image) as usize;
    let (newer, field) = random.one_of(&[(link.newer_t, FIELD_T), (link.newer_h, FIELD_H)]);
    let newer = newer.get(image);
    let word = match random.below(5) {
        0 => newer,
        1 => NONE - random.below(4) as u32,
        _ => newer.saturating_add(1),
    };
    Spot::Stack(at + field).set(image, word);
}
