//! Damage aimed at each refusal number in turn.

use super::damage_cells::{misenter, misrefer, set_bits};
use super::damage_chain::break_chain;
use super::damage_functor::name_functor;
use super::damage_overlap::overlap;
use super::damage_places::break_in_places;
use crate::check::{MOST_CONTROL, MOST_HEAP, MOST_STACK, MOST_TRAIL};
use crate::image::*;
use crate::random::Random;
use crate::word::NONE;

/// Damages the image once, and now and then once more, to try the order of checks.
pub fn damage(random: &mut Random, image: &mut Image) {
    damage_once(random, image);
    while random.percent(20) {
        damage_once(random, image);
    }
}

fn damage_once(random: &mut Random, image: &mut Image) {
    match random.below(100) {
        0..=3 => resize(random, image),
        4..=9 => miscount(random, image),
        10..=22 => break_chain(random, image),
        23..=29 => break_in_places(random, image),
        30..=41 => overlap(random, image),
        42..=52 => set_bits(random, image),
        53..=68 => misrefer(random, image),
        69..=80 => misenter(random, image),
        81..=95 => name_functor(random, image),
        _ => scatter(random, image),
    }
}

/// Refusal 1 by the control's length. (The other areas are in `make_long`.)
fn resize(random: &mut Random, image: &mut Image) {
    let length = match random.below(6) {
        0 => 0,
        1 => MOST_CONTROL,
        2 => MOST_CONTROL + 1,
        3 => random.below(FIXED_WORDS),
        _ => FIXED_WORDS - 1,
    };
    image.control.resize(length, 0);
}

/// Makes an area as long as the document allows, or one word longer. This costs time, so few
/// images are made so.
pub fn make_long(random: &mut Random, image: &mut Image) {
    let (area, most) = match random.below(3) {
        0 => (&mut image.heap, MOST_HEAP),
        1 => (&mut image.stack, MOST_STACK),
        _ => (&mut image.trail, MOST_TRAIL),
    };
    area.resize(most + random.below(2), random.garbage());
}

/// Refusal 2: T, H or n at its area's length, above it, or near 2^32.
fn miscount(random: &mut Random, image: &mut Image) {
    let (field, most) = random.one_of(&[
        (FIELD_T, image.trail.len()),
        (FIELD_H, image.heap.len()),
        (FIELD_N, image.control.len().saturating_sub(FIXED_WORDS)),
    ]);
    let count = match random.below(5) {
        0 => NONE,
        1 => NONE - random.below(9) as u32,
        2 => most as u32,
        _ => most as u32 + 1,
    };
    if let Some(word) = image.control.get_mut(field) {
        *word = count;
    }
}

/// Changes a few words anywhere, by little or altogether.
fn scatter(random: &mut Random, image: &mut Image) {
    for _ in 0..random.between(1, 3) {
        let area = match random.below(4) {
            0 => &mut image.control,
            1 => &mut image.stack,
            2 => &mut image.heap,
            _ => &mut image.trail,
        };
        if area.is_empty() {
            continue;
        }
        let index = random.below(area.len());
        area[index] = match random.below(4) {
            0 => area[index].wrapping_add(1),
            1 => area[index].wrapping_sub(1),
            2 => area[index] ^ (1 << random.below(32)),
            _ => random.garbage(),
        };
    }
}
