//! Damage to roles: refusal 4, in one place or in several, and what just passes it.

use super::damage_chain::{land_choice_point, land_frame};
use super::spot::*;
use crate::chain::{frame_size, FRAME_CE, FRAME_WORDS};
use crate::image::*;
use crate::random::Random;
use crate::word::NONE;

/// Lays a frame or choice point over another one.
pub fn overlap(random: &mut Random, image: &mut Image) {
    let Some(spots) = spots(image) else { return };
    match random.below(7) {
        0 => lay_frame_over(random, image),
        1 => lay_choice_point_over(random, image),
        2 => stretch_frame(random, image, &spots),
        3 => stretch_several(random, image, &spots),
        4 | 5 => lay_two_frames_over(random, image),
        _ => {
            // Some frame, one word off.
            let link = random.one_of(&spots.frame_links);
            let moved = link.e.get(image).saturating_sub(1);
            link.e.set(image, moved);
            land_frame(random, image, moved as usize);
        }
    }
}

/// A word that has a role even if the control's E (or B) were none.
fn some_word_seen_without(random: &mut Random, image: &Image, field: usize) -> Option<usize> {
    let mut without = image.clone();
    without.control[field] = NONE;
    random.maybe_one_of(&spots(&without)?.roles.with_a_role())
}

/// Moves the control's frame over something that the choice points see.
fn lay_frame_over(random: &mut Random, image: &mut Image) {
    let Some(word) = some_word_seen_without(random, image, FIELD_E) else {
        return;
    };
    let at = word.saturating_sub(random.below(2));
    image.control[FIELD_E] = at as u32;
    let most = image.stack.len().saturating_sub(at + FRAME_WORDS);
    image.control[FIELD_L] = random.below(most.min(6) + 1) as u32;
    land_frame(random, image, at);
}

/// Moves the newest choice point over something that the control's frames have.
fn lay_choice_point_over(random: &mut Random, image: &mut Image) {
    let Some(word) = some_word_seen_without(random, image, FIELD_B) else {
        return;
    };
    let at = word.saturating_sub(random.below(FIXED_WORDS));
    image.control[FIELD_B] = at as u32;
    land_choice_point(image, at, random.below(2) as u32);
}

/// Lets a view reach over the objects above its frame, up to its bound.
fn stretch_frame(random: &mut Random, image: &mut Image, spots: &Spots) {
    let link = random.one_of(&spots.frame_links);
    let at = link.e.get(image) as usize;
    let room = link.bound.saturating_sub(at + FRAME_WORDS).min(255);
    let size = random.between(frame_size(link.l.get(image)).min(room), room);
    link.l.set(image, size as u32);
}

/// Does so in several places at once.
fn stretch_several(random: &mut Random, image: &mut Image, spots: &Spots) {
    for _ in 0..random.between(2, 4) {
        stretch_frame(random, image, spots);
    }
}

/// Lets the control see two frames that stand on cells of others, so that two places are in
/// conflict; the upper one is met first.
fn lay_two_frames_over(random: &mut Random, image: &mut Image) {
    let mut without = image.clone();
    without.control[FIELD_E] = NONE;
    let Some(spots) = spots(&without) else { return };
    let is_cell = |x: usize| spots.roles.is_cell(x);
    let mut places = spots.roles.cells();
    places.retain(|x| is_cell(x + FRAME_CE));
    let Some(lower) = random.maybe_one_of(&places) else {
        return;
    };
    places.retain(|x| *x >= lower + FRAME_WORDS);
    let Some(upper) = random.maybe_one_of(&places) else {
        return;
    };
    let room = image.stack.len() - upper - FRAME_WORDS;
    image.control[FIELD_E] = upper as u32;
    image.control[FIELD_L] = random.below(room.min(3) + 1) as u32;
    let room = upper - lower - FRAME_WORDS;
    image.stack[upper] = random.below(room.min(3) + 1) as u32;
    image.stack[upper + FRAME_CE] = lower as u32;
    image.stack[lower + FRAME_CE] = NONE;
}
