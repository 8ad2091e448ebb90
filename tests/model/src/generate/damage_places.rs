//! Several faults of the chains at once, or one that only a later look finds: what tells the place
//! that refusal 3 names from any other.

use super::damage_chain::break_chain;
use super::damage_overlap::overlap;
use super::spot::*;
use crate::chain::FRAME_WORDS;
use crate::image::*;
use crate::random::Random;
use crate::word::NONE;

/// Breaks the chains so that the first fault is not the only one, or stands where it is easily
/// passed over.
pub fn break_in_places(random: &mut Random, image: &mut Image) {
    let Some(spots) = spots(image) else { return };
    match random.below(8) {
        0 => break_behind_conflict(random, image),
        1 => empty_stack(random, image),
        2 | 3 => outgrow_seen_frame(random, image, &spots),
        4 | 5 => break_around_choice_point(random, image, &spots),
        _ => break_several(random, image, &spots),
    }
}

/// Breaks a chain of an image that would be refused 4.
fn break_behind_conflict(random: &mut Random, image: &mut Image) {
    overlap(random, image);
    break_chain(random, image);
}

/// Breaks a few links, wherever they stand.
fn break_several(random: &mut Random, image: &mut Image, spots: &Spots) {
    for _ in 0..random.between(2, 3) {
        if random.percent(50) {
            let link = random.one_of(&spots.frame_links);
            break_frame(random, image, link);
        } else {
            let link = random.one_of(&spots.choice_links);
            break_choice_point(random, image, link);
        }
    }
}

/// Breaks a choice point, and the frame of the next newer one or its own: the first comes before it
/// in the walk, the second after it.
fn break_around_choice_point(random: &mut Random, image: &mut Image, spots: &Spots) {
    // Control area and choice points have their links in the same order, the newest first.
    let newer = random.below(spots.choice_links.len());
    let own = (newer + 1).min(spots.choice_links.len() - 1);
    let frame = random.one_of(&[newer, own]);
    break_choice_point(random, image, spots.choice_links[newer]);
    break_frame(random, image, spots.frame_links[frame]);
}

/// Makes a frame too long, or moves its pointer to its own holder, outside the stack or far off.
fn break_frame(random: &mut Random, image: &mut Image, link: FrameLink) {
    let at = link.e.get(image);
    let least = least_too_long(at as usize, link.bound);
    let length = image.stack.len() + random.below(600);
    match random.below(5) {
        0 | 1 if at != NONE && least < 256 => {
            let size = random.between(least, (least + 2).min(255));
            link.l.set(image, size as u32);
        }
        2 => link.e.set(image, link.bound as u32),
        3 => link.e.set(image, NONE - 1 - random.below(3) as u32),
        _ => link.e.set(image, length as u32),
    }
}

/// The smallest size with which a frame ends past its bound.
fn least_too_long(at: usize, bound: usize) -> usize {
    (bound + 1).saturating_sub(at + FRAME_WORDS)
}

/// Raises a choice point's T, H or n, or moves its pointer likewise.
fn break_choice_point(random: &mut Random, image: &mut Image, link: ChoiceLink) {
    let at = link.b.get(image);
    let field = |field: usize| Spot::Stack(at as usize + field);
    match random.below(8) {
        0 | 1 if at != NONE => {
            let above = link.newer_t.get(image).saturating_add(1);
            field(FIELD_T).set(image, above);
        }
        2 | 3 if at != NONE => {
            let above = link.newer_h.get(image).saturating_add(1);
            field(FIELD_H).set(image, above);
        }
        4 if at != NONE => field(FIELD_N).set(image, 256 + random.below(3) as u32),
        5 => link.b.set(image, link.bound as u32),
        6 => link.b.set(image, NONE - 1 - random.below(9) as u32),
        _ => link
            .b
            .set(image, (image.stack.len() + random.below(600)) as u32),
    }
}

/// Lets a choice point or a frame see a frame so that it ends past its bound there, while the
/// control sees the same frame rightly, and first.
fn outgrow_seen_frame(random: &mut Random, image: &mut Image, spots: &Spots) {
    let mut links = spots.frame_links.clone();
    links.retain(|link| matches!(link.e, Spot::Stack(_)));
    let views = &spots.chains.views;
    let (Some(link), Some(view)) = (random.maybe_one_of(&links), random.maybe_one_of(views)) else {
        return;
    };
    let least = least_too_long(view.at, link.bound);
    let size = least + random.below(3);
    if size > 255 {
        return;
    }
    link.l.set(image, size as u32);
    link.e.set(image, view.at as u32);
    image.control[FIELD_L] = view.size as u32;
    image.control[FIELD_E] = view.at as u32;
}

/// Takes the whole stack away, and points outside it.
fn empty_stack(random: &mut Random, image: &mut Image) {
    image.stack.clear();
    let far = NONE - 1 - random.below(3) as u32;
    let near = random.below(3) as u32;
    image.control[FIELD_E] = random.one_of(&[far, far, near, NONE]);
    let far = NONE - 1 - random.below(9) as u32;
    image.control[FIELD_B] = random.one_of(&[far, near, NONE, NONE]);
}
