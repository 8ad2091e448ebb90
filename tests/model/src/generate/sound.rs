//! Sound images: accepted by the rules of document 01, and as varied as these allow.

use super::ages::ages;
use super::layout::lay_out;
use super::sizes::Sizes;
use super::terms::{fill_cells, lay_constants};
use super::trail::{bind_later, entries_possible, fill_trail};
use crate::chain::walk;
use crate::image::{Image, FIELD_T};
use crate::random::Random;
use crate::word::NONE;

/// A sound image. Two of three are sound in all their later states too.
pub fn sound_image(random: &mut Random, sizes: &Sizes) -> Image {
    let t = some_count(random, sizes.trail);
    let h = some_count(random, sizes.heap);
    let mut image = lay_out(random, sizes, t, h);
    let heap_length = h + some_extra(random);
    image.heap = random.garbage_list(heap_length);
    let plain = random.percent(33);
    if !entries_possible(&image, &ages(&image, true)) {
        forget_trail(&mut image);
    }
    let t = image.control_header().t;
    let ages = ages(&image, plain);
    let terms = lay_constants(random, &mut image, sizes.arguments);
    fill_cells(random, &mut image, &ages, &terms);
    // None is no legal entry, so it marks the trail words still to be filled.
    image.trail = vec![NONE; t];
    if !plain {
        bind_later(random, &mut image, &ages, &terms);
    }
    let filled: Vec<bool> = image.trail.iter().map(|entry| *entry != NONE).collect();
    fill_trail(random, &mut image, &ages, &terms, &filled);
    let trail_extra = some_extra(random);
    image.trail.extend(random.garbage_list(trail_extra));
    image
}

/// T or H: now and then 0 or the most.
fn some_count(random: &mut Random, most: usize) -> usize {
    match random.below(20) {
        0 => 0,
        1 => most,
        _ => random.between(most / 5, most),
    }
}

/// Words at and above T or H: arbitrary, and often none.
fn some_extra(random: &mut Random) -> usize {
    if random.percent(50) {
        0
    } else {
        random.between(1, 5)
    }
}

/// Sets every T to 0, where no entry could be legal.
fn forget_trail(image: &mut Image) {
    let chains = walk(image).expect("the layout is sound");
    image.control[FIELD_T] = 0;
    for found in chains.choice_points {
        image.stack[found.at + FIELD_T] = 0;
    }
}
