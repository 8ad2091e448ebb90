//! How large an image is to be: most are tiny or small, some wide, a few large.

use crate::check::{MOST_HEAP, MOST_STACK};
use crate::image::MOST_ARGUMENTS;
use crate::listing::{LISTING_HEAP, LISTING_STACK, LISTING_TRAIL};
use crate::random::Random;

/// The most that each part of an image may have.
#[derive(Clone, Copy, Debug)]
pub struct Sizes {
    pub stack: usize,
    pub heap: usize,
    pub trail: usize,
    /// Saved arguments of the control area or a choice point, and cells of a frame.
    pub arguments: usize,
}

pub const TINY: Sizes = Sizes {
    stack: 14,
    heap: 8,
    trail: 5,
    arguments: 2,
};

pub const SMALL: Sizes = Sizes {
    stack: 60,
    heap: 40,
    trail: 16,
    arguments: 4,
};

const WIDE: Sizes = Sizes {
    stack: 900,
    heap: 300,
    trail: 40,
    arguments: MOST_ARGUMENTS,
};

const LARGE: Sizes = Sizes {
    stack: 2500,
    heap: 4000,
    trail: 600,
    arguments: 12,
};

/// As much as the listing program takes.
const LISTED: Sizes = Sizes {
    stack: LISTING_STACK,
    heap: LISTING_HEAP,
    trail: LISTING_TRAIL,
    arguments: 12,
};

const _: () = assert!(LARGE.stack < MOST_STACK && LARGE.heap < MOST_HEAP);

pub fn draw(random: &mut Random) -> Sizes {
    match random.below(1000) {
        0..=249 => TINY,
        250..=974 => SMALL,
        975..=995 => WIDE,
        _ => LARGE,
    }
}

/// Sizes that the listing program takes. `large` of a hundred may have as much as it takes at all.
pub fn draw_listed(random: &mut Random, large: usize) -> Sizes {
    if random.percent(large) {
        return random.one_of(&[LISTED, LISTED, WIDE]);
    }
    random.one_of(&[TINY, SMALL, SMALL])
}
