//! Random images, freeze files and months of them, sound and damaged.

mod ages;
mod damage;
mod damage_cells;
mod damage_chain;
mod damage_functor;
mod damage_overlap;
mod damage_places;
pub mod file;
pub mod large;
mod layout;
pub mod month;
mod short;
mod sizes;
mod sound;
mod spot;
mod terms;
mod trail;
pub mod why;
mod woven;

pub use sound::sound_image;

use crate::image::Image;
use crate::random::Random;

/// The share of images that are left sound, in percent.
const SOUND_SHARE: usize = 52;

/// One image in so many has an area as long as the document allows, or longer.
const LONG_ONE_IN: usize = 1500;

/// An image of any size, sound or damaged.
pub fn image(random: &mut Random) -> Image {
    let sizes = sizes::draw(random);
    let mut image = sound_image(random, &sizes);
    if !random.percent(SOUND_SHARE) {
        damage::damage(random, &mut image);
    }
    if random.below(LONG_ONE_IN) == 0 {
        damage::make_long(random, &mut image);
    }
    image
}

/// An image whose areas have at most 14 words, sound or damaged.
pub fn tiny_image(random: &mut Random) -> Image {
    loop {
        let mut image = sound_image(random, &sizes::TINY);
        if !random.percent(SOUND_SHARE) {
            damage::damage(random, &mut image);
        }
        let areas = [&image.control, &image.stack, &image.heap, &image.trail];
        if areas.iter().all(|area| area.len() <= sizes::TINY.stack) {
            return image;
        }
    }
}

/// A sound image of any size.
pub fn any_sound_image(random: &mut Random) -> Image {
    let sizes = sizes::draw(random);
    sound_image(random, &sizes)
}

/// A sound image of long chains, many of them equally long.
pub fn woven_image(random: &mut Random) -> Image {
    let sizes = random.one_of(&[sizes::TINY, sizes::SMALL]);
    let (rows, widest) = (random.between(1, 30), random.between(1, 6));
    woven::woven_image(random, &sizes, rows, widest)
}

/// Such an image with few cells.
pub fn tiny_woven_image(random: &mut Random) -> Image {
    let (rows, widest) = (random.between(1, 5), random.between(1, 3));
    woven::woven_image(random, &sizes::TINY, rows, widest)
}
