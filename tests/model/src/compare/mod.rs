//! Compares a library, call by call, with the model.

pub mod answers;
pub mod asked;
pub mod call;
pub mod calls;
pub mod difference;
pub mod guard;
mod holding;
mod images;
pub mod lending;
mod one_call;
mod schedule;
pub mod tally;
mod thawing;
pub mod wire;

use std::ops::Range;

use asked::Library;
use tally::Tally;

use crate::generate;
use crate::random::Random;

/// Files draw from the seed's complement, so that images and files are independent.
fn file_seed(seed: u64) -> u64 {
    !seed
}

/// And so do the cells asked for.
fn asking_seed(seed: u64) -> u64 {
    seed ^ 0x0DD4_0DD4_0DD4_0DD4
}

/// Compares the image and the file of each item. `begin` is called with each item before it.
pub fn run(
    library: &dyn Library,
    seed: u64,
    items: Range<u64>,
    mut begin: impl FnMut(u64),
) -> Result<Tally, String> {
    let mut tally = Tally::default();
    for item in items {
        begin(item);
        compare_item(library, seed, item, &mut tally)
            .map_err(|text| format!("seed {seed}, item {item}: {text}"))?;
    }
    Ok(tally)
}

/// Compares one image and one file, and asks for cells of the image and of others.
fn compare_item(
    library: &dyn Library,
    seed: u64,
    item: u64,
    tally: &mut Tally,
) -> Result<(), String> {
    let mut random = Random::for_item(seed, item);
    let image = generate::image(&mut random);
    images::compare_image(&mut random, library, &image, tally)?;
    let mut random = Random::for_item(file_seed(seed), item);
    let case = generate::file::file_case(&mut random);
    thawing::compare_file(&mut random, library, &case, tally)?;
    let mut random = Random::for_item(asking_seed(seed), item);
    holding::compare_held(&mut random, library, &image, tally)?;
    holding::compare_others(&mut random, library, item, tally)
}
