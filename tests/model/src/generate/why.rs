//! Inputs of the program `why`: a freeze file and its arguments, each made from a seed and its own
//! number alone.

use super::file::cut_to_counts;
use super::large::ring;
use super::month::{bad_file, some_file};
use super::sizes::draw_listed;
use super::woven_image;
use crate::check::check_image;
use crate::freeze::file_of;
use crate::listing::{read_image, LISTING_HEAP};
use crate::random::Random;
use crate::reached::reached;

pub struct WhyInput {
    pub arguments: Vec<Vec<u8>>,
    pub file: Vec<u8>,
}

impl WhyInput {
    /// The arguments as they might be given to a shell; what is no text is shown as numbers.
    pub fn arguments_text(&self) -> String {
        let arguments = self.arguments.iter();
        let arguments = arguments.map(|argument| match std::str::from_utf8(argument) {
            Ok(text) => format!("{text:?}"),
            Err(_) => format!("{argument:?}"),
        });
        let arguments: Vec<String> = arguments.collect();
        arguments.join(" ")
    }
}

pub fn why_input(seed: u64, item: u64) -> WhyInput {
    let mut random = Random::for_item(seed, item);
    let file = file_to_ask(&mut random);
    let arguments = if random.percent(12) {
        bad_arguments(&mut random)
    } else {
        vec![digits(&mut random, &file)]
    };
    WhyInput { arguments, file }
}

fn file_to_ask(random: &mut Random) -> Vec<u8> {
    match random.below(100) {
        0..=7 => bad_file(random),
        8..=49 => file_of(&cut_to_counts(woven_image(random))),
        50..=51 => file_of(&ring(random, LISTING_HEAP - 1).image),
        _ => {
            let sizes = draw_listed(random, 10);
            some_file(random, &sizes, 25)
        }
    }
}

/// A heap index in decimal: mostly of a held cell, if there is one.
fn digits(random: &mut Random, file: &[u8]) -> Vec<u8> {
    let index = some_index(random, file).to_string();
    let zeros = match random.below(20) {
        0 => random.between(1, 300),
        1 => 1,
        _ => 0,
    };
    [vec![b'0'; zeros], index.into_bytes()].concat()
}

fn some_index(random: &mut Random, file: &[u8]) -> u32 {
    let Ok(image) = read_image(file) else {
        return random.below(20) as u32;
    };
    let h = image.control_header().h as u32;
    let held = match check_image(&image) {
        Ok(checked) => reached(&image, &checked).indexes(),
        Err(_) => Vec::new(),
    };
    match (random.below(20), random.maybe_one_of(&held)) {
        (0, _) => random.one_of(&[h, h, h + 1, u32::MAX, u32::MAX - 1]),
        (1, _) => random.garbage(),
        (2..=4, _) | (_, None) => random.below(h as usize) as u32,
        (_, Some(x)) => x as u32,
    }
}

fn bad_arguments(random: &mut Random) -> Vec<Vec<u8>> {
    let number = random.below(40).to_string().into_bytes();
    let stray = random.one_of(b"/:-+ .,xae\n\t'_\x01\x7f\xb2\xff");
    match random.below(8) {
        0 => Vec::new(),
        1 => vec![number; random.between(2, 4)],
        2 => vec![Vec::new(); random.between(1, 2)],
        3 => vec![[&number[..], &[stray]].concat()],
        4 => vec![[&[stray], &number[..]].concat()],
        5 => vec![[&number[..], &[stray], &number].concat()],
        6 => {
            let above = u128::from(random.garbage());
            let limit = random.one_of(&[1 << 32, 1 << 32, 1 << 63, 1 << 64, 1 << 65, 1 << 126]);
            vec![(limit + above).to_string().into_bytes()]
        }
        _ => vec![vec![b'9'; random.between(11, 5_000)]],
    }
}
