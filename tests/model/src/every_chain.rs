//! Order 4 by brute force: every chain to a cell, and the least of them. It takes time that grows
//! with the number of chains, so it is for small images alone.

use crate::chain::FRAME_WORDS;
use crate::check::Checked;
use crate::held::Chain;
use crate::image::{Image, FIXED_WORDS};
use crate::refer::refers_to;
use crate::refusal::{Area, Place};

/// Every chain to the asked cell that has no cell twice; one that has is not the shortest.
pub fn every_chain(image: &Image, checked: &Checked, asked: usize) -> Vec<Chain> {
    let mut found = Vec::new();
    for (root, word) in all_roots(image, checked) {
        let none = Chain {
            root,
            cells: Vec::new(),
        };
        extend(image, &none, word, asked, &mut found);
    }
    found
}

/// Adds what `word`, the last cell of a chain or its root, refers to, in all ways.
fn extend(image: &Image, chain: &Chain, word: u32, asked: usize, found: &mut Vec<Chain>) {
    for x in refers_to(&image.heap, word) {
        if chain.cells.contains(&x) {
            continue;
        }
        let mut longer = chain.clone();
        longer.cells.push(x);
        if x == asked {
            found.push(longer);
        } else {
            extend(image, &longer, image.heap[x], asked, found);
        }
    }
}

/// The roots as each view and each choice point gives them; a cell seen twice is there twice.
fn all_roots(image: &Image, checked: &Checked) -> Vec<(Place, u32)> {
    let mut places = Vec::new();
    for x in 0..image.control_header().n {
        places.push((Area::Control, FIXED_WORDS + x));
    }
    for view in &checked.chains.views {
        places.extend((0..view.size).map(|x| (Area::Stack, view.at + FRAME_WORDS + x)));
    }
    for found in &checked.chains.choice_points {
        let arguments = 0..found.header.n;
        places.extend(arguments.map(|x| (Area::Stack, found.at + FIXED_WORDS + x)));
    }
    let places = places.into_iter();
    let words = places.map(|(area, index)| {
        let area_words = match area {
            Area::Control => &image.control,
            _ => &image.stack,
        };
        (Place { area, index }, area_words[index])
    });
    words.collect()
}

/// What a chain is judged by: its length, then its places, "control before stack".
pub type Rank = (usize, Vec<usize>);

pub fn rank(chain: &Chain) -> Rank {
    let control_first = usize::from(chain.root.area != Area::Control);
    let mut places = vec![control_first, chain.root.index];
    places.extend(&chain.cells);
    (chain.cells.len(), places)
}

/// The least of all chains to the asked cell, if there is one.
pub fn least_chain(image: &Image, checked: &Checked, asked: usize) -> Option<Chain> {
    let chains = every_chain(image, checked, asked).into_iter();
    chains.min_by_key(rank)
}
