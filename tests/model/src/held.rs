//! Document 02, order 4: "Why is it held?"

use std::collections::BTreeSet;

use crate::chain::{Chains, FRAME_WORDS};
use crate::check::{check, Checked};
use crate::collect::leave_work;
use crate::image::{Image, FIXED_WORDS};
use crate::reached::roots;
use crate::refer::refers_to;
use crate::refusal::{refused, Area, Place, Refusal, CHAIN_ABOVE_ROOM, INDEX_AT_H};

/// "a root (control argument, frame cell or saved argument, by area and index), then heap cells
/// down to the asked one, each referring to the next"
#[derive(Clone, Debug, PartialEq, Eq)]
pub struct Chain {
    pub root: Place,
    /// Heap indexes; the last is the asked one, and their number is the chain's length.
    pub cells: Vec<usize>,
}

/// What a root is, counted from 1.
#[derive(Clone, Copy, Debug, PartialEq, Eq)]
pub enum RootKind {
    Argument { number: usize },
    FrameCell { number: usize, frame: usize },
    SavedArgument { number: usize, choice_point: usize },
}

/// The root at this place. A stack word belongs to one frame, though several views may have it, or
/// to one choice point; anything else is refused 4.
pub fn root_kind(chains: &Chains, place: Place) -> RootKind {
    let x = place.index;
    if place.area == Area::Control {
        let number = x - FIXED_WORDS + 1;
        return RootKind::Argument { number };
    }
    for view in &chains.views {
        let first = view.at + FRAME_WORDS;
        if (first..first + view.size).contains(&x) {
            let (number, frame) = (x - first + 1, view.at);
            return RootKind::FrameCell { number, frame };
        }
    }
    for found in &chains.choice_points {
        let first = found.at + FIXED_WORDS;
        if (first..first + found.header.n).contains(&x) {
            let (number, choice_point) = (x - first + 1, found.at);
            return RootKind::SavedArgument {
                number,
                choice_point,
            };
        }
    }
    unreachable!("a root in the stack is a frame's cell or a saved argument")
}

/// Answers with a chain, or with none for a dead cell. "The lent room takes the heap indexes; [...]
/// the rest of the room stays."
pub fn why_held(
    image: &Image,
    work: &mut [u32],
    asked: u32,
    room: &mut [u32],
) -> Result<Option<Chain>, Refusal> {
    let verdict = check(image, work.len());
    leave_work(image, work, verdict.as_ref().err());
    let checked = verdict?;
    let asked = asked as usize;
    if asked >= image.control_header().h {
        return Err(refused(INDEX_AT_H));
    }
    let Some(chain) = chain_to(image, &checked, asked) else {
        return Ok(None);
    };
    if chain.cells.len() > room.len() {
        return Err(refused(CHAIN_ABOVE_ROOM));
    }
    for (word, cell) in room.iter_mut().zip(&chain.cells) {
        *word = *cell as u32;
    }
    Ok(Some(chain))
}

/// "It is the shortest, and among equals has the lowest places from the root on, control before
/// stack."
///
/// Of each level only those cells are looked at from which the asked one is still met in time;
/// among them the lowest place is taken at each step.
pub fn chain_to(image: &Image, checked: &Checked, asked: usize) -> Option<Chain> {
    let levels = levels_to(image, checked, asked)?;
    let levels = leading_to(image, levels, asked);
    let refers_into = |word: u32, level: &BTreeSet<usize>| {
        let mut cells = refers_to(&image.heap, word);
        cells.find(|x| level.contains(x))
    };
    let mut roots = roots(image, checked).into_iter();
    let root = roots.find(|root| refers_into(root.word, &levels[0]).is_some());
    let root = root.expect("a root refers to each cell of the first level");
    let mut word = root.word;
    let mut cells = Vec::new();
    for level in &levels {
        let lowest = refers_into(word, level).expect("each level is met from the one before");
        cells.push(lowest);
        word = image.heap[lowest];
    }
    Some(Chain {
        root: root.place,
        cells,
    })
}

/// The cells that a root refers to, those not among them that one of these refers to, and so on
/// up to the level that has the asked cell; nothing if none has it.
fn levels_to(image: &Image, checked: &Checked, asked: usize) -> Option<Vec<BTreeSet<usize>>> {
    let targets = |word: u32| refers_to(&image.heap, word);
    let roots = roots(image, checked).into_iter();
    let mut level: BTreeSet<usize> = roots.flat_map(|root| targets(root.word)).collect();
    let mut seen = vec![false; image.control_header().h];
    let mut levels = Vec::new();
    while !level.is_empty() {
        level.iter().for_each(|x| seen[*x] = true);
        let met = level.contains(&asked);
        let next = level.iter().flat_map(|x| targets(image.heap[*x]));
        let next = next.filter(|x| !seen[*x]).collect();
        levels.push(level);
        if met {
            return Some(levels);
        }
        level = next;
    }
    None
}

/// The same levels with only the asked cell in the last, and in each other one only the cells that
/// refer to one left in the next.
fn leading_to(
    image: &Image,
    mut levels: Vec<BTreeSet<usize>>,
    asked: usize,
) -> Vec<BTreeSet<usize>> {
    let last = levels.len() - 1;
    levels[last] = BTreeSet::from([asked]);
    for k in (0..last).rev() {
        let (above, below) = levels.split_at_mut(k + 1);
        let next = &below[0];
        above[k].retain(|x| refers_to(&image.heap, image.heap[*x]).any(|y| next.contains(&y)));
    }
    levels
}
