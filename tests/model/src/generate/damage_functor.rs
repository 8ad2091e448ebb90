//! Damage to functors' cells: refusal 17, and what just passes it.

use super::damage_cells::some_cell_word;
use super::spot::{spots, Spots};
use crate::image::*;
use crate::random::Random;
use crate::refer::refers_to;
use crate::refusal::Area;
use crate::word::*;

/// Puts a reference to a functor's cell into a cell or the trail, or one that misses it by a word.
pub fn name_functor(random: &mut Random, image: &mut Image) {
    let Some(spots) = spots(image) else { return };
    let h = image.control_header().h.min(image.heap.len());
    if h < 2 {
        return;
    }
    if random.percent(25) {
        return hide_struct(random, image, &spots, h);
    }
    let known = random.maybe_one_of(&targets(image, &spots, h));
    let first = match known {
        Some(first) if random.percent(60) => first,
        _ => make_structure(random, image, &spots, h),
    };
    match random.below(9) {
        0 => enter(random, image, first),
        1..=4 => refer(random, image, &spots, first, |random, image| {
            some_culprit(random, image, first, h)
        }),
        5..=6 => refer(random, image, &spots, first, |random, image| {
            some_outer(random, image, first, 0, h)
        }),
        7 => enter(random, image, first + 1),
        _ => refer(random, image, &spots, first, |random, image| {
            some_near_miss(random, image, first, h)
        }),
    }
}

/// The first cells of all structures that the image's cells refer to.
fn targets(image: &Image, spots: &Spots, h: usize) -> Vec<usize> {
    let control = image.control_header();
    let arguments = image.control.iter().skip(FIXED_WORDS).take(control.n);
    let stack = spots.roles.cells();
    let cells = image.heap[..h].iter().chain(arguments).copied();
    let cells = cells.chain(stack.into_iter().map(|x| image.stack[x]));
    let structs = cells.filter(|word| tag(*word) == Tag::Struct);
    let whole = structs.filter(|word| refers_to(&image.heap, *word).end <= h);
    whole.map(|word| value(word) as usize).collect()
}

/// Lays a functor and lets some cell refer to it: any cell, so that it is often a dead one.
fn make_structure(random: &mut Random, image: &mut Image, spots: &Spots, h: usize) -> usize {
    let first = random.below(h - 1);
    let arity = random.between(1, (h - first - 1).min(3));
    lay_functor(random, image, first, arity);
    refer(random, image, spots, first, |_, _| {
        Some(cell(Tag::Struct, first as u32))
    });
    first
}

fn lay_functor(random: &mut Random, image: &mut Image, at: usize, arity: usize) {
    let name = random.below(9) as u32;
    image.heap[at] = cell(Tag::Const, name * ARITY_LIMIT + arity as u32);
}

/// Writes a reference into some cell, which must not be the functor's own.
fn refer(
    random: &mut Random,
    image: &mut Image,
    spots: &Spots,
    first: usize,
    reference: impl FnOnce(&mut Random, &mut Image) -> Option<u32>,
) {
    let Some(word) = reference(random, image) else {
        return;
    };
    let spared = [first, value(word) as usize];
    let (place, area, index) = some_cell_word(random, image, spots);
    if area == Area::Heap && spared.contains(&index) {
        return;
    }
    if let Some(place) = place {
        *place = word;
    }
}

/// A VAR at the functor's cell, a LIST over it with either half, or a STRUCT around it.
fn some_culprit(random: &mut Random, image: &mut Image, first: usize, h: usize) -> Option<u32> {
    match random.below(4) {
        0 => Some(cell(Tag::Var, first as u32)),
        1 => Some(cell(Tag::List, first as u32)),
        2 => Some(cell(Tag::List, first.checked_sub(1)? as u32)),
        _ => some_outer(random, image, first, 0, h),
    }
}

/// A STRUCT below the functor whose arguments end `short` cells before it, or with 0 cover it.
fn some_outer(
    random: &mut Random,
    image: &mut Image,
    first: usize,
    short: usize,
    h: usize,
) -> Option<u32> {
    let at = first.checked_sub(short + 1 + random.below(3))?;
    let least = first - at - short;
    let most = if short == 0 { h - at - 1 } else { least };
    let arity = random.between(least, most.min(least + 3)).min(255);
    lay_functor(random, image, at, arity);
    Some(cell(Tag::Struct, at as u32))
}

/// References to the cells beside the functor's, and one more STRUCT at it.
fn some_near_miss(random: &mut Random, image: &mut Image, first: usize, h: usize) -> Option<u32> {
    match random.below(5) {
        0 => Some(cell(Tag::Var, first as u32 + 1)),
        1 if first + 2 < h => Some(cell(Tag::List, first as u32 + 1)),
        2 => Some(cell(Tag::List, first.checked_sub(2)? as u32)),
        3 => some_outer(random, image, first, 1, h),
        _ => Some(cell(Tag::Struct, first as u32)),
    }
}

/// Names the functor's cell by a trail entry below T.
fn enter(random: &mut Random, image: &mut Image, first: usize) {
    let t = image.control_header().t.min(image.trail.len());
    if t > 0 {
        image.trail[random.below(t)] = first as u32;
    }
}

/// Lets only words that are no cells, or only a dead cell, refer to what was a plain constant, and
/// a cell name that constant. The first is sound, the second is not.
fn hide_struct(random: &mut Random, image: &mut Image, spots: &Spots, h: usize) {
    let Some(first) = some_look_alike(random, image, spots, h) else {
        return;
    };
    let hidden = cell(Tag::Struct, first as u32);
    if random.percent(50) {
        // Nothing refers to the cell at H, which is one below the new H.
        image.heap.insert(h, hidden);
        image.control[FIELD_H] = h as u32 + 1;
    } else {
        fill_roleless(image, spots, h, hidden);
    }
    refer(random, image, spots, first, |_, _| {
        Some(cell(Tag::Var, first as u32))
    });
}

/// A constant that would do as a functor, but no STRUCT refers to it.
fn some_look_alike(random: &mut Random, image: &Image, spots: &Spots, h: usize) -> Option<usize> {
    let taken = targets(image, spots, h);
    let would_do = |x: &usize| {
        let word = image.heap[*x];
        tag(word) == Tag::Const && arity(word) >= 1 && x + 1 + arity(word) <= h
    };
    let plain = (0..h).filter(|x| would_do(x) && !taken.contains(x));
    random.maybe_one_of(&plain.collect::<Vec<usize>>())
}

/// Puts the word everywhere where no cell is: above n and H, and in stack words without a role.
fn fill_roleless(image: &mut Image, spots: &Spots, h: usize, word: u32) {
    for x in 0..image.stack.len() {
        if spots.roles.of(x).count() == 0 {
            image.stack[x] = word;
        }
    }
    image.heap[h..].fill(word);
    let past = FIXED_WORDS + image.control_header().n;
    for place in image.control.iter_mut().skip(past) {
        *place = word;
    }
}
