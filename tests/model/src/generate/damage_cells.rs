//! Damage to cells and trail entries: refusals 5, 6 and 7, and what just passes them.

use super::spot::{spots, Spots};
use crate::image::*;
use crate::random::Random;
use crate::refusal::Area;
use crate::word::*;

/// Sets m or f in a cell, or in a word that is none.
pub fn set_bits(random: &mut Random, image: &mut Image) {
    let Some(spots) = spots(image) else { return };
    let bits = random.between(1, 3) as u32;
    if random.percent(12) {
        let words = some_area(random, image);
        let chosen = random.below(words.len());
        words
            .iter_mut()
            .skip(chosen)
            .take(1)
            .for_each(|w| *w |= bits);
    } else if let Some(word) = some_cell_word(random, image, &spots).0 {
        *word |= bits;
    }
}

fn some_area<'a>(random: &mut Random, image: &'a mut Image) -> &'a mut [u32] {
    match random.below(4) {
        0 => &mut image.control,
        1 => &mut image.stack,
        2 => &mut image.heap,
        _ => &mut image.trail,
    }
}

/// One cell and its area: the heap below H, the stack's cells and the control's arguments have
/// equal chances, as far as they have any.
pub fn some_cell_word<'a>(
    random: &mut Random,
    image: &'a mut Image,
    spots: &Spots,
) -> (Option<&'a mut u32>, Area, usize) {
    let control = image.control_header();
    let cells = spots.roles.cells();
    let mut areas = Vec::new();
    if control.h.min(image.heap.len()) > 0 {
        areas.push(Area::Heap);
    }
    if !cells.is_empty() {
        areas.push(Area::Stack);
    }
    if control.n.min(image.control.len() - FIXED_WORDS) > 0 {
        areas.push(Area::Control);
    }
    match random.maybe_one_of(&areas) {
        Some(Area::Heap) => {
            let x = random.below(control.h.min(image.heap.len()));
            (image.heap.get_mut(x), Area::Heap, x)
        }
        Some(Area::Stack) => {
            let x = random.one_of(&cells);
            (image.stack.get_mut(x), Area::Stack, x)
        }
        _ => {
            let x = FIXED_WORDS + random.below(control.n);
            (image.control.get_mut(x), Area::Control, x)
        }
    }
}

/// Puts a reference into a cell that is wrong, or right by one word.
pub fn misrefer(random: &mut Random, image: &mut Image) {
    let Some(spots) = spots(image) else { return };
    let heap_word = misplaced_in_heap(random, image);
    let length = image.stack.len();
    let (cell_word, area, index) = some_cell_word(random, image, &spots);
    let Some(cell_word) = cell_word else { return };
    let own = if area == Area::Stack { index } else { length };
    *cell_word = match random.below(5) {
        0 | 1 => misplaced_in_stack(random, length, own, &spots),
        _ => heap_word,
    };
}

/// A VAR, LIST or STRUCT near H, near the heap's length, or far off.
fn misplaced_in_heap(random: &mut Random, image: &mut Image) -> u32 {
    let h = image.control_header().h.min(image.heap.len());
    if random.percent(40) {
        return misplaced_struct(random, image, h);
    }
    let near_h = (h + random.below(5)).saturating_sub(2) as u32;
    let far = [STACK_BASE - 1, STACK_BASE, VALUE_LIMIT - 1, VALUE_LIMIT - 2];
    let value = match random.below(8) {
        0 => random.one_of(&far),
        1 => image.heap.len() as u32,
        _ => near_h,
    };
    let kind = random.one_of(&[Tag::Var, Tag::List, Tag::List, Tag::Struct]);
    cell(kind, value)
}

/// A STRUCT whose first cell is no functor, or whose arguments end at H or past it.
fn misplaced_struct(random: &mut Random, image: &mut Image, h: usize) -> u32 {
    if h == 0 {
        return cell(Tag::Struct, 0);
    }
    let first = random.below(h);
    let room = h - first - 1;
    let arity = match random.below(5) {
        0 => 0,
        1 => return cell(Tag::Struct, first as u32),
        2 => room,
        _ => room + 1,
    };
    let name = random.below(9) as u32;
    image.heap[first] = cell(Tag::Const, name * ARITY_LIMIT + arity.min(255) as u32);
    cell(Tag::Struct, first as u32)
}

/// A reference to a stack word: a field, a word without a role, one above, one outside.
fn misplaced_in_stack(random: &mut Random, length: usize, own: usize, spots: &Spots) -> u32 {
    let x = match random.below(5) {
        0 => own + 1,
        1 => length,
        2 => random.below(length),
        3 => spots.roles.cells().last().copied().unwrap_or(0),
        _ => (VALUE_LIMIT - 1 - STACK_BASE) as usize - random.below(2),
    };
    let kind = random.one_of(&[Tag::Var, Tag::Var, Tag::Var, Tag::List, Tag::Struct]);
    cell(kind, stack_address(x))
}

/// Puts a wrong entry, or one right by a word, into the trail below T.
pub fn misenter(random: &mut Random, image: &mut Image) {
    let Some(spots) = spots(image) else { return };
    let control = image.control_header();
    let t = control.t.min(image.trail.len());
    if t == 0 {
        return;
    }
    let index = random.below(t);
    let length = image.stack.len();
    let some_word = random.below(length);
    // H may be miscounted already.
    let cells = control.h.min(image.heap.len());
    let fields = spots.roles.with_a_role();
    let fields: Vec<usize> = fields
        .into_iter()
        .filter(|x| spots.roles.is_field(*x))
        .collect();
    image.trail[index] = match random.below(9) {
        0 | 1 => (control.h + random.below(3)).saturating_sub(1) as u32,
        2 => image.heap.len() as u32,
        3 => random.one_of(&[STACK_BASE - 1, VALUE_LIMIT - 1, u32::MAX]),
        4 => stack_address((length + random.below(3)).saturating_sub(1)),
        // Cut to 28 bits these would be legal.
        5 => VALUE_LIMIT + stack_address(some_word),
        6 => VALUE_LIMIT + random.below(cells) as u32,
        _ => stack_address(random.maybe_one_of(&fields).unwrap_or(length)),
    };
}
