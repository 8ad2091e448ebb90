//! Fills the trail, and binds older cells to younger ones as a running engine would.

use super::ages::Ages;
use super::terms::Terms;
use crate::image::Image;
use crate::random::Random;
use crate::refer::Holder;
use crate::word::*;

/// Gives older cells references that only a step back undoes, with a trail entry for each.
pub fn bind_later(random: &mut Random, image: &mut Image, ages: &Ages, terms: &Terms) {
    let mut free: Vec<usize> = (0..ages.t[0]).collect();
    let heap = (0..ages.h[0]).filter(|x| tag(image.heap[*x]) != Tag::Const);
    let mut cells: Vec<u32> = heap.map(|x| x as u32).collect();
    // A saved argument is left alone: its undoing would spoil the state that copies it.
    let stack = ages.cells.iter();
    let stack = stack.filter(|x| ages.is_cell_in(**x, ages.of_stack(**x)));
    cells.extend(stack.map(|x| stack_address(*x)));
    for own in cells {
        if random.percent(30) {
            bind_cell(random, image, ages, terms, own, &mut free);
        }
    }
}

/// Binds one cell in a state before its last one and takes a free trail word above the T of the
/// first state that must not see the binding.
fn bind_cell(
    random: &mut Random,
    image: &mut Image,
    ages: &Ages,
    terms: &Terms,
    own: u32,
    free: &mut Vec<usize>,
) {
    let (age, holder) = match address(own) {
        Address::Heap(x) => (ages.of_heap(x), Holder::Heap),
        Address::Stack(x) => (ages.of_stack(x), Holder::Stack(x)),
    };
    let bound_in = random.below(age);
    let first = ages.t.get(bound_in + 1).copied().unwrap_or(usize::MAX);
    let usable = free.partition_point(|index| *index < first);
    if usable == free.len() {
        return;
    }
    let chosen = random.between(usable, free.len() - 1);
    image.trail[free.remove(chosen)] = own;
    let word = terms.some_cell(random, ages, holder, bound_in, own);
    match address(own) {
        Address::Heap(x) => image.heap[x] = word,
        Address::Stack(x) => image.stack[x] = word,
    }
}

/// Fills each trail word below T with a legal entry; a word that has one already is left.
pub fn fill_trail(
    random: &mut Random,
    image: &mut Image,
    ages: &Ages,
    terms: &Terms,
    filled: &[bool],
) {
    for (index, already) in filled.iter().enumerate() {
        if !already {
            image.trail[index] = some_entry(random, image, ages, terms, index);
        }
    }
}

/// A legal entry. Some repeat an older one, some name words without a role.
fn some_entry(random: &mut Random, image: &Image, ages: &Ages, terms: &Terms, index: usize) -> u32 {
    // The entry outlives every step back to a T above it.
    let age = ages.t.iter().rposition(|t| *t > index).unwrap_or(0);
    let h = ages.h[age];
    for _ in 0..6 {
        let found = match random.below(10) {
            0 if index > 0 => Some(image.trail[random.below(index)]),
            1 => some_word_without_a_role(random, ages, image.stack.len()),
            2 | 3 => {
                let chosen = random.maybe_one_of(&ages.cells);
                chosen.map(stack_address)
            }
            _ if h > 0 => Some(random.below(h) as u32),
            _ => None,
        };
        if let Some(entry) = found.filter(|entry| fits(random, ages, terms, *entry)) {
            return entry;
        }
    }
    any_entry(image, ages, terms, h)
}

/// No entry on a functor, and mostly none on a saved argument: undoing it would spoil the next
/// state.
fn fits(random: &mut Random, ages: &Ages, terms: &Terms, entry: u32) -> bool {
    match address(entry) {
        Address::Heap(x) => !terms.is_functor(x),
        Address::Stack(x) => {
            let spoils = ages.of_stack(x) > 0 && !ages.is_cell_in(x, ages.of_stack(x));
            !spoils || random.percent(10)
        }
    }
}

fn some_word_without_a_role(random: &mut Random, ages: &Ages, length: usize) -> Option<u32> {
    let index = random.below(length);
    let free = index < length && ages.roles.of(index).count() == 0;
    free.then(|| stack_address(index))
}

/// The first legal entry there is: below `h`, in the stack, or else below the image's own H, where
/// every functor has an argument that will do.
fn any_entry(image: &Image, ages: &Ages, terms: &Terms, h: usize) -> u32 {
    let in_heap = |h: usize| (0..h).find(|x| !terms.is_functor(*x));
    let in_stack = (0..image.stack.len()).find(|x| !ages.roles.is_field(*x));
    match (in_heap(h), in_stack) {
        (Some(x), _) => x as u32,
        (None, Some(x)) => stack_address(x),
        (None, None) => in_heap(ages.h[0]).unwrap_or(0) as u32,
    }
}

/// Whether any trail entry could be legal.
pub fn entries_possible(image: &Image, ages: &Ages) -> bool {
    ages.h[0] > 0 || (0..image.stack.len()).any(|x| !ages.roles.is_field(x))
}
