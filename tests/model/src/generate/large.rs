//! Large images for order 4: long chains, wide levels, many roots.

use super::short::{constant, functor, header, list, structure, var};
use super::sizes::SMALL;
use super::woven::woven_image;
use crate::check::MOST_HEAP;
use crate::image::{Image, MOST_ARGUMENTS};
use crate::random::Random;
use crate::word::NONE;

/// An image and the heap cells to ask for.
pub struct LargeCase {
    pub image: Image,
    pub asked: Vec<usize>,
}

pub const LARGE_KINDS: u64 = 8;

/// The pairs of a long list, and the cells of a long row of VARs.
const LONG: usize = 100_000;

pub fn large_case(random: &mut Random, kind: u64) -> LargeCase {
    match kind {
        0 => rising_list(LONG),
        1 => falling_list(LONG),
        2 => ring(random, LONG),
        3 => ladder(random, LONG / 2),
        4 => wide(random),
        5 => many_roots(random),
        6 => woven(random),
        _ => LargeCase {
            asked: vec![MOST_HEAP - 1],
            ..rising_list(MOST_HEAP / 2)
        },
    }
}

/// No stack; one argument after some that hold nothing.
fn held_by_argument(heap: Vec<u32>, argument: u32) -> Image {
    let arguments = [constant(0), constant(1), argument];
    Image {
        control: header(0, NONE, NONE, heap.len(), &arguments),
        heap,
        ..Image::default()
    }
}

/// A list of so many pairs, each one's tail being the next.
fn rising_list(pairs: usize) -> LargeCase {
    let mut heap = Vec::new();
    for pair in 0..pairs {
        let next = 2 * pair + 2;
        heap.push(constant(pair));
        heap.push(if pair + 1 < pairs {
            list(next)
        } else {
            constant(0)
        });
    }
    let image = held_by_argument(heap, list(0));
    let asked = vec![2 * pairs - 1, 2 * pairs - 2, pairs];
    LargeCase { image, asked }
}

/// The same list from the heap's end to its front.
fn falling_list(pairs: usize) -> LargeCase {
    let mut heap = Vec::new();
    for pair in 0..pairs {
        heap.push(constant(pair));
        heap.push(if pair > 0 {
            list(2 * pair - 2)
        } else {
            constant(0)
        });
    }
    let image = held_by_argument(heap, list(2 * pairs - 2));
    let asked = vec![0, 1, pairs];
    LargeCase { image, asked }
}

/// VARs, each referring to the next, in an arbitrary order; a frame's cell refers to one of them.
pub fn ring(random: &mut Random, cells: usize) -> LargeCase {
    let order = some_order(random, cells);
    // The cell at H - 1 is in no ring.
    let mut heap = vec![var(cells); cells + 1];
    for (x, next) in order.iter().zip(order.iter().cycle().skip(1)) {
        heap[*x] = var(*next);
    }
    let image = Image {
        control: header(1, 0, NONE, heap.len(), &[]),
        stack: vec![0, NONE, var(order[0])],
        heap,
        ..Image::default()
    };
    let asked = vec![order[cells - 1], order[cells / 2], order[0], cells];
    LargeCase { image, asked }
}

/// The numbers below `count` in an arbitrary order.
fn some_order(random: &mut Random, count: usize) -> Vec<usize> {
    let mut order: Vec<usize> = (0..count).collect();
    for x in (1..count).rev() {
        order.swap(x, random.below(x + 1));
    }
    order
}

/// Pairs, in an arbitrary order, both of whose cells refer to both of the next: the chains double
/// with each. A few cells refer elsewhere.
fn ladder(random: &mut Random, pairs: usize) -> LargeCase {
    let order = some_order(random, pairs);
    let mut heap = vec![constant(0); 2 * pairs];
    for steps in order.windows(2) {
        let (x, next) = (2 * steps[0], 2 * steps[1]);
        for cell in [x, x + 1] {
            heap[cell] = match random.below(8) {
                0 => var(next),
                1 => var(next + 1),
                _ => list(next),
            };
        }
    }
    let image = held_by_argument(heap, list(2 * order[0]));
    let last = 2 * order[pairs - 1];
    let asked = vec![last, last + 1, 2 * order[pairs / 2]];
    LargeCase { image, asked }
}

/// A structure of structures of 255 arguments each; many of the arguments refer to the last cell.
fn wide(random: &mut Random) -> LargeCase {
    let row = MOST_ARGUMENTS + 1;
    let mut heap = vec![functor(1, MOST_ARGUMENTS)];
    heap.extend((1..row).map(|argument| structure(argument * row)));
    let last = row * row;
    for name in 1..row {
        heap.push(functor(name, MOST_ARGUMENTS));
        for _ in 0..MOST_ARGUMENTS {
            let refers = random.below(50) == 0;
            heap.push(if refers { var(last) } else { constant(1) });
        }
    }
    heap.push(constant(2));
    let image = held_by_argument(heap, structure(0));
    let asked = vec![last, last - 1, last / 2, 0];
    LargeCase { image, asked }
}

/// Frames and choice points of 255 cells, one on another, and 255 arguments in the control area,
/// each referring to a cell of its own that refers to the last cell or to one before it.
fn many_roots(random: &mut Random) -> LargeCase {
    const EACH: usize = 200;
    let roots = MOST_ARGUMENTS * (1 + 2 * EACH);
    // Whether any root of an area is near decides between the areas.
    let near_in_control = random.percent(50);
    let mut heap = Vec::new();
    for root in 0..roots {
        let near = random.below(1000) == 0 && (root >= MOST_ARGUMENTS || near_in_control);
        heap.push(var(if near { roots + 1 } else { roots }));
    }
    heap.extend([var(roots + 1), constant(3)]);
    let mut order = some_order(random, roots).into_iter();
    let mut cells = || -> Vec<u32> { order.by_ref().take(MOST_ARGUMENTS).map(var).collect() };
    let arguments = cells();
    let (mut e, mut b) = (NONE, NONE);
    let mut stack = Vec::new();
    for _ in 0..EACH {
        let frame = stack.len() as u32;
        stack.extend([MOST_ARGUMENTS as u32, e]);
        stack.extend(cells());
        e = frame;
        let choice_point = stack.len() as u32;
        stack.extend(header(MOST_ARGUMENTS, e, b, heap.len(), &cells()));
        b = choice_point;
    }
    let image = Image {
        control: header(MOST_ARGUMENTS, e, b, heap.len(), &arguments),
        stack,
        heap,
        ..Image::default()
    };
    let asked = vec![roots + 1, roots, roots / 2];
    LargeCase { image, asked }
}

fn woven(random: &mut Random) -> LargeCase {
    let image = woven_image(random, &SMALL, 3_000, 40);
    let h = image.control_header().h;
    let asked = (0..3).map(|_| random.below(h)).collect();
    LargeCase { image, asked }
}
