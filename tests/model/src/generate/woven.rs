//! Images for order 4: rows of heap cells that lead from one to the next, so that chains are long
//! and many of them are equally long.

use super::layout::lay_out;
use super::sizes::Sizes;
use crate::chain::walk;
use crate::image::{Image, FIXED_WORDS};
use crate::random::Random;
use crate::role::roles;
use crate::word::{cell, unbound, Tag, ARITY_LIMIT};

/// Neighbouring cells to which the row before refers.
#[derive(Clone, Copy, Debug)]
struct Row {
    first: usize,
    cells: usize,
    /// Whether a functor's cell stands before the first.
    has_functor: bool,
}

impl Row {
    fn length(&self) -> usize {
        self.cells + usize::from(self.has_functor)
    }
}

/// The rows of one image.
struct Weave {
    rows: Vec<Row>,
    /// The share of references that go to any row, in percent.
    stray: usize,
}

/// A sound image with so many rows of up to `widest` cells, its stack laid out as `sizes` says.
pub fn woven_image(random: &mut Random, sizes: &Sizes, rows: usize, widest: usize) -> Image {
    let weave = Weave {
        rows: place_rows(random, rows, widest),
        stray: random.one_of(&[0, 0, 2, 10]),
    };
    let h = weave.rows.iter().map(Row::length).sum::<usize>() + random.below(3);
    let mut image = lay_out(random, sizes, 0, h);
    let extra = random.below(3);
    image.heap = vec![cell(Tag::Const, 0); h];
    image.heap.extend(random.garbage_list(extra));
    image.trail = random.garbage_list(extra);
    weave.fill_heap(random, &mut image.heap);
    weave.fill_roots(random, &mut image);
    image
}

/// The rows stand anywhere in the heap, none over another.
fn place_rows(random: &mut Random, count: usize, widest: usize) -> Vec<Row> {
    let mut rows: Vec<Row> = Vec::new();
    for _ in 0..count {
        rows.push(Row {
            first: 0,
            cells: random.between(1, widest),
            has_functor: random.percent(30),
        });
    }
    let mut unplaced: Vec<usize> = (0..count).collect();
    let mut end = 0;
    while !unplaced.is_empty() {
        let row = &mut rows[unplaced.swap_remove(random.below(unplaced.len()))];
        end += row.length();
        row.first = end - row.cells;
    }
    rows
}

impl Weave {
    fn fill_heap(&self, random: &mut Random, heap: &mut [u32]) {
        for (number, row) in self.rows.iter().enumerate() {
            if row.has_functor {
                let value = random.below(9) as u32 * ARITY_LIMIT + row.cells as u32;
                heap[row.first - 1] = cell(Tag::Const, value);
            }
            let next = self.rows.get(number + 1);
            for x in row.first..row.first + row.cells {
                heap[x] = match (random.below(12), next) {
                    (0, _) => unbound(x as u32),
                    (1, _) | (_, None) => cell(Tag::Const, x as u32 + 1),
                    (_, Some(next)) => self.into(random, next),
                };
            }
        }
    }

    /// Some roots refer to the first row, the others nowhere.
    fn fill_roots(&self, random: &mut Random, image: &mut Image) {
        let share = random.one_of(&[10, 30, 80]);
        let mut root = || {
            if random.percent(share) {
                self.into(random, &self.rows[0])
            } else {
                cell(Tag::Const, 1)
            }
        };
        let n = image.control_header().n;
        image.control[FIXED_WORDS..FIXED_WORDS + n].fill_with(&mut root);
        let chains = walk(image).expect("the layout is sound");
        for x in roles(image.stack.len(), &chains).cells() {
            image.stack[x] = root();
        }
    }

    /// A reference into this row, or now and then into another one.
    fn into(&self, random: &mut Random, row: &Row) -> u32 {
        if random.percent(self.stray) {
            let other = random.one_of(&self.rows);
            return into_row(random, &other);
        }
        into_row(random, row)
    }
}

/// A reference into a row, to all of it or to a part.
fn into_row(random: &mut Random, row: &Row) -> u32 {
    let at = |x: usize| (row.first + x) as u32;
    match random.below(3) {
        0 if row.has_functor => cell(Tag::Struct, at(0) - 1),
        0 | 1 if row.cells > 1 => cell(Tag::List, at(random.below(row.cells - 1))),
        _ => cell(Tag::Var, at(random.below(row.cells))),
    }
}
