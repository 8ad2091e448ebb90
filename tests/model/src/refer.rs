//! "What a cell refers to", and when it refers wrongly or to a functor's cell.

use std::collections::BTreeSet;
use std::ops::Range;

use crate::image::Image;
use crate::role::Roles;
use crate::word::{address, arity, tag, value, Address, Tag};

/// Where a cell stands; each place has its own rule for a VAR into the stack.
#[derive(Clone, Copy, Debug, PartialEq, Eq)]
pub enum Holder {
    Heap,
    Stack(usize),
    Control,
}

/// The heap cells that a word refers to as a cell. A functor outside the heap has no arguments.
pub fn refers_to(heap: &[u32], word: u32) -> Range<usize> {
    let at = value(word) as usize;
    match (tag(word), address(value(word))) {
        (Tag::Var, Address::Heap(index)) => index..index + 1,
        (Tag::Var, Address::Stack(_)) | (Tag::Const, _) => 0..0,
        (Tag::List, _) => at..at + 2,
        (Tag::Struct, _) => at..at + 1 + heap.get(at).map_or(0, |functor| arity(*functor)),
    }
}

/// "Wrong reference."
pub fn refers_wrongly(image: &Image, roles: &Roles, holder: Holder, word: u32) -> bool {
    let h = image.control_header().h;
    match (tag(word), address(value(word))) {
        (Tag::Const, _) => false,
        (Tag::Var, Address::Stack(index)) => match holder {
            Holder::Heap => true,
            Holder::Stack(own) => index > own || !roles.is_cell(index),
            Holder::Control => !roles.is_cell(index),
        },
        (Tag::Struct, _) if !is_functor(image, value(word) as usize) => true,
        _ => refers_to(&image.heap, word).end > h,
    }
}

/// "A STRUCT's first cell must be CONST with arity at least 1." Nothing at or above H is read.
fn is_functor(image: &Image, index: usize) -> bool {
    let h = image.control_header().h;
    match image.heap.get(index) {
        Some(first) if index < h => tag(*first) == Tag::Const && arity(*first) >= 1,
        _ => false,
    }
}

/// Document 02, order 2: "a VAR at, a LIST pair over, or a STRUCT whose arguments cover, the first
/// cell of any STRUCT's target". A STRUCT's own first cell is none of its arguments.
pub fn names_a_functor(heap: &[u32], first_cells: &BTreeSet<usize>, word: u32) -> bool {
    let mut cells = refers_to(heap, word);
    if tag(word) == Tag::Struct {
        cells.start += 1;
    }
    cells.any(|x| first_cells.contains(&x))
}
