//! "Look-up".

use crate::refusal::Area;
use crate::word::{address, Address};

/// A part of the heap or of the stack, by where it begins and its length.
#[derive(Clone, Copy, Debug, PartialEq, Eq)]
pub struct Part {
    pub area: Area,
    pub index: usize,
    pub length: usize,
}

/// "An address in neither gives the empty part at the heap's start."
pub fn look_up(heap_length: usize, stack_length: usize, number: u32) -> Part {
    let (area, index, area_length) = match address(number) {
        Address::Heap(x) => (Area::Heap, x, heap_length),
        Address::Stack(x) => (Area::Stack, x, stack_length),
    };
    if index >= area_length {
        return Part {
            area: Area::Heap,
            index: 0,
            length: 0,
        };
    }
    Part {
        area,
        index,
        length: area_length - index,
    }
}
