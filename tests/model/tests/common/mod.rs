//! Short names for words, and small images.
#![allow(dead_code)] // Each test file uses some of these.

use model::collect::{collect, Counts};
use model::image::Image;
use model::refusal::{Area, Place, Refusal};
use model::step_back::step_back;
use model::word::{cell, stack_address, Tag, NONE};

/// VAR to a heap cell.
pub fn v(address: u32) -> u32 {
    cell(Tag::Var, address)
}

/// VAR to a stack word.
pub fn s(index: usize) -> u32 {
    cell(Tag::Var, stack_address(index))
}

/// STRUCT.
pub fn st(address: u32) -> u32 {
    cell(Tag::Struct, address)
}

/// LIST.
pub fn li(address: u32) -> u32 {
    cell(Tag::List, address)
}

/// CONST.
pub fn k(value: u32) -> u32 {
    cell(Tag::Const, value)
}

/// A functor's cell.
pub fn functor(name: u32, arity: u32) -> u32 {
    cell(Tag::Const, name * 256 + arity)
}

/// The fixed part and the saved arguments, of the control area or a choice point, P being 1.
pub fn header(l: u32, e: u32, b: u32, t: u32, h: u32, arguments: &[u32]) -> Vec<u32> {
    let fixed = [1, l, e, b, t, h, arguments.len() as u32];
    [&fixed, arguments].concat()
}

/// An image without stack and trail; all of the heap is below H.
pub fn tiny(arguments: &[u32], heap: &[u32]) -> Image {
    Image {
        control: header(0, NONE, NONE, 0, heap.len() as u32, arguments),
        heap: heap.to_vec(),
        ..Image::default()
    }
}

pub fn night_a() -> Image {
    Image {
        control: vec![1, 258, 0, 4, 3, 9, 1, 2147483696],
        stack: vec![0, 4294967295, 20, 108, 2, 258, 0, 4294967295, 0, 5, 1, 48],
        heap: vec![124, 20524, 96, 156, 112, 28, 120, 76, 12],
        trail: vec![2, 4, 134217731],
    }
}

pub const NIGHT_A_LISTING: &str = "\
kept 6 3 trail 2 1
control 1 258 0 4 2 6 1 2147483696
stack 0 4294967295 4 108 2 258 0 4294967295 0 3 1 32
heap 20524 48 156 72 76 12
trail 1 134217731
end
";

/// Collects with just enough work, which must be 0 afterwards.
pub fn collected(image: &mut Image) -> Result<Counts, Refusal> {
    let mut work = vec![7; image.work_needed()];
    let answer = collect(image, &mut work);
    if answer.map_err(|refusal| refusal.number) != Err(1) {
        assert!(work.iter().all(|word| *word == 0));
    }
    answer
}

/// Steps back with just enough work.
pub fn stepped(image: &mut Image) -> Result<usize, Refusal> {
    let mut work = vec![7; image.work_needed()];
    step_back(image, &mut work)
}

pub fn counts(cells: (usize, usize), entries: (usize, usize)) -> Counts {
    Counts {
        cells_kept: cells.0,
        cells_dropped: cells.1,
        entries_kept: entries.0,
        entries_dropped: entries.1,
    }
}

/// Asserts that collecting and stepping back refuse with this number, change no area, and leave
/// the work words as the document says.
pub fn assert_refused(image: &Image, number: u32, place: Option<(Area, usize)>) {
    let place = place.map(|(area, index)| Place { area, index });
    let refusal = Refusal { number, place };
    let mut after = image.clone();
    assert_eq!(collected(&mut after), Err(refusal));
    assert_eq!(stepped(&mut after), Err(refusal));
    assert_eq!(after, *image);
}

/// Asserts that the image is refused so, at this stack index.
pub fn assert_refused_in_stack(image: &Image, number: u32, index: usize) {
    assert_refused(image, number, Some((Area::Stack, index)));
}

/// Asserts that the image is accepted.
pub fn assert_accepted(image: &Image) {
    assert_eq!(collected(&mut image.clone()).err(), None);
}

/// A choice point at 2 above an empty frame at 0, the control's frame of two cells at 9.
pub fn two_chains() -> Image {
    let choice_point = header(0, 0, NONE, 1, 1, &[]);
    let frame = [0, 0, k(1), s(11)];
    Image {
        control: header(2, 9, 2, 2, 2, &[s(12)]),
        stack: [&[77, NONE], &choice_point[..], &frame].concat(),
        heap: vec![k(1), v(1)],
        trail: vec![0, stack_address(11)],
    }
}
