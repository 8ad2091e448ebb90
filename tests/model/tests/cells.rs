//! Refusals 5, 6 and 7: bits, references and trail entries, and the order among them.

mod common;

use common::*;
use model::refusal::Area;
use model::word::{stack_address, NONE, VALUE_LIMIT};

#[test]
fn bits_in_each_kind_of_cell() {
    for bits in 1..=3 {
        let mut image = two_chains();
        image.control[7] |= bits;
        assert_refused(&image, 5, Some((Area::Control, 7)));
        image.stack[12] |= bits;
        assert_refused(&image, 5, Some((Area::Stack, 12)));
        image.stack[11] |= bits;
        assert_refused(&image, 5, Some((Area::Stack, 11)));
        image.heap[1] |= bits;
        assert_refused(&image, 5, Some((Area::Heap, 1)));
        image.heap[0] |= bits;
        assert_refused(&image, 5, Some((Area::Heap, 0)));
    }
}

#[test]
fn bits_in_other_words_are_kept() {
    let mut image = two_chains();
    image.control.push(NONE);
    image.stack.push(NONE);
    image.heap.push(NONE);
    image.trail.push(NONE);
    let mut after = image.clone();
    collected(&mut after).unwrap();
    assert_eq!(after.control.last(), Some(&NONE));
    assert_eq!(after.stack.last(), Some(&NONE));
    assert_eq!(after.heap.last(), Some(&NONE));
    assert_eq!(after.trail.last(), Some(&NONE));
}

#[test]
fn all_of_5_before_all_of_6_before_all_of_7() {
    let mut image = two_chains();
    image.trail[0] = 2;
    assert_refused(&image, 7, Some((Area::Trail, 0)));
    image.control[7] = v(2);
    assert_refused(&image, 6, Some((Area::Control, 7)));
    image.heap[1] = v(2);
    assert_refused(&image, 6, Some((Area::Heap, 1)));
    image.control[7] = v(1) + 1;
    assert_refused(&image, 5, Some((Area::Control, 7)));
}

#[test]
fn references_go_by_h_and_not_by_length() {
    let mut image = tiny(&[v(1)], &[k(0), functor(5, 1), k(1)]);
    image.control[5] = 1;
    assert_refused(&image, 6, Some((Area::Control, 7)));
    image.control[7] = st(1);
    assert_refused(&image, 6, Some((Area::Control, 7)));
    image.control[5] = 2;
    assert_refused(&image, 6, Some((Area::Control, 7)));
    image.control[5] = 3;
    assert_accepted(&image);
}

#[test]
fn dead_cells_count() {
    assert_refused(&tiny(&[], &[v(1)]), 6, Some((Area::Heap, 0)));
    assert_refused(&tiny(&[], &[k(0) + 1]), 5, Some((Area::Heap, 0)));
}

#[test]
fn a_structs_first_cell_is_a_constant() {
    assert_refused(&tiny(&[st(0)], &[v(0), k(0)]), 6, Some((Area::Control, 7)));
    // A VAR whose value would do as a functor's.
    assert_refused(&tiny(&[st(1)], &[k(0), v(1)]), 6, Some((Area::Control, 7)));
}

#[test]
fn references_into_the_stack() {
    // A stack VAR: a cell at or below itself.
    let mut image = two_chains();
    image.stack[11] = s(12);
    assert_refused(&image, 6, Some((Area::Stack, 11)));
    for wrong in [s(9), s(0), s(13), li(134_217_739), st(134_217_739)] {
        let mut image = two_chains();
        image.stack[12] = wrong;
        assert_refused(&image, 6, Some((Area::Stack, 12)));
        let mut image = two_chains();
        image.control[7] = wrong;
        assert_refused(&image, 6, Some((Area::Control, 7)));
    }
    // A heap VAR: no stack word at all.
    let mut image = two_chains();
    image.heap[0] = s(11);
    assert_refused(&image, 6, Some((Area::Heap, 0)));
}

#[test]
fn trail_entries_are_whole_addresses() {
    let fields = [0, 1, 2, 8, 9, 10].map(stack_address);
    let outside = [2, 134_217_727, stack_address(13), NONE];
    let cut = [
        VALUE_LIMIT,
        VALUE_LIMIT + 1,
        VALUE_LIMIT + stack_address(11),
    ];
    for entry in [&fields[..], &outside, &cut].concat() {
        let mut image = two_chains();
        image.trail[1] = entry;
        assert_refused(&image, 7, Some((Area::Trail, 1)));
    }
}
