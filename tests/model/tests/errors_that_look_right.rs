//! "Errors that look right": for each an image whose right answer tells it from the wrong one.

mod common;

use common::*;
use model::image::Image;
use model::refusal::Area;
use model::word::NONE;

/// Marking a whole structure because one argument is marked.
#[test]
fn one_argument_does_not_hold_its_structure() {
    let mut image = tiny(&[v(1)], &[functor(5, 2), k(7), k(8)]);
    assert_eq!(collected(&mut image), Ok(counts((1, 2), (0, 0))));
    assert_eq!(image.heap, [k(7), 0, 0]);
    assert_eq!(image.control[7], v(0));
}

/// A list pair over two arguments holds just these two.
#[test]
fn a_pair_inside_a_structure_holds_two_cells() {
    let mut image = tiny(&[li(2)], &[functor(5, 4), k(1), k(2), k(3), k(4)]);
    assert_eq!(collected(&mut image), Ok(counts((2, 3), (0, 0))));
    assert_eq!(image.heap, [k(2), k(3), 0, 0, 0]);
}

/// Skipping a structure's arguments because its functor's cell is marked: since document 02's order
/// 2 only a STRUCT can have marked it. A constant that no STRUCT refers to is a plain one.
#[test]
fn a_var_at_a_functor_is_refused_and_at_a_constant_holds_one_cell() {
    let heap = [functor(5, 1), li(2), k(1), k(2)];
    let both = tiny(&[v(0), st(0)], &heap);
    assert_refused(&both, 17, Some((Area::Control, 7)));
    let mut structure = tiny(&[st(0), st(0)], &heap);
    assert_eq!(collected(&mut structure), Ok(counts((4, 0), (0, 0))));
    let mut var_alone = tiny(&[v(0)], &heap);
    assert_eq!(collected(&mut var_alone), Ok(counts((1, 3), (0, 0))));
}

/// A frame at 0 with two cells, and a choice point above it.
fn shared_frame(control_size: u32, choice_size: u32) -> Image {
    let frame = [0, NONE, v(0), v(1)];
    let choice_point = header(choice_size, 0, NONE, 0, 0, &[]);
    Image {
        control: header(control_size, 0, 4, 0, 2, &[]),
        stack: [&frame[..], &choice_point].concat(),
        heap: vec![k(1), k(2)],
        trail: vec![],
    }
}

/// Stopping a frame chain at a shared frame seen earlier with a smaller size.
#[test]
fn a_shared_frame_is_seen_small_and_then_large() {
    for (control_size, choice_size, kept) in [(0, 0, 0), (0, 1, 1), (1, 2, 2), (2, 1, 2)] {
        let mut image = shared_frame(control_size, choice_size);
        let answer = collected(&mut image);
        assert_eq!(answer, Ok(counts((kept, 2 - kept), (0, 0))));
    }
}

/// The same, where both chains come to the shared frame only through other frames.
#[test]
fn a_shared_frame_further_down_is_seen_small_and_then_large() {
    let shared = [0, NONE, v(0), v(1)];
    // At 4 a frame that the choice point sees, at 6 the choice point, at 13 the control's frame.
    let seen_large = [2, 0];
    let choice_point = header(0, 4, NONE, 0, 0, &[]);
    let seen_small = [0, 0];
    let mut image = Image {
        control: header(0, 13, 6, 0, 2, &[]),
        stack: [&shared[..], &seen_large, &choice_point, &seen_small].concat(),
        heap: vec![k(1), k(2)],
        trail: vec![],
    };
    assert_eq!(collected(&mut image), Ok(counts((2, 0), (0, 0))));
}

/// Moving a boundary to where its cell went, when that cell is dead.
#[test]
fn a_boundary_at_a_dead_cell_counts_the_cells_below() {
    for (boundary, moved) in [(0, 0), (1, 1), (2, 1), (3, 2), (4, 2)] {
        let mut image = Image {
            control: header(0, NONE, 0, 0, 4, &[v(0), v(2)]),
            stack: header(0, NONE, NONE, 0, boundary, &[]),
            heap: vec![k(1), k(2), k(3), k(4)],
            trail: vec![],
        };
        assert_eq!(collected(&mut image), Ok(counts((2, 2), (0, 0))));
        assert_eq!(image.stack[5], moved);
        assert_eq!(image.heap, [k(1), k(3), 0, 0]);
    }
}

/// Undoing a dropped trail entry's old address after collecting.
#[test]
fn a_dropped_entry_is_not_undone() {
    let mut image = Image {
        control: header(0, NONE, 0, 1, 2, &[]),
        stack: header(0, NONE, NONE, 0, 2, &[v(1)]),
        heap: vec![v(1), k(7)],
        trail: vec![0],
    };
    image.control.push(0);
    assert_eq!(collected(&mut image), Ok(counts((1, 1), (0, 1))));
    assert_eq!(image.heap, [k(7), 0]);
    assert_eq!(stepped(&mut image), Ok(0));
    assert_eq!(image.heap, [k(7), 0]);
    assert_eq!(image.control[7], v(0));
}
