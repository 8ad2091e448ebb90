//! Step back and its trail entries, and the look-up.

mod common;

use common::*;
use model::image::Image;
use model::look_up::{look_up, Part};
use model::refusal::{refused, refused_at, Area};
use model::word::{stack_address, NONE, STACK_BASE};

/// A choice point at 0 with one saved argument, then a word without a role.
fn with_trail(trail: &[u32]) -> Image {
    Image {
        control: header(0, NONE, 0, trail.len() as u32, 2, &[k(4)]),
        stack: [&header(0, NONE, NONE, 0, 1, &[k(5)])[..], &[NONE]].concat(),
        heap: vec![k(1), k(2)],
        trail: trail.to_vec(),
    }
}

#[test]
fn an_entry_without_a_role_is_dropped_by_a_collection() {
    let mut image = with_trail(&[stack_address(8)]);
    assert_eq!(collected(&mut image), Ok(counts((0, 2), (0, 1))));
    assert_eq!(image.stack[8], NONE);
    assert_eq!(image.trail, [0]);
}

#[test]
fn an_entry_without_a_role_is_written_by_a_step_back() {
    let mut image = with_trail(&[stack_address(8)]);
    assert_eq!(stepped(&mut image), Ok(1));
    assert_eq!(image.stack[8], s(8));
    assert_eq!(image.trail, [stack_address(8)]);
}

#[test]
fn equal_entries_are_undone_twice() {
    let mut image = with_trail(&[0, 0]);
    assert_eq!(stepped(&mut image), Ok(2));
    assert_eq!(image.heap, [v(0), k(2)]);
}

#[test]
fn cells_at_or_above_the_choice_points_h_are_written() {
    let mut image = with_trail(&[1]);
    assert_eq!(stepped(&mut image), Ok(1));
    assert_eq!(image.heap, [k(1), v(1)]);
    assert_eq!(image.control, [1, 0, NONE, NONE, 0, 1, 1, k(5)]);
}

#[test]
fn only_entries_at_or_above_the_choice_points_t_are_undone() {
    let mut image = with_trail(&[0, 1]);
    image.stack[4] = 1;
    assert_eq!(stepped(&mut image), Ok(1));
    assert_eq!(image.heap, [k(1), v(1)]);
}

/// A step can be granted and leave a refused state: the undo comes before the copy, and the
/// saved argument's own word has no role any more.
#[test]
fn an_undone_saved_argument_leaves_a_refused_state() {
    let mut image = with_trail(&[stack_address(7)]);
    assert_eq!(stepped(&mut image), Ok(1));
    assert_eq!(image.control[7], s(7));
    let refusal = refused_at(6, Area::Control, 7);
    assert_eq!(collected(&mut image), Err(refusal));
}

#[test]
fn words_past_the_copied_ones_stay() {
    let mut image = with_trail(&[]);
    image.control = header(0, NONE, 0, 0, 2, &[k(4), k(6), k(7)]);
    assert_eq!(stepped(&mut image), Ok(0));
    let copied = header(0, NONE, NONE, 0, 1, &[k(5)]);
    assert_eq!(image.control[..8], copied);
    assert_eq!(image.control[8..], [k(6), k(7)]);
}

#[test]
fn look_up_goes_by_lengths() {
    let part = |area, index, length| Part {
        area,
        index,
        length,
    };
    let neither = part(Area::Heap, 0, 0);
    assert_eq!(look_up(3, 2, 0), part(Area::Heap, 0, 3));
    assert_eq!(look_up(3, 2, 2), part(Area::Heap, 2, 1));
    assert_eq!(look_up(3, 2, 3), neither);
    assert_eq!(look_up(3, 2, STACK_BASE - 1), neither);
    assert_eq!(look_up(3, 2, STACK_BASE), part(Area::Stack, 0, 2));
    assert_eq!(look_up(3, 2, STACK_BASE + 1), part(Area::Stack, 1, 1));
    assert_eq!(look_up(3, 2, STACK_BASE + 2), neither);
    assert_eq!(look_up(3, 2, u32::MAX), neither);
    assert_eq!(look_up(0, 0, 0), neither);
}

/// "takes areas of any length": a heap longer than its addresses goes on into no other area.
#[test]
fn look_up_in_areas_of_any_length() {
    let long = STACK_BASE as usize + 10;
    let last = look_up(long, 1, STACK_BASE - 1);
    assert_eq!(last.area, Area::Heap);
    assert_eq!(last.length, 11);
    assert_eq!(look_up(long, 1, STACK_BASE).area, Area::Stack);
    assert_eq!(look_up(long, 0, STACK_BASE).length, 0);
    assert_eq!(look_up(0, usize::MAX, u32::MAX).area, Area::Stack);
}

#[test]
fn step_back_needs_room_in_the_control_area() {
    let mut image = tiny(&[], &[]);
    image.stack = header(0, NONE, NONE, 0, 0, &[k(1)]);
    image.control[3] = 0;
    let before = image.clone();
    assert_eq!(stepped(&mut image), Err(refused(9)));
    assert_eq!(image, before);
    image.control.push(5);
    assert_eq!(stepped(&mut image), Ok(0));
    assert_eq!(image.control, before.stack);
    assert_eq!(stepped(&mut image), Err(refused(8)));
}
