//! Document 02's order 5: the stack index that refusal 3 names.

mod common;

use common::*;
use model::freeze::file_of;
use model::image::Image;
use model::listing::listing;
use model::month::month;
use model::word::NONE;

const B2: usize = 4;
const B1: usize = 13;
const FRAME: usize = 20;
const OLD_FRAME: usize = 2;
const MIDDLE_FRAME: usize = 11;

/// Two words without a role; an old frame that all see; the choice point b2 above it; a frame on
/// the old one; b1, which sees that frame; and the control's frame, with one cell, on it too.
fn two_choice_points() -> Image {
    let b2 = header(0, OLD_FRAME as u32, NONE, 1, 1, &[]);
    let b1 = header(0, MIDDLE_FRAME as u32, B2 as u32, 1, 1, &[]);
    let frame = [0, MIDDLE_FRAME as u32, k(1)];
    Image {
        control: header(1, FRAME as u32, B1 as u32, 1, 1, &[]),
        stack: [
            &[9, 9, 0, NONE],
            &b2[..],
            &[0, OLD_FRAME as u32],
            &b1,
            &frame,
        ]
        .concat(),
        heap: vec![k(1)],
        trail: vec![0],
    }
}

/// With these stack words changed.
fn with(changes: &[(usize, u32)]) -> Image {
    let mut image = two_choice_points();
    for (at, word) in changes {
        image.stack[*at] = *word;
    }
    image
}

#[test]
fn the_starting_image_is_accepted() {
    assert_accepted(&two_choice_points());
}

/// b1's E is 500, and b2's T is too high.
#[test]
fn the_settled_example() {
    let image = with(&[(B1 + 2, 500), (B2 + 4, 2)]);
    assert_refused_in_stack(&image, 3, 500);
    let file = file_of(&image);
    assert_eq!(listing(&file), "refused 3 stack 500\n");
    assert!(month(&file).starts_with("freeze 1 refused 3 stack 500\nall 0 "));
}

/// "the control's frames first, then from the newest each choice point (place, n, T, H) and after
/// it its frames": each pair of faults that stand beside one another in this order.
#[test]
fn of_two_faults_the_first_in_the_walk_is_named() {
    let mut image = with(&[(B1 + 5, 2)]);
    image.control[2] = 500;
    assert_refused_in_stack(&image, 3, 500);
    // The control's second frame, and b1.
    let image = with(&[(FRAME + 1, 600), (B1 + 5, 2)]);
    assert_refused_in_stack(&image, 3, 600);
    // b1 and its frame; its frame, and b2.
    assert_refused_in_stack(&with(&[(B1 + 5, 2), (B1 + 2, 600)]), 3, B1);
    assert_refused_in_stack(&with(&[(B1 + 2, 600), (B2 + 5, 2)]), 3, 600);
    // b2 and its frame; its frame alone.
    assert_refused_in_stack(&with(&[(B2 + 5, 2), (B2 + 2, 700)]), 3, B2);
    assert_refused_in_stack(&with(&[(B2 + 2, 700)]), 3, 700);
}

/// An older fault that stands lower is not named, nor a newer one that stands higher.
#[test]
fn neither_the_lowest_nor_the_highest_is_meant() {
    assert_refused_in_stack(&with(&[(B1 + 4, 2), (B2 + 4, 3)]), 3, B1);
    assert_refused_in_stack(&with(&[(B1 + 2, 20), (B2 + 2, 21)]), 3, 20);
    assert_refused_in_stack(&with(&[(B1 + 1, 1), (B2 + 2, 21)]), 3, MIDDLE_FRAME);
}

#[test]
fn whatever_is_wrong_with_a_choice_point_it_is_named_itself() {
    for at in [B1, B2] {
        for (field, word) in [(4, 2), (5, 2), (6, 256), (6, 4), (6, NONE), (4, NONE)] {
            assert_refused_in_stack(&with(&[(at + field, word)]), 3, at);
        }
    }
    let all = [(B1 + 6, 300), (B1 + 4, 2), (B1 + 5, 2), (B1 + 2, 500)];
    assert_refused_in_stack(&with(&all), 3, B1);
}

#[test]
fn a_frame_is_named_itself_not_its_end_and_not_who_points_to_it() {
    let mut image = two_choice_points();
    image.control[1] = 2;
    assert_refused_in_stack(&image, 3, FRAME);
    assert_refused_in_stack(&with(&[(FRAME, 8)]), 3, MIDDLE_FRAME);
    assert_refused_in_stack(&with(&[(B1 + 1, 1)]), 3, MIDDLE_FRAME);
    assert_refused_in_stack(&with(&[(MIDDLE_FRAME, 8)]), 3, OLD_FRAME);
    assert_refused_in_stack(&with(&[(B2 + 1, 1)]), 3, OLD_FRAME);
}

#[test]
fn an_index_outside_the_stack_is_named_as_it_is_held() {
    let length = two_choice_points().stack.len() as u32;
    for far in [length - 1, length, length + 1, 1 << 28, NONE - 8, NONE - 1] {
        let mut image = two_choice_points();
        image.control[2] = far;
        assert_refused_in_stack(&image, 3, far as usize);
        let mut image = two_choice_points();
        image.control[3] = far;
        assert_refused_in_stack(&image, 3, far as usize);
        for pointer in [FRAME + 1, B1 + 2, B1 + 3, MIDDLE_FRAME + 1, B2 + 2, B2 + 3] {
            assert_refused_in_stack(&with(&[(pointer, far)]), 3, far as usize);
        }
    }
    let mut image = tiny(&[], &[]);
    image.control[2..4].copy_from_slice(&[NONE - 1, NONE - 2]);
    assert_refused_in_stack(&image, 3, NONE as usize - 1);
    assert_eq!(listing(&file_of(&image)), "refused 3 stack 4294967294\n");
    image.control[2] = NONE;
    assert_refused_in_stack(&image, 3, NONE as usize - 2);
}

#[test]
fn a_pointer_to_its_own_index_names_it() {
    for at in [FRAME, MIDDLE_FRAME, OLD_FRAME] {
        assert_refused_in_stack(&with(&[(at + 1, at as u32)]), 3, at);
    }
    for at in [B1, B2] {
        assert_refused_in_stack(&with(&[(at + 2, at as u32)]), 3, at);
        assert_refused_in_stack(&with(&[(at + 3, at as u32)]), 3, at);
    }
}

/// A walk that stops at a frame seen before must measure it first.
#[test]
fn a_frame_seen_before_whose_new_view_is_too_long() {
    // b1 sees the old frame with a size that reaches past b1; the control saw it with none.
    let changes = [(B1 + 2, OLD_FRAME as u32), (B1 + 1, 10)];
    assert_refused_in_stack(&with(&changes), 3, OLD_FRAME);
    let one_less = [(B1 + 2, OLD_FRAME as u32), (B1 + 1, 9)];
    assert_refused_in_stack(&with(&one_less), 4, B2);
    // A frame below b1 that nobody saw yet sees the old one so.
    let mut image = with(&[(MIDDLE_FRAME, 8)]);
    image.control[1..3].copy_from_slice(&[0, OLD_FRAME as u32]);
    assert_refused_in_stack(&image, 3, OLD_FRAME);
}

/// The control's frame is whole where the control sees it, and stands above b1, which sees it too.
#[test]
fn a_frame_broken_only_in_its_older_view() {
    let image = with(&[(B1 + 2, FRAME as u32), (B1 + 1, 1)]);
    assert_refused_in_stack(&image, 3, FRAME);
    // Between two frames: the middle one sees the newer one.
    let image = with(&[(MIDDLE_FRAME + 1, FRAME as u32)]);
    assert_refused_in_stack(&image, 3, FRAME);
}
