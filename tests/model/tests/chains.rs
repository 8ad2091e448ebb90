//! Refusals 3 and 4: bounds of frames and choice points, and overlaps.

mod common;

use common::*;
use model::word::NONE;

#[test]
fn numbers_near_the_largest_do_not_wrap() {
    let mut empty = tiny(&[], &[]);
    empty.control[2] = 4_294_967_294;
    assert_refused_in_stack(&empty, 3, 4_294_967_294);
    let mut b = two_chains();
    b.control[3] = 4_294_967_289;
    assert_refused_in_stack(&b, 3, 4_294_967_289);
    let mut n = two_chains();
    n.stack[2 + 6] = 4_294_967_289;
    assert_refused_in_stack(&n, 3, 2);
}

#[test]
fn frames_end_at_their_bounds() {
    // The control's frame at the stack's end.
    let mut image = two_chains();
    image.control[1] = 3;
    assert_refused_in_stack(&image, 3, 9);
    image.stack.push(k(0));
    assert_accepted(&image);
    // The choice point's frame at the choice point.
    let mut image = two_chains();
    image.stack[2 + 1] = 1;
    assert_refused_in_stack(&image, 3, 0);
    // The child frame of an older one.
    let mut image = two_chains();
    image.stack[9] = 7;
    assert_refused_in_stack(&image, 4, 2);
    image.stack[9] = 8;
    assert_refused_in_stack(&image, 3, 0);
}

#[test]
fn a_pointer_to_its_own_index_is_no_loop() {
    let mut image = two_chains();
    image.stack[10] = 9;
    assert_refused_in_stack(&image, 3, 9);
    let mut image = two_chains();
    image.stack[2 + 3] = 2;
    assert_refused_in_stack(&image, 3, 2);
}

#[test]
fn a_choice_point_and_its_bounds() {
    // It ends at the stack's length, and one past it.
    let mut image = tiny(&[], &[]);
    image.stack = header(0, NONE, NONE, 0, 0, &[k(1)]);
    image.control[3] = 0;
    assert_accepted(&image);
    image.stack[6] = 2;
    assert_refused_in_stack(&image, 3, 0);
    // n of 255 and 256.
    image.stack.resize(7 + 256, k(3));
    image.stack[6] = 255;
    assert_accepted(&image);
    image.stack[6] = 256;
    assert_refused_in_stack(&image, 3, 0);
    // T and H at most the newer one's.
    for field in [4, 5] {
        let mut image = two_chains();
        image.stack[2 + field] = 2;
        assert_accepted(&image);
        image.stack[2 + field] = 3;
        assert_refused_in_stack(&image, 3, 2);
    }
}

#[test]
fn a_choice_points_frame_stands_below_it() {
    let mut image = two_chains();
    image.stack[2 + 2] = 9;
    assert_refused_in_stack(&image, 3, 9);
}

#[test]
fn the_controls_frame_may_stand_below_the_newest_choice_point() {
    let mut image = two_chains();
    image.control[1..3].copy_from_slice(&[0, 0]);
    image.control[7] = k(0);
    assert_accepted(&image);
}

#[test]
fn with_none_no_size_is_read() {
    let mut image = two_chains();
    image.control[1..3].copy_from_slice(&[255, NONE]);
    image.control[7] = k(0);
    assert_accepted(&image);
    let mut image = two_chains();
    image.stack[9..11].copy_from_slice(&[255, NONE]);
    assert_accepted(&image);
}

#[test]
fn overlapping_objects() {
    // The control's frame one word off another one, or over the choice point.
    for e in [1, 3, 4] {
        let mut image = two_chains();
        image.control[1..3].copy_from_slice(&[0, e]);
        image.stack[e as usize + 1] = NONE;
        assert_refused_in_stack(&image, 4, e as usize);
    }
    // The frame at 0 seen so large that it covers the choice point's first word.
    let mut image = two_chains();
    image.control[1..3].copy_from_slice(&[1, 0]);
    assert_refused_in_stack(&image, 4, 2);
}

#[test]
fn the_same_frame_at_another_size_is_no_conflict() {
    let mut image = two_chains();
    image.stack.splice(2..2, [k(1), k(2)]);
    image.control[2..4].copy_from_slice(&[0, 4]);
    image.control[7] = k(0);
    image.trail[1] = 0;
    for size in 0..=2 {
        image.stack[4 + 1] = size;
        assert_accepted(&image);
    }
}
