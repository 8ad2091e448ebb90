//! Document 02's order 5: the stack index that refusal 4 names.

mod common;

use common::*;
use model::chain::walk;
use model::generate;
use model::image::Image;
use model::random::Random;
use model::role::{roles, Role};
use model::word::NONE;

/// The control's frames at 21 and 2, each on cells of what b1 and b2 see.
fn two_conflicts() -> Image {
    let b2 = header(3, 0, NONE, 0, 0, &[k(1), k(2)]);
    let b1 = header(0, NONE, 5, 0, 0, &[k(3), k(4), k(5)]);
    let mut image = Image {
        control: header(0, 21, 14, 0, 0, &[]),
        stack: [&[0, NONE, k(6), NONE, k(7)], &b2[..], &b1].concat(),
        ..Image::default()
    };
    image.stack[21..23].copy_from_slice(&[0, 2]);
    image
}

#[test]
fn of_several_conflicts_the_lowest_is_named() {
    assert_refused_in_stack(&two_conflicts(), 4, 2);
    // Only the upper one, and only the lower one.
    let mut image = two_conflicts();
    image.stack[22] = NONE;
    assert_refused_in_stack(&image, 4, 21);
    let mut image = two_conflicts();
    image.control[2] = 2;
    assert_refused_in_stack(&image, 4, 2);
    // A frame that reaches over two choice points is in conflict from the lower one on.
    let mut image = two_conflicts();
    image.control[1..3].copy_from_slice(&[20, 0]);
    assert_refused_in_stack(&image, 4, 5);
    // A choice point's first word that is a frame's too.
    let mut image = tiny(&[], &[]);
    image.stack = header(NONE, NONE, NONE, 0, 0, &[]);
    image.control[2..4].copy_from_slice(&[0, 0]);
    assert_refused_in_stack(&image, 4, 0);
}

/// The word where the higher of the two begins is named, whichever was seen first.
#[test]
fn the_place_of_a_conflict_does_not_depend_on_the_walk() {
    // The control sees a frame on the cells of one that b2 sees; then the other way round.
    let mut image = two_conflicts();
    image.control[1..3].copy_from_slice(&[1, 2]);
    assert_refused_in_stack(&image, 4, 2);
    image.control[1..3].copy_from_slice(&[3, 0]);
    image.stack[5 + 1] = 1;
    image.stack[5 + 2] = 2;
    assert_refused_in_stack(&image, 4, 2);
}

#[test]
fn a_broken_chain_comes_before_any_conflict() {
    let mut image = two_conflicts();
    image.stack[5 + 2] = 700;
    assert_refused_in_stack(&image, 3, 700);
    // The frame in conflict is broken itself.
    let mut image = two_conflicts();
    image.stack[22] = 21;
    assert_refused_in_stack(&image, 3, 21);
}

/// Of two frames or choice points that overlap, the higher one begins where they first do.
#[test]
fn the_lowest_word_in_conflict_is_a_cl_or_a_p() {
    for item in 0..40_000 {
        let image = generate::image(&mut Random::for_item(17, item));
        let Ok(chains) = walk(&image) else { continue };
        let roles = roles(image.stack.len(), &chains);
        if let Some(index) = roles.lowest_conflict() {
            let mut roles = roles.of(index);
            assert!(roles.any(|role| [Role::Cl, Role::P].contains(&role)));
        }
    }
}
