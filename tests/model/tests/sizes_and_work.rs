//! Refusals 1 and 2, and what becomes of the work words.

mod common;

use common::*;
use model::image::Image;
use model::refusal::refused;
use model::word::NONE;

#[test]
fn the_starting_image_is_accepted() {
    assert_accepted(&two_chains());
}

/// The areas in the order control, stack, heap, trail.
fn areas(image: &mut Image) -> [&mut Vec<u32>; 4] {
    let Image {
        control,
        stack,
        heap,
        trail,
    } = image;
    [control, stack, heap, trail]
}

#[test]
fn sizes() {
    for (area, length) in [(0, 263), (1, 262_145), (2, 1_048_577), (3, 262_145)] {
        let mut image = two_chains();
        areas(&mut image)[area].resize(length, 0);
        assert_refused(&image, 1, None);
        areas(&mut image)[area].pop();
        assert_accepted(&image);
    }
}

#[test]
fn work_too_short_stays_as_it_was() {
    let mut image = two_chains();
    let mut work = vec![7; image.work_needed() - 1];
    let answer = model::collect::collect(&mut image, &mut work);
    assert_eq!(answer, Err(refused(1)));
    assert!(work.iter().all(|word| *word == 7));
    assert_eq!(image, two_chains());
}

#[test]
fn work_under_refusal_1_stays_even_if_it_is_long_enough() {
    let mut image = two_chains();
    image.control.truncate(6);
    let mut work = vec![7; 100];
    assert_eq!(
        model::step_back::step_back(&mut image, &mut work),
        Err(refused(1))
    );
    assert_eq!(work, [7; 100]);
}

#[test]
fn work_beyond_what_is_needed_stays_as_it_was() {
    for trail_entry in [0, 9] {
        let mut image = two_chains();
        image.trail[0] = trail_entry;
        let needed = image.work_needed();
        let mut work = vec![7; needed + 3];
        let answer = model::collect::collect(&mut image, &mut work);
        assert_eq!(answer.is_ok(), trail_entry == 0);
        assert_eq!(work[..needed], vec![0; needed]);
        assert_eq!(work[needed..], [7, 7, 7]);
    }
}

#[test]
fn counts_above_lengths() {
    for (field, count) in [(4, 3), (5, 3), (6, 2), (6, NONE), (6, 4_294_967_289)] {
        let mut image = two_chains();
        image.control[field] = count;
        assert_refused(&image, 2, None);
    }
}
