//! "Settled examples" of document 01, and Night A.

mod common;

use common::*;
use model::check::check_image;
use model::freeze::{file_of, freeze};
use model::image::Image;
use model::listing::listing;
use model::reached::reached;
use model::refusal::{refused, Area, BadFile};
use model::thaw::thaw;
use model::word::NONE;

#[test]
fn night_a_collects_as_printed() {
    let mut image = night_a();
    let answer = collected(&mut image);
    assert_eq!(answer, Ok(counts((6, 3), (2, 1))));
    assert_eq!(image.control, [1, 258, 0, 4, 2, 6, 1, 2147483696]);
    let stack = [0, 4294967295, 4, 108, 2, 258, 0, 4294967295, 0, 3, 1, 32];
    assert_eq!(image.stack, stack);
    assert_eq!(image.heap, [20524, 48, 156, 72, 76, 12, 0, 0, 0]);
    assert_eq!(image.trail, [1, 134217731, 0]);
}

#[test]
fn night_a_is_listed_whole() {
    assert_eq!(listing(&file_of(&night_a())), NIGHT_A_LISTING);
}

#[test]
fn night_a_has_a_file_of_178_bytes() {
    let mut output = vec![0xEE; 180];
    assert_eq!(freeze(&night_a(), &mut output), Ok(178));
    assert_eq!(output[..178], file_of(&night_a()));
    assert_eq!(output[178..], [0xEE, 0xEE]);
    assert_eq!(freeze(&night_a(), &mut [0; 177]), Err(15));
}

#[test]
fn night_a_reaches_six_cells() {
    let image = night_a();
    let checked = check_image(&image).unwrap();
    assert_eq!(reached(&image, &checked).indexes(), [1, 2, 3, 6, 7, 8]);
}

#[test]
fn collecting_again_drops_nothing() {
    let mut image = night_a();
    collected(&mut image).unwrap();
    let once = image.clone();
    assert_eq!(collected(&mut image), Ok(counts((6, 0), (2, 0))));
    assert_eq!(image, once);
}

#[test]
fn step_back_undoes_three_and_collecting_keeps_three() {
    let mut image = night_a();
    assert_eq!(stepped(&mut image), Ok(3));
    assert_eq!(image.control, [2, 258, 0, NONE, 0, 5, 1, 48]);
    let answer = collected(&mut image).unwrap();
    assert_eq!(answer.cells_kept, 3);
    assert_eq!(image.heap[..3], [20524, 16, 156]);
    assert_eq!(image.control[5], 3);
}

#[test]
fn collect_step_back_collect_is_the_same() {
    let mut plain = night_a();
    stepped(&mut plain).unwrap();
    collected(&mut plain).unwrap();
    let mut mixed = night_a();
    collected(&mut mixed).unwrap();
    assert_eq!(stepped(&mut mixed), Ok(2));
    collected(&mut mixed).unwrap();
    assert_eq!(mixed.control, plain.control);
    assert_eq!(mixed.heap[..3], [20524, 16, 156]);
    let (mixed_checked, plain_checked) = (check_image(&mixed), check_image(&plain));
    assert_eq!(
        model::readable::readable(&mixed, &mixed_checked.unwrap()),
        model::readable::readable(&plain, &plain_checked.unwrap())
    );
}

#[test]
fn the_empty_machine_is_accepted() {
    let mut image = tiny(&[], &[]);
    assert_eq!(collected(&mut image), Ok(counts((0, 0), (0, 0))));
    assert_eq!(image, tiny(&[], &[]));
    let text =
        "kept 0 0 trail 0 0\ncontrol 1 0 4294967295 4294967295 0 0 0\nstack\nheap\ntrail\nend\n";
    assert_eq!(listing(&file_of(&image)), text);
}

#[test]
fn a_list_at_h_minus_one_and_minus_two() {
    assert_refused(&tiny(&[li(1)], &[k(1), k(2)]), 6, Some((Area::Control, 7)));
    assert_accepted(&tiny(&[li(0)], &[k(1), k(2)]));
    let heap = [k(0), k(1), li(2)];
    assert_refused(&tiny(&[], &heap), 6, Some((Area::Heap, 2)));
    assert_accepted(&tiny(&[], &[k(0), k(1), li(1)]));
}

#[test]
fn arity_nought_is_refused() {
    let image = tiny(&[st(0)], &[functor(5, 0), k(1)]);
    assert_refused(&image, 6, Some((Area::Control, 7)));
    assert_accepted(&tiny(&[st(0)], &[functor(5, 1), k(1)]));
}

#[test]
fn two_trail_entries_of_night_a_are_refused() {
    for entry in [134_217_732, 9] {
        let mut image = night_a();
        image.trail[0] = entry;
        assert_refused(&image, 7, Some((Area::Trail, 0)));
        assert_eq!(listing(&file_of(&image)), "refused 7 trail 0\n");
    }
}

#[test]
fn equal_trail_entries_share_their_fate() {
    for (entry, kept) in [(2, 2), (4, 0)] {
        let mut image = night_a();
        image.trail = vec![entry, entry, 134217731];
        let answer = collected(&mut image).unwrap();
        assert_eq!(answer.entries_kept, kept + 1);
        assert_eq!(answer.entries_dropped, 2 - kept);
    }
}

#[test]
fn a_control_area_of_six_words() {
    let mut image = night_a();
    image.control.truncate(6);
    assert_refused(&image, 1, None);
}

#[test]
fn step_back_without_a_choice_point() {
    let mut image = tiny(&[], &[]);
    assert_eq!(stepped(&mut image), Err(refused(8)));
    assert_eq!(image, tiny(&[], &[]));
}

#[test]
fn the_empty_file() {
    let mut lent = Image {
        control: vec![9; 7],
        ..Image::default()
    };
    let bad = BadFile {
        number: 10,
        offset: 0,
    };
    assert_eq!(thaw(&[], &mut lent), Err(bad));
    assert_eq!(lent.control, [9; 7]);
    assert_eq!(listing(&[]), "file 10 0\n");
}
