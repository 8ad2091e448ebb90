//! Listings at the program's limits and of refused images.

mod common;

use std::fs;
use std::path::Path;

use common::*;
use model::freeze::file_of;
use model::image::Image;
use model::listing::listing;

/// Constants everywhere, as many as the listing program takes.
fn longest() -> Image {
    Image {
        control: header(0, u32::MAX, u32::MAX, 512, 2048, &[k(1); 255]),
        stack: vec![3; 1024],
        heap: vec![k(2); 2048],
        trail: vec![0; 512],
    }
}

#[test]
fn the_longest_legal_file() {
    let mut file = file_of(&longest());
    assert_eq!(file.len(), 19_248);
    let text = listing(&file);
    assert!(text.starts_with("kept 0 2048 trail 0 512\ncontrol 1 0 "));
    assert!(text.ends_with("\nheap\ntrail\nend\n"));
    file.push(6);
    assert_eq!(listing(&file), "file 13 19248\n");
    let mut longer = longest();
    longer.stack.push(0);
    assert_eq!(listing(&file_of(&longer)), "file 12 0\n");
}

/// The freeze files of `crates/shows`, which are made by `tests/make_shows.py`, as the program that
/// the crate makes prints them one after the other.
#[test]
fn the_stored_listings_are_the_model_s() {
    let crate_shows = Path::new(env!("CARGO_MANIFEST_DIR")).join("../../crates/shows");
    let names = fs::read_to_string(crate_shows.join("args")).expect("the names");
    let mut text = String::new();
    for name in names.lines() {
        let file = fs::read(crate_shows.join("data").join(name)).expect("a freeze file");
        text += &format!("{name}\n{}", listing(&file));
    }
    let stored = fs::read_to_string(crate_shows.join("stdout")).expect("the listings");
    assert!(names.lines().count() > 100 && text == stored);
}

#[test]
fn a_trail_entry_past_the_counted_stack() {
    let mut image = night_a();
    image.trail[1] = 134_217_728 + 12;
    assert_eq!(listing(&file_of(&image)), "refused 7 trail 1\n");
}

#[test]
fn broken_chains_and_conflicts_are_listed_with_their_places() {
    let mut image = night_a();
    for e in [11, 12, 500, 4_294_967_294] {
        image.control[2] = e;
        let line = format!("refused 3 stack {e}\n");
        assert_eq!(listing(&file_of(&image)), line);
    }
    // At 8, 5 and 0 the words of the choice point happen to be a sound chain of frames.
    image.control[2] = 8;
    assert_eq!(listing(&file_of(&image)), "refused 4 stack 5\n");
}
