//! The mix of random images and files: it must meet every answer often enough to be of use.

use model::check::check_image;
use model::compare::answers::Model;
use model::compare::run;
use model::compare::tally::Tally;
use model::generate::{any_sound_image, tiny_image};
use model::random::Random;
use model::refusal::Area;

const SEED: u64 = 2024;
const COUNT: u64 = 20_000;

/// At least this share of all calls, in parts of a thousand.
fn assert_share(what: &str, met: u64, all: u64, thousandths: u64) {
    assert!(met * 1000 >= all * thousandths, "{what}: {met} of {all}");
}

fn assert_images(tally: &Tally) {
    let all = tally.images;
    assert_share("accepted", tally.collect.of(0), all, 400);
    for number in (1..=7).chain([17]) {
        let name = format!("collect refused {number}");
        assert_share(&name, tally.collect.of(number), all, 3);
    }
    for number in [0, 8, 9, 17] {
        let name = format!("step back {number}");
        assert_share(&name, tally.step_back.of(number), all, 3);
    }
    for number in [5, 6, 17] {
        for area in [Area::Heap, Area::Stack, Area::Control] {
            let name = format!("{number} {}", area.name());
            assert_share(&name, tally.at(number, area), all, 3);
        }
    }
    assert_share("17 trail", tally.at(17, Area::Trail), all, 3);
    for number in [3, 4] {
        let in_stack = tally.at(number, Area::Stack);
        assert_eq!(
            in_stack,
            tally.collect.of(number),
            "{number} is always in the stack"
        );
    }
    let accepted = tally.collect.of(0);
    assert_share("cells kept and dropped", tally.cells_both, accepted, 500);
    assert_share("entries of both kinds", tally.entries_both, accepted, 300);
}

fn assert_files(tally: &Tally) {
    for number in [0, 1, 10, 11, 12, 13, 14] {
        let name = format!("thaw {number}");
        assert_share(&name, tally.thaw.of(number), tally.files, 3);
    }
    for number in [0, 1, 2, 15] {
        let name = format!("freeze {number}");
        assert_share(&name, tally.freeze.of(number), tally.images, 3);
    }
    let records = tally.record.of(0) + tally.record.of(10) + tally.record.of(11);
    for number in [0, 10, 11] {
        assert_share("record", tally.record.of(number), records, 100);
    }
}

fn assert_held(tally: &Tally) {
    let all = tally.images;
    for number in (0..=7).chain([17, 18, 19]) {
        let name = format!("why held {number}");
        assert_share(&name, tally.why_held.of(number), all, 3);
    }
    let held = &tally.held;
    assert_share("dead", held.dead, all, 200);
    assert_share("held by an argument", held.by_argument, all, 100);
    assert_share("held by a frame's cell", held.by_frame_cell, all, 100);
    assert_share("held by a saved argument", held.by_saved_argument, all, 100);
    for (class, thousandths) in [300, 100, 10].into_iter().enumerate() {
        let name = format!("chains, class {class}");
        assert_share(&name, held.lengths[class], all, thousandths);
    }
    // Five large images, in each of which three cells or more are asked for.
    assert!(held.large >= 15 && held.lengths[3] >= 5, "{held:?}");
}

/// The model against itself: no difference, demand 3 holds on every schedule, both round trips
/// hold, and every answer is met.
#[test]
fn the_model_agrees_with_itself_on_a_useful_mix() {
    let tally = run(&Model, SEED, 0..COUNT, |_| {}).expect("no difference");
    assert_images(&tally);
    assert_files(&tally);
    assert_held(&tally);
    for steps in [1, 2, 3] {
        let name = format!("{steps} steps back");
        assert_share(&name, tally.schedules[steps], tally.images, 10);
    }
}

#[test]
fn sound_images_are_accepted() {
    for item in 0..COUNT {
        let image = any_sound_image(&mut Random::for_item(SEED, item));
        assert_eq!(check_image(&image).err(), None, "item {item}");
    }
}

#[test]
fn the_same_seed_gives_the_same_image() {
    let image = |seed| tiny_image(&mut Random::for_item(seed, 5));
    assert_eq!(image(SEED), image(SEED));
    assert_ne!(image(SEED), image(SEED + 1));
}
