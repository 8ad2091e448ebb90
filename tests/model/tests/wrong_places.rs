//! Document 02's order 5: other readings of its words, each seen rejected by the comparison, and how
//! often random images tell them from the right one.

#[path = "common/readings.rs"]
mod readings;
#[path = "common/wrong.rs"]
mod wrong;

use std::collections::BTreeMap;

use model::chain::FRAME_CE;
use model::check::check_image;
use model::compare::answers::Model;
use model::compare::calls::*;
use model::generate;
use model::image::{Image, FIELD_B};
use model::random::Random;
use model::refusal::{BROKEN_CHAIN, TWO_ROLES};
use model::word::NONE;
use readings::*;
use wrong::assert_rejected;

/// A collector that names what a reading of 3 says.
fn naming(reading: Reading) -> impl Fn(Lent<'_>) -> Collected {
    move |lent| {
        let image = lent.image();
        let answer = Model.collect(lent);
        if answer.refusal != BROKEN_CHAIN {
            return answer;
        }
        match reading(&faults(&image), &image) {
            Some(index) => Collected {
                index: index as u64,
                ..answer
            },
            None => Collected::default(),
        }
    }
}

/// A collector that names what a reading of 4 says.
fn naming_conflict(reading: ConflictReading) -> impl Fn(Lent<'_>) -> Collected {
    move |lent| {
        let image = lent.image();
        let mut answer = Model.collect(lent);
        if answer.refusal == TWO_ROLES {
            let (words, chains) = conflicts(&image);
            answer.index = reading(&words, &chains) as u64;
        }
        answer
    }
}

#[test]
fn each_other_reading_is_rejected() {
    for (name, reading) in READINGS {
        println!("{name}");
        assert_rejected(naming(reading));
    }
    for (name, reading) in CONFLICT_READINGS {
        println!("{name}");
        assert_rejected(naming_conflict(reading));
    }
    assert_rejected(|lent| {
        let answer = Model.collect(lent);
        let placed = ![BROKEN_CHAIN, TWO_ROLES].contains(&answer.refusal);
        Collected {
            area: if placed { answer.area } else { 0 },
            index: if placed { answer.index } else { 0 },
            ..answer
        }
    });
}

const COUNT: u64 = 20_000;

fn random_images() -> impl Iterator<Item = Image> {
    (0..COUNT).map(|item| generate::image(&mut Random::for_item(23, item)))
}

/// Each random image that is refused so, with the index that is named.
fn refused(number: u32) -> impl Iterator<Item = (Image, usize)> {
    random_images().filter_map(move |image| {
        let refusal = check_image(&image).err()?;
        let place = refusal.place.filter(|_| refusal.number == number)?;
        Some((image, place.index))
    })
}

fn assert_often(name: &str, told_apart: u64) {
    println!("{name}: {told_apart} of {COUNT}");
    assert!(told_apart >= 30, "{name}: {told_apart}");
}

/// The readings go by their own list of faults, which must be the model's as far as it goes.
#[test]
fn where_3_is_not_given_there_is_no_fault() {
    for image in random_images() {
        let number = check_image(&image).map_or_else(|refusal| refusal.number, |_| 17);
        assert!(number <= BROKEN_CHAIN || faults(&image).is_empty());
    }
}

#[test]
fn random_images_tell_each_reading_of_3_from_the_right_one() {
    let mut told_apart = [0; READINGS.len()];
    for (image, index) in refused(BROKEN_CHAIN) {
        let faults = faults(&image);
        assert_eq!(faults[0].at, index);
        for (count, (_, reading)) in told_apart.iter_mut().zip(READINGS) {
            *count += (reading(&faults, &image) != Some(index)) as u64;
        }
    }
    for ((name, _), count) in READINGS.iter().zip(told_apart) {
        assert_often(name, count);
    }
}

#[test]
fn random_images_tell_each_reading_of_4_from_the_right_one() {
    let mut told_apart = [0; CONFLICT_READINGS.len()];
    for (image, index) in refused(TWO_ROLES) {
        let (words, chains) = conflicts(&image);
        assert_eq!(words[0], index);
        for (count, (_, reading)) in told_apart.iter_mut().zip(CONFLICT_READINGS) {
            *count += (reading(&words, &chains) != index) as u64;
        }
    }
    for ((name, _), count) in CONFLICT_READINGS.iter().zip(told_apart) {
        assert_often(name, count);
    }
}

/// What the place of a broken chain may be like.
fn kinds_of_place(image: &Image, index: usize) -> Vec<&'static str> {
    let stack = &image.stack;
    let parent = stack.get(index + FRAME_CE).map(|word| *word as usize);
    let older = stack.get(index + FIELD_B).map(|word| *word as usize);
    let kinds = [
        ("outside the stack", index >= stack.len()),
        (
            "the largest, in an empty stack",
            stack.is_empty() && index == NONE as usize - 1,
        ),
        ("its own CE", parent == Some(index)),
        ("its own B", older == Some(index)),
    ];
    let kinds = kinds.into_iter().filter(|(_, holds)| *holds);
    kinds.map(|(name, _)| name).collect()
}

#[test]
fn random_images_have_each_kind_of_place() {
    let mut met: BTreeMap<&str, u64> = BTreeMap::new();
    for (image, index) in refused(BROKEN_CHAIN) {
        let mut words = image.control.iter().chain(&image.stack);
        assert!(words.any(|word| *word as usize == index));
        for kind in kinds_of_place(&image, index) {
            *met.entry(kind).or_default() += 1;
        }
    }
    println!("{met:?}");
    assert!(
        met.len() == 4 && met.values().all(|count| *count >= 15),
        "{met:?}"
    );
}
