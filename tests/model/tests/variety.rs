//! What sound images contain: each feature that a collector may get wrong must occur often.

use std::collections::BTreeMap;

use model::check::{check_image, Checked};
use model::generate::any_sound_image;
use model::image::Image;
use model::random::Random;
use model::reached::reached;
use model::refer::refers_to;
use model::word::{address, arity, stack_address, tag, value, Address, Tag, NONE};

const SEED: u64 = 11;
const COUNT: u64 = 20_000;

/// The features of one sound image.
fn features(image: &Image, checked: &Checked) -> Vec<&'static str> {
    let mut found = boundary_features(image, checked);
    found.extend(chain_features(image, checked));
    found.extend(heap_features(image, checked));
    found.extend(trail_features(image, checked));
    found
}

/// The names whose condition holds.
fn holding(conditions: &[(&'static str, bool)]) -> Vec<&'static str> {
    let held = conditions.iter().filter(|(_, holds)| *holds);
    held.map(|(name, _)| *name).collect()
}

fn boundary_features(image: &Image, _: &Checked) -> Vec<&'static str> {
    let control = image.control_header();
    holding(&[
        ("E none", control.e == NONE),
        ("B none", control.b == NONE),
        ("H nought", control.h == 0),
        ("T nought", control.t == 0),
        ("n nought", control.n == 0),
        ("n large", control.n > 100),
        ("heap above H", image.heap.len() > control.h),
        ("trail above T", image.trail.len() > control.t),
        ("control above n", image.control.len() > 7 + control.n),
        ("stack empty", image.stack.is_empty()),
    ])
}

fn chain_features(image: &Image, checked: &Checked) -> Vec<&'static str> {
    let points = &checked.chains.choice_points;
    let views = &checked.chains.views;
    let mut sizes: BTreeMap<usize, Vec<usize>> = BTreeMap::new();
    for view in views {
        sizes.entry(view.at).or_default().push(view.size);
    }
    let grows = |sizes: &Vec<usize>| sizes.windows(2).any(|pair| pair[0] < pair[1]);
    let equal = |pair: &[model::chain::ChoicePoint]| {
        let (newer, older) = (&pair[0].header, &pair[1].header);
        newer.t == older.t || newer.h == older.h
    };
    let roleless = image.stack.len() - checked.roles.with_a_role().len();
    holding(&[
        ("several choice points", points.len() > 1),
        ("five choice points", points.len() > 4),
        ("frame seen small, then large", sizes.values().any(grows)),
        ("equal boundaries", points.windows(2).any(equal)),
        ("words without a role", roleless > 0),
        ("saved arguments", points.iter().any(|p| p.header.n > 0)),
        ("wide choice point", points.iter().any(|p| p.header.n > 100)),
        ("stack to stack", stack_to_stack(image, checked)),
    ])
}

/// A stack VAR to another stack cell.
fn stack_to_stack(image: &Image, checked: &Checked) -> bool {
    checked.roles.cells().iter().any(|x| {
        let word = image.stack[*x];
        let other = matches!(address(value(word)), Address::Stack(y) if y != *x);
        tag(word) == Tag::Var && other
    })
}

fn heap_features(image: &Image, checked: &Checked) -> Vec<&'static str> {
    let kept = reached(image, checked);
    let heap = &image.heap[..kept.0.len()];
    let structs = heap.iter().filter(|word| tag(**word) == Tag::Struct);
    let structs: Vec<_> = structs.map(|word| refers_to(heap, *word)).collect();
    let partly = structs.iter().any(|cells| {
        let count = cells.clone().filter(|x| kept.contains(*x)).count();
        count > 0 && count < cells.len()
    });
    let shared = structs.iter().any(|one| {
        let same = structs.iter().filter(|two| one.start == two.start);
        same.count() > 1
    });
    // A constant that would do as a functor, but no STRUCT refers to it.
    let at_look_alike = heap.iter().any(|word| {
        let target = heap.get(value(*word) as usize).copied().unwrap_or(0);
        tag(*word) == Tag::Var && tag(target) == Tag::Const && arity(target) > 0
    });
    // An upward and a downward reference between reached cells make most cycles.
    let upward = |x: &usize| refers_to(heap, heap[*x]).any(|y| y > *x);
    let downward = |x: &usize| refers_to(heap, heap[*x]).any(|y| y < *x);
    let indexes = kept.indexes();
    holding(&[
        ("structure partly kept", partly),
        ("two STRUCTs at one functor", shared),
        ("VAR at what looks like a functor", at_look_alike),
        ("upward reference kept", indexes.iter().any(upward)),
        ("downward reference kept", indexes.iter().any(downward)),
        ("dead cells", indexes.len() < heap.len()),
    ])
}

fn trail_features(image: &Image, checked: &Checked) -> Vec<&'static str> {
    let mut entries = image.trail[..image.control_header().t].to_vec();
    let roleless = (0..image.stack.len()).filter(|x| checked.roles.of(*x).count() == 0);
    let mut roleless = roleless.map(stack_address);
    let on_roleless = roleless.any(|entry| entries.contains(&entry));
    let count = entries.len();
    entries.sort();
    entries.dedup();
    holding(&[
        ("equal entries", entries.len() < count),
        ("entry without a role", on_roleless),
    ])
}

/// The features and the least share of sound images that must have them, in thousandths.
const WANTED: [(&str, u64); 26] = [
    ("E none", 50),
    ("B none", 50),
    ("H nought", 20),
    ("T nought", 20),
    ("n nought", 50),
    ("n large", 2),
    ("heap above H", 200),
    ("trail above T", 200),
    ("control above n", 200),
    ("stack empty", 3),
    ("several choice points", 300),
    ("five choice points", 20),
    ("frame seen small, then large", 20),
    ("equal boundaries", 100),
    ("words without a role", 300),
    ("saved arguments", 300),
    ("wide choice point", 2),
    ("stack to stack", 200),
    ("structure partly kept", 60),
    ("two STRUCTs at one functor", 50),
    ("VAR at what looks like a functor", 20),
    ("upward reference kept", 200),
    ("downward reference kept", 200),
    ("dead cells", 400),
    ("equal entries", 200),
    ("entry without a role", 50),
];

#[test]
fn sound_images_have_every_feature() {
    let mut met: BTreeMap<&str, u64> = BTreeMap::new();
    for item in 0..COUNT {
        let image = any_sound_image(&mut Random::for_item(SEED, item));
        let checked = check_image(&image).expect("a sound image");
        for feature in features(&image, &checked) {
            *met.entry(feature).or_default() += 1;
        }
    }
    for (feature, thousandths) in WANTED {
        let count = met.get(feature).copied().unwrap_or(0);
        println!("{feature}: {count} of {COUNT}");
        assert!(count * 1000 >= COUNT * thousandths, "{feature}: {count}");
    }
}
