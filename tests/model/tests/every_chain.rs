//! Order 4 on random images: the model's chains against brute force, and against what a collection
//! keeps.

use model::check::{check_image, Checked};
use model::every_chain::{every_chain, least_chain, rank};
use model::generate::{any_sound_image, tiny_image, tiny_woven_image, woven_image};
use model::held::{chain_to, Chain};
use model::image::Image;
use model::random::Random;
use model::reached::reached;
use model::refer::refers_to;
use model::refusal::{Area, Place};

const SEED: u64 = 4;

fn assert_least(image: &Image, checked: &Checked, met: &mut [u64; 4]) {
    for asked in 0..image.control_header().h {
        let found = chain_to(image, checked, asked);
        assert_eq!(
            found,
            least_chain(image, checked, asked),
            "{asked} {image:?}"
        );
        note_tie(image, checked, asked, found, met);
    }
}

/// Counts dead cells, and the equally long chains beside the one found: those that differ from it at
/// the root, at the first cell or deeper.
fn note_tie(
    image: &Image,
    checked: &Checked,
    asked: usize,
    found: Option<Chain>,
    met: &mut [u64; 4],
) {
    let Some(found) = found else {
        met[0] += 1;
        return;
    };
    let least = rank(&found);
    let mut others: Vec<_> = every_chain(image, checked, asked)
        .iter()
        .map(rank)
        .collect();
    others.retain(|other| other.0 == least.0 && *other != least);
    for other in others {
        let place = (0..least.1.len()).find(|x| other.1[*x] != least.1[*x]);
        match place.expect("another chain") {
            0 | 1 => met[1] += 1,
            2 => met[2] += 1,
            _ => met[3] += 1,
        }
    }
}

/// Compares all cells of the accepted images and gives what was met.
fn assert_all_least(count: u64, image: impl Fn(&mut Random) -> Image) -> [u64; 4] {
    let mut met = [0; 4];
    for item in 0..count {
        let image = image(&mut Random::for_item(SEED, item));
        if let Ok(checked) = check_image(&image) {
            assert_least(&image, &checked, &mut met);
        }
    }
    println!(
        "dead {}, ties at the root {}, at the first cell {}, deeper {}",
        met[0], met[1], met[2], met[3]
    );
    met
}

#[test]
fn brute_force_finds_the_same_on_woven_images() {
    let met = assert_all_least(20_000, tiny_woven_image);
    assert!(met.iter().all(|count| *count > 2_000), "{met:?}");
}

#[test]
fn brute_force_finds_the_same_on_tiny_images() {
    let met = assert_all_least(30_000, tiny_image);
    assert!(met[0] > 20_000 && met[1] > 2_000, "{met:?}");
}

/// They are sound, or the comparisons on them would be of no use.
#[test]
fn woven_images_are_accepted() {
    for item in 0..2_000 {
        let random = &mut Random::for_item(SEED, item);
        assert_eq!(check_image(&woven_image(random)).err(), None, "item {item}");
        assert_eq!(
            check_image(&tiny_woven_image(random)).err(),
            None,
            "item {item}"
        );
    }
}

fn word_at(image: &Image, place: Place) -> u32 {
    match place.area {
        Area::Control => image.control[place.index],
        _ => image.stack[place.index],
    }
}

/// "Exactly the cells that no chain reaches are answered as dead", and a chain is one.
#[test]
fn exactly_what_a_collection_keeps_is_held() {
    for item in 0..4_000 {
        let image = any_sound_image(&mut Random::for_item(SEED, item));
        let checked = check_image(&image).expect("a sound image");
        let kept = reached(&image, &checked);
        // In large images some of the cells.
        let h = kept.0.len();
        for asked in (0..h).step_by(1 + h / 50) {
            let found = chain_to(&image, &checked, asked);
            assert_eq!(found.is_some(), kept.contains(asked), "item {item}");
            if let Some(chain) = found {
                assert_chain(&image, &chain, asked);
            }
        }
    }
}

fn assert_chain(image: &Image, chain: &Chain, asked: usize) {
    let mut word = word_at(image, chain.root);
    for x in &chain.cells {
        assert!(refers_to(&image.heap, word).contains(x));
        word = image.heap[*x];
    }
    assert_eq!(chain.cells.last(), Some(&asked));
}
