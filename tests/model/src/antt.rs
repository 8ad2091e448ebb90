//! Small random images with all that the model says of them, one fact a line, for tests of
//! definitions by evaluation.

use crate::check::{check_image, Checked};
use crate::collect::collected;
use crate::generate::tiny_image;
use crate::image::Image;
use crate::random::Random;
use crate::reached::reached;
use crate::refusal::Refusal;
use crate::step_back::step_back;
use crate::text::four_lists;

/// `count` images, each from `image N` to `end`.
pub fn antt(count: u64, seed: u64) -> String {
    (0..count).map(|item| entry(seed, item)).collect()
}

fn entry(seed: u64, item: u64) -> String {
    let image = tiny_image(&mut Random::for_item(seed, item));
    let verdict = check_image(&image);
    let mut text = format!("image {item}\n");
    text += &four_lists("", &image);
    text += &format!("verdict {}\n", number_and_place(verdict.as_ref().err()));
    if let Ok(checked) = verdict {
        text += &collected_lines(&image, &checked);
        text += &stepped_lines(&image);
    }
    text + "end\n"
}

/// The number, the area's name and the index; `0 none 0` is accepted.
fn number_and_place(refusal: Option<&Refusal>) -> String {
    let number = refusal.map_or(0, |refusal| refusal.number);
    match refusal.and_then(|refusal| refusal.place) {
        Some(place) => format!("{number} {} {}", place.area.name(), place.index),
        None => format!("{number} none 0"),
    }
}

fn collected_lines(image: &Image, checked: &Checked) -> String {
    let reached = reached(image, checked);
    let (after, counts) = collected(image, checked, &reached);
    let mut text = "reached".to_string();
    for x in reached.indexes() {
        text += &format!(" {x}");
    }
    text += &format!(
        "\ncollected {} {} {} {}\n",
        counts.cells_kept, counts.cells_dropped, counts.entries_kept, counts.entries_dropped
    );
    text + &four_lists("collected ", &after)
}

fn stepped_lines(image: &Image) -> String {
    let mut after = image.clone();
    let mut work = vec![0; image.work_needed()];
    match step_back(&mut after, &mut work) {
        Ok(undone) => format!("stepped 0 {undone}\n{}", four_lists("stepped ", &after)),
        Err(refusal) => format!("stepped {} 0\n", refusal.number),
    }
}
