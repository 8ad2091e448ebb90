//! Demand 3 by random schedules: steps back with collections anywhere among them, against the
//! same steps without, each with one collection at the end.

use super::asked::{Compared, Library};
use super::calls::{Collected, Stepped};
use super::one_call::{compare_collect, compare_step_back};
use crate::check::check_image;
use crate::image::Image;
use crate::random::Random;
use crate::readable::{readable, Readable};
use crate::step_back::step_back;
use crate::text::four_lists;

/// The most steps back in one schedule.
const MOST_STEPS: usize = 4;

/// Runs one schedule on an accepted image and answers how many steps back it had.
pub fn compare_schedule(
    random: &mut Random,
    library: &dyn Library,
    image: &Image,
) -> Compared<usize> {
    let most = random.between(0, MOST_STEPS);
    let steps = steps_possible(image, most);
    let plain = run(random, library, image, steps, false)?;
    let mixed = run(random, library, image, steps, true)?;
    if plain != mixed {
        return Err(format!(
            "demand 3 does not hold over {steps} steps back\n{}\
             without collections between {plain:?}\nwith collections between {mixed:?}\n",
            four_lists("", image)
        ));
    }
    Ok(steps)
}

/// How many steps back can be made, each granted and each state on the way accepted.
fn steps_possible(image: &Image, most: usize) -> usize {
    let mut state = image.clone();
    for steps in 0..most {
        let mut work = vec![0; state.work_needed()];
        let granted = step_back(&mut state, &mut work).is_ok();
        if !granted || check_image(&state).is_err() {
            return steps;
        }
    }
    most
}

/// Makes the steps, each call by library and model alike, and reads the last state.
fn run(
    random: &mut Random,
    library: &dyn Library,
    image: &Image,
    steps: usize,
    collections: bool,
) -> Compared<Readable> {
    let mut state = image.clone();
    for _ in 0..steps {
        while collections && random.percent(50) {
            state = collected(random, library, &state)?;
        }
        state = stepped_back(random, library, &state)?;
    }
    state = collected(random, library, &state)?;
    match check_image(&state) {
        Ok(checked) => Ok(readable(&state, &checked)),
        Err(refusal) => Err(failed("a collected state", &state, refusal.number)),
    }
}

fn collected(random: &mut Random, library: &dyn Library, state: &Image) -> Compared<Image> {
    let work = random.garbage_list(state.work_needed());
    let outcome = compare_collect(library, state, &work)?;
    match outcome.answer {
        Collected { refusal: 0, .. } => Ok(outcome.image()),
        Collected { refusal, .. } => Err(failed("a collection", state, refusal)),
    }
}

fn stepped_back(random: &mut Random, library: &dyn Library, state: &Image) -> Compared<Image> {
    let work = random.garbage_list(state.work_needed());
    let outcome = compare_step_back(library, state, &work)?;
    match outcome.answer {
        Stepped { refusal: 0, .. } => Ok(outcome.image()),
        Stepped { refusal, .. } => Err(failed("a step back", state, refusal)),
    }
}

/// Every state of a schedule is accepted and every step granted; anything else is a difference.
fn failed(what: &str, state: &Image, refusal: u32) -> String {
    let lists = four_lists("", state);
    format!("in a schedule of demand 3 {what} is refused {refusal}\n{lists}")
}
