//! All comparisons on one image.

use super::asked::{Compared, Library};
use super::calls::Collected;
use super::one_call::*;
use super::schedule::compare_schedule;
use super::tally::Tally;
use crate::check::{MOST_CONTROL, MOST_HEAP, MOST_STACK, MOST_TRAIL};
use crate::freeze::file_length;
use crate::image::{Image, FIXED_WORDS};
use crate::random::Random;
use crate::word::{stack_address, STACK_BASE};

pub fn compare_image(
    random: &mut Random,
    library: &dyn Library,
    image: &Image,
    tally: &mut Tally,
) -> Compared<()> {
    tally.images += 1;
    let work = some_work(random, image);
    let collected = compare_collect(library, image, &work)?.answer;
    note_collected(tally, &collected);
    let work = some_work(random, image);
    let stepped = compare_step_back(library, image, &work)?;
    tally.step_back.add(stepped.answer.refusal);
    for _ in 0..4 {
        let address = some_address(random, image);
        compare_look_up(library, image, address)?;
    }
    compare_frozen(random, library, image, tally)?;
    if collected.refusal == 0 {
        let steps = compare_schedule(random, library, image)?;
        tally.schedules[steps] += 1;
    }
    Ok(())
}

fn note_collected(tally: &mut Tally, answer: &Collected) {
    tally.collect.add(answer.refusal);
    tally.add_place(answer.refusal, answer.area);
    if answer.refusal == 0 {
        let (kept, dropped) = (answer.cells_kept > 0, answer.cells_dropped > 0);
        tally.cells_kept += kept as u64;
        tally.cells_dropped += dropped as u64;
        tally.cells_both += (kept && dropped) as u64;
        tally.entries_both += (answer.entries_kept > 0 && answer.entries_dropped > 0) as u64;
    }
}

/// Work words of arbitrary content: just enough, more, or now and then too few.
pub fn some_work(random: &mut Random, image: &Image) -> Vec<u32> {
    let needed = image.work_needed();
    let length = match random.below(40) {
        0 => needed.saturating_sub(1),
        1 => random.below(needed),
        2..=15 => needed + random.between(1, 9),
        _ => needed,
    };
    random.garbage_list(length)
}

/// An address in the heap, in the stack, just past them or far off.
fn some_address(random: &mut Random, image: &Image) -> u32 {
    let near_end = random.below(4);
    match random.below(6) {
        0 => (image.heap.len() + near_end).saturating_sub(2) as u32,
        1 => stack_address((image.stack.len() + near_end).saturating_sub(2)),
        2 => random.below(image.heap.len()) as u32,
        3 => stack_address(random.below(image.stack.len())),
        4 => random.one_of(&[STACK_BASE - 1, STACK_BASE, u32::MAX, 2 * STACK_BASE]),
        _ => random.garbage(),
    }
}

/// Freezes, and thaws what was written: "each written state reads back into areas of legal size
/// with room for its counts".
fn compare_frozen(
    random: &mut Random,
    library: &dyn Library,
    image: &Image,
    tally: &mut Tally,
) -> Compared<()> {
    let output = some_output(random, image);
    let (answer, written) = compare_freeze(library, image, &output)?;
    tally.freeze.add(answer.refusal);
    if answer.refusal != 0 {
        return Ok(());
    }
    let file = &written[..answer.bytes as usize];
    let lent = some_room(random, image);
    let thawed = compare_thaw(library, file, &lent)?;
    let control = image.control_header();
    let read = thawed.image();
    let same = thawed.answer.refusal == 0
        && read.control[..FIXED_WORDS + control.n] == image.control[..FIXED_WORDS + control.n]
        && read.stack[..image.stack.len()] == image.stack
        && read.heap[..control.h] == image.heap[..control.h]
        && read.trail[..control.t] == image.trail[..control.t];
    if !same {
        let lists = crate::text::four_lists("", image);
        return Err(format!("a written state is not read back\n{lists}"));
    }
    Ok(())
}

/// An output of arbitrary bytes: just long enough, longer, one byte short or much too short.
fn some_output(random: &mut Random, image: &Image) -> Vec<u8> {
    let counts_fit = crate::check::areas_legal(image) && crate::check::counts_fit(image);
    let needed = if counts_fit { file_length(image) } else { 64 };
    let length = match random.below(10) {
        0 => needed - 1,
        1 => random.below(needed),
        2..=4 => needed + random.between(1, 9),
        _ => needed,
    };
    (0..length).map(|_| random.word() as u8).collect()
}

/// Areas of arbitrary words and legal size with room for the image's counts.
fn some_room(random: &mut Random, image: &Image) -> Image {
    let control = image.control_header();
    let mut area = |count: usize, most: usize| {
        let extra = random.below(4);
        random.garbage_list((count + extra).min(most))
    };
    Image {
        control: area(FIXED_WORDS + control.n, MOST_CONTROL),
        stack: area(image.stack.len(), MOST_STACK),
        heap: area(control.h, MOST_HEAP),
        trail: area(control.t, MOST_TRAIL),
    }
}
