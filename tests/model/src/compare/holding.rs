//! Order 4: several cells asked for in one image.

use super::asked::{Compared, Library};
use super::images::some_work;
use super::one_call::compare_why_held;
use super::tally::Tally;
use crate::chain::walk;
use crate::check::{check_image, Checked};
use crate::generate::large::{large_case, LARGE_KINDS};
use crate::generate::woven_image;
use crate::held::{chain_to, root_kind};
use crate::image::Image;
use crate::random::Random;
use crate::reached::reached;
use crate::refusal::{Area, Place};
use crate::word::NONE;

/// One item in so many has a large image as well. The slow parts of the model take too long on
/// those, so that only order 4 is compared.
const LARGE_EVERY: u64 = 4_000;

/// Cells of one image: a held one and a dead one, the last below H, and one at or above H. A
/// refused image is asked for any cell.
pub fn compare_held(
    random: &mut Random,
    library: &dyn Library,
    image: &Image,
    tally: &mut Tally,
) -> Compared<()> {
    let h = image.control_header().h;
    let Ok(checked) = check_image(image) else {
        let cell = some_cell(random, h);
        let room = random.below(5);
        return ask(random, library, image, cell, room, tally);
    };
    let kept = reached(image, &checked);
    let (held, dead): (Vec<usize>, Vec<usize>) = (0..h).partition(|x| kept.contains(*x));
    if let Some(cell) = random.maybe_one_of(&held) {
        let needed = length_to(image, &checked, cell);
        for room in [enough(random, needed), too_little(random, needed)] {
            ask(random, library, image, cell as u32, room, tally)?;
        }
    }
    if let Some(cell) = random.maybe_one_of(&dead) {
        let room = random.below(5);
        ask(random, library, image, cell as u32, room, tally)?;
    }
    if let Some(last) = h.checked_sub(1) {
        let room = enough(random, length_to(image, &checked, last));
        ask(random, library, image, last as u32, room, tally)?;
    }
    let above = cell_above(random, h, image.heap.len());
    let room = random.below(5);
    ask(random, library, image, above, room, tally)
}

/// Images beside the item's own: woven ones, and a few that are large.
pub fn compare_others(
    random: &mut Random,
    library: &dyn Library,
    item: u64,
    tally: &mut Tally,
) -> Compared<()> {
    if random.percent(40) {
        let image = woven_image(random);
        compare_held(random, library, &image, tally)?;
    }
    if item % LARGE_EVERY == LARGE_EVERY - 1 {
        compare_large(random, library, item / LARGE_EVERY % LARGE_KINDS, tally)?;
    }
    Ok(())
}

fn compare_large(
    random: &mut Random,
    library: &dyn Library,
    kind: u64,
    tally: &mut Tally,
) -> Compared<()> {
    let case = large_case(random, kind);
    let image = &case.image;
    let checked = check_image(image).map_err(|_| "a large image is refused")?;
    for cell in case.asked {
        let needed = length_to(image, &checked, cell);
        let room = random.one_of(&[needed, needed, needed + 1, needed.saturating_sub(1)]);
        ask(random, library, image, cell as u32, room, tally)?;
        tally.held.large += 1;
    }
    Ok(())
}

/// One call with arbitrary words in work and room.
fn ask(
    random: &mut Random,
    library: &dyn Library,
    image: &Image,
    cell: u32,
    room: usize,
    tally: &mut Tally,
) -> Compared<()> {
    let work = some_work(random, image);
    let room = random.garbage_list(room);
    let answer = compare_why_held(library, image, &work, cell, &room)?.answer;
    tally.why_held.add(answer.refusal);
    let areas = [Area::Control, Area::Stack];
    let area = areas
        .into_iter()
        .find(|area| *area as u32 == answer.root_area);
    if let Some(area) = area {
        let chains = walk(image).expect("an accepted image has sound chains");
        let index = answer.root_index as usize;
        let kind = root_kind(&chains, Place { area, index });
        tally.held.add(kind, answer.length);
    } else if answer.refusal == 0 {
        tally.held.dead += 1;
    }
    Ok(())
}

/// How much room the chain to a cell needs; a dead cell needs none.
fn length_to(image: &Image, checked: &Checked, cell: usize) -> usize {
    chain_to(image, checked, cell).map_or(0, |chain| chain.cells.len())
}

fn enough(random: &mut Random, needed: usize) -> usize {
    needed + random.one_of(&[0, 0, 1, 7])
}

fn too_little(random: &mut Random, needed: usize) -> usize {
    let less = random.below(needed);
    random.one_of(&[needed.saturating_sub(1), less, 0])
}

/// Mostly an index below H.
fn some_cell(random: &mut Random, h: usize) -> u32 {
    match random.below(4) {
        0 => random.garbage(),
        _ => random.below(h) as u32,
    }
}

/// An index at H, above it, at the heap's length, or far off.
fn cell_above(random: &mut Random, h: usize, length: usize) -> u32 {
    let h = h as u32;
    let any = random.garbage().max(h);
    random.one_of(&[h, h, h + 1, length as u32, NONE, any])
}
