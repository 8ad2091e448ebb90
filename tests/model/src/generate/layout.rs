//! Lays frames and choice points into a stack of arbitrary words and links them soundly.

use super::sizes::Sizes;
use crate::chain::{FRAME_CE, FRAME_WORDS};
use crate::image::*;
use crate::random::Random;
use crate::word::NONE;

/// A frame and the most cells that a view of it may have before the next object begins.
#[derive(Clone, Copy, Debug)]
struct Frame {
    at: usize,
    room: usize,
}

/// The objects of a stack, each list rising.
#[derive(Default)]
struct Objects {
    frames: Vec<Frame>,
    choice_points: Vec<usize>,
}

/// A stack and control area with sound chains. All cells are still arbitrary words; T and H of
/// the choice points rise with their place and stay at or below the given ones.
pub fn lay_out(random: &mut Random, sizes: &Sizes, t: usize, h: usize) -> Image {
    let length = match random.below(25) {
        0 => 0,
        1 | 2 => random.between(0, sizes.stack),
        _ => random.between(sizes.stack / 3, sizes.stack),
    };
    let mut image = Image {
        stack: random.garbage_list(length),
        ..Image::default()
    };
    let mut objects = Objects::default();
    let mut at = gap(random);
    while place_object(random, sizes, &mut image.stack, &mut objects, &mut at) {}
    set_boundaries(random, &mut image.stack, &objects, t, h);
    image.control = control_area(random, sizes, &image.stack, &objects, t, h);
    image
}

/// Words without a role between two objects.
fn gap(random: &mut Random) -> usize {
    if random.percent(70) {
        0
    } else {
        random.between(1, 3)
    }
}

/// Places one more object and links it to older ones, or tells that the stack is full.
fn place_object(
    random: &mut Random,
    sizes: &Sizes,
    stack: &mut [u32],
    objects: &mut Objects,
    at: &mut usize,
) -> bool {
    // Small stacks have room for few objects, and most should have a choice point.
    let first = objects.choice_points.is_empty();
    let is_frame = random.percent(if first { 35 } else { 55 });
    let fixed = if is_frame { FRAME_WORDS } else { FIXED_WORDS };
    if *at + fixed > stack.len() {
        return false;
    }
    let most = sizes.arguments.min(stack.len() - *at - fixed);
    let cells = some_cells(random, most);
    let end = *at + fixed + cells;
    let next = (end + gap(random)).min(stack.len());
    let (l, e) = some_view(random, &objects.frames);
    if is_frame {
        stack[*at] = l;
        stack[*at + FRAME_CE] = e;
        let room = (next - *at - fixed).min(MOST_ARGUMENTS);
        objects.frames.push(Frame { at: *at, room });
    } else {
        stack[*at + FIELD_L] = l;
        stack[*at + FIELD_E] = e;
        stack[*at + FIELD_B] = some_choice_point(random, &objects.choice_points);
        stack[*at + FIELD_N] = cells as u32;
        objects.choice_points.push(*at);
    }
    *at = next;
    true
}

fn some_cells(random: &mut Random, most: usize) -> usize {
    match random.below(10) {
        0 => 0,
        1 => most,
        2 => random.between(0, most),
        _ => random.below(most.min(6) + 1),
    }
}

/// L and E (or CL and CE) for a view of one of these frames, or none.
fn some_view(random: &mut Random, frames: &[Frame]) -> (u32, u32) {
    let choice = random.below(100);
    let frame = match frames.last() {
        Some(newest) if choice < 60 => *newest,
        Some(_) if choice < 88 => random.one_of(frames),
        _ => return (random.garbage(), NONE),
    };
    let size = if random.percent(50) {
        frame.room
    } else {
        random.between(0, frame.room)
    };
    // Only L mod 256 counts; the rest of L is free.
    let free = random.garbage() / 256 * 256;
    (free + size as u32, frame.at as u32)
}

/// Mostly the newest choice point; now and then an older one, so that some are left out.
fn some_choice_point(random: &mut Random, choice_points: &[usize]) -> u32 {
    let choice = random.below(100);
    match choice_points.last() {
        Some(newest) if choice < 85 => *newest as u32,
        Some(_) if choice < 94 => random.one_of(choice_points) as u32,
        _ => NONE,
    }
}

/// T and H of the choice points, rising, equal neighbours now and then.
fn set_boundaries(random: &mut Random, stack: &mut [u32], objects: &Objects, t: usize, h: usize) {
    for (field, most) in [(FIELD_T, t), (FIELD_H, h)] {
        let mut boundaries: Vec<usize> = Vec::new();
        for _ in &objects.choice_points {
            let again = random.percent(25).then(|| random.maybe_one_of(&boundaries));
            let fresh = random.between(0, most);
            boundaries.push(again.flatten().unwrap_or(fresh));
        }
        boundaries.sort();
        for (at, boundary) in objects.choice_points.iter().zip(boundaries) {
            stack[at + field] = boundary as u32;
        }
    }
}

fn control_area(
    random: &mut Random,
    sizes: &Sizes,
    stack: &[u32],
    objects: &Objects,
    t: usize,
    h: usize,
) -> Vec<u32> {
    let most = sizes.arguments;
    let n = some_cells(random, most);
    let (l, e) = some_view(random, &objects.frames);
    let b = some_choice_point(random, &objects.choice_points);
    let mut control = vec![random.garbage(), l, e, b, t as u32, h as u32, n as u32];
    // Room for any step back in most images; just the own words in some, for refusal 9.
    let arguments = objects.choice_points.iter();
    let widest = arguments.map(|at| stack[at + FIELD_N] as usize).max();
    let room = match random.below(10) {
        0 | 1 => n,
        2 => random.between(n, MOST_ARGUMENTS),
        _ => n.max(widest.unwrap_or(0)),
    };
    control.extend(random.garbage_list(room));
    control
}
