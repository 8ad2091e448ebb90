//! The order of checks: refusals 1 to 7 and 17, one function each.

use std::collections::BTreeSet;

use crate::chain::{walk, BrokenAt, Chains};
use crate::image::{Image, FIXED_WORDS, MOST_ARGUMENTS};
use crate::refer::{names_a_functor, refers_wrongly, Holder};
use crate::refusal::*;
use crate::role::{roles, Roles};
use crate::word::{address, bits, tag, value, Address, Tag};

pub const MOST_HEAP: usize = 1_048_576;
pub const MOST_STACK: usize = 262_144;
pub const MOST_TRAIL: usize = 262_144;
pub const MOST_CONTROL: usize = FIXED_WORDS + MOST_ARGUMENTS;

/// What an accepted image is known to have.
#[derive(Clone, Debug, PartialEq, Eq)]
pub struct Checked {
    pub chains: Chains,
    pub roles: Roles,
}

/// Accepts the image, or gives the first refusal in the table's order.
pub fn check(image: &Image, work_length: usize) -> Result<Checked, Refusal> {
    if !areas_legal(image) || work_length < image.work_needed() {
        return Err(refused(SIZES));
    }
    if !counts_fit(image) {
        return Err(refused(COUNTS_ABOVE_LENGTHS));
    }
    let chains = chains_whole(image)?;
    let roles = roles(image.stack.len(), &chains);
    one_role_each(&roles)?;
    bits_clear(image, &roles)?;
    references_right(image, &roles)?;
    entries_right(image, &roles)?;
    functors_unnamed(image, &roles)?;
    Ok(Checked { chains, roles })
}

/// Accepts the image if it is lent as much work as it needs.
pub fn check_image(image: &Image) -> Result<Checked, Refusal> {
    check(image, image.work_needed())
}

/// Refusal 1 without its words on work: the reader and the writer of files test just this.
pub fn areas_legal(image: &Image) -> bool {
    sizes_legal(
        image.control.len(),
        image.stack.len(),
        image.heap.len(),
        image.trail.len(),
    )
}

pub fn sizes_legal(control: usize, stack: usize, heap: usize, trail: usize) -> bool {
    heap <= MOST_HEAP
        && stack <= MOST_STACK
        && trail <= MOST_TRAIL
        && (FIXED_WORDS..=MOST_CONTROL).contains(&control)
}

/// Refusal 2: "T above trail length, H above heap length, or 7 + n above control length".
pub fn counts_fit(image: &Image) -> bool {
    let control = image.control_header();
    control.t <= image.trail.len()
        && control.h <= image.heap.len()
        && FIXED_WORDS + control.n <= image.control.len()
}

/// Refusal 3: the place names the frame or choice point itself, whatever of it is wrong.
fn chains_whole(image: &Image) -> Result<Chains, Refusal> {
    walk(image).map_err(|BrokenAt(index)| refused_at(BROKEN_CHAIN, Area::Stack, index))
}

/// Refusal 4.
fn one_role_each(roles: &Roles) -> Result<(), Refusal> {
    match roles.lowest_conflict() {
        Some(index) => Err(refused_at(TWO_ROLES, Area::Stack, index)),
        None => Ok(()),
    }
}

/// "For 5 and 6 the cells are the heap's below H, dead or not, the stack's and the control's
/// saved arguments", and for 17 too, in the order in which places are tried.
fn cells(image: &Image, roles: &Roles) -> Vec<(Area, usize, u32)> {
    let control = image.control_header();
    let heap = (0..control.h).map(|x| (Area::Heap, x, image.heap[x]));
    let stack = roles.cells().into_iter();
    let stack = stack.map(|x| (Area::Stack, x, image.stack[x]));
    let arguments = FIXED_WORDS..FIXED_WORDS + control.n;
    let arguments = arguments.map(|x| (Area::Control, x, image.control[x]));
    heap.chain(stack).chain(arguments).collect()
}

/// Refusal 5.
fn bits_clear(image: &Image, roles: &Roles) -> Result<(), Refusal> {
    for (area, index, word) in cells(image, roles) {
        if bits(word) != 0 {
            return Err(refused_at(BITS_SET, area, index));
        }
    }
    Ok(())
}

/// Refusal 6.
fn references_right(image: &Image, roles: &Roles) -> Result<(), Refusal> {
    for (area, index, word) in cells(image, roles) {
        let holder = match area {
            Area::Heap => Holder::Heap,
            Area::Stack => Holder::Stack(index),
            Area::Control | Area::Trail => Holder::Control,
        };
        if refers_wrongly(image, roles, holder, word) {
            return Err(refused_at(WRONG_REFERENCE, area, index));
        }
    }
    Ok(())
}

/// Refusal 7.
fn entries_right(image: &Image, roles: &Roles) -> Result<(), Refusal> {
    let control = image.control_header();
    for index in 0..control.t {
        let right = match address(image.trail[index]) {
            Address::Heap(x) => x < control.h,
            Address::Stack(x) => x < image.stack.len() && !roles.is_field(x),
        };
        if !right {
            return Err(refused_at(WRONG_ENTRY, Area::Trail, index));
        }
    }
    Ok(())
}

/// "the first cell of any STRUCT's target, dead cells included"
fn first_cells(image: &Image, roles: &Roles) -> BTreeSet<usize> {
    let cells = cells(image, roles).into_iter();
    let structs = cells.filter(|(_, _, word)| tag(*word) == Tag::Struct);
    structs.map(|(_, _, word)| value(word) as usize).collect()
}

/// Refusal 17: the referring cell or entry is at fault, "areas in order heap, stack, control,
/// trail".
fn functors_unnamed(image: &Image, roles: &Roles) -> Result<(), Refusal> {
    let first_cells = first_cells(image, roles);
    for (area, index, word) in cells(image, roles) {
        if names_a_functor(&image.heap, &first_cells, word) {
            return Err(refused_at(FUNCTOR_NAMED, area, index));
        }
    }
    for index in 0..image.control_header().t {
        let entry = address(image.trail[index]);
        if matches!(entry, Address::Heap(x) if first_cells.contains(&x)) {
            return Err(refused_at(FUNCTOR_NAMED, Area::Trail, index));
        }
    }
    Ok(())
}
