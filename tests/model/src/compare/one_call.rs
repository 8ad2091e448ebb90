//! One call to library and model alike.

use super::answers::Model;
use super::asked::{Asked, Compared, Library};
use super::call::Answer;
use super::calls::*;
use super::lending::Lending;
use crate::image::Image;

/// An answer with the areas that the call left.
pub struct Outcome<A> {
    pub answer: A,
    pub after: Lending,
}

impl<A> Outcome<A> {
    pub fn image(&self) -> Image {
        self.after.image()
    }
}

/// Makes a call to the model and asks the library for the same. The outcome is the model's, to
/// which the library's is equal or the comparison fails.
fn both<A: Answer>(
    library: &dyn Library,
    lending: Lending,
    model: impl FnOnce(Lent<'_>, &mut [u8]) -> A,
) -> Compared<Outcome<A>> {
    let before = lending.with_some_null();
    let mut after = before.clone();
    let (lent, bytes) = after.parts();
    let answer = model(lent, bytes);
    library.ask(&Asked {
        call: A::CALL,
        before: &before,
        row: answer.row(),
        after: &after,
    })?;
    Ok(Outcome { answer, after })
}

pub fn compare_collect(
    library: &dyn Library,
    image: &Image,
    work: &[u32],
) -> Compared<Outcome<Collected>> {
    let lending = Lending::of_image(image).with_work(work);
    both(library, lending, |lent, _| Model.collect(lent))
}

pub fn compare_step_back(
    library: &dyn Library,
    image: &Image,
    work: &[u32],
) -> Compared<Outcome<Stepped>> {
    let lending = Lending::of_image(image).with_work(work);
    both(library, lending, |lent, _| Model.step_back(lent))
}

/// Asks why a heap cell is held.
pub fn compare_why_held(
    library: &dyn Library,
    image: &Image,
    work: &[u32],
    cell: u32,
    room: &[u32],
) -> Compared<Outcome<WhyHeld>> {
    let lending = Lending::of_image(image).with_work(work).with_room(room);
    let lending = lending.with_number(cell.into());
    both(library, lending, |lent, _| Model.why_held(lent, cell))
}

pub fn compare_look_up(library: &dyn Library, image: &Image, address: u32) -> Compared<()> {
    let lending = Lending::of_heap_and_stack(image).with_number(address.into());
    both(library, lending, |lent, _| {
        Model.look_up(lent.heap, lent.stack, address)
    })?;
    Ok(())
}

/// Freezes the image into an output of arbitrary bytes; gives the answer and the output.
pub fn compare_freeze(
    library: &dyn Library,
    image: &Image,
    output: &[u8],
) -> Compared<(Frozen, Vec<u8>)> {
    let lending = Lending::of_image(image).with_bytes(output);
    let outcome = both(library, lending, |lent, bytes| {
        Model.freeze(lent.shown(), bytes)
    })?;
    Ok((outcome.answer, outcome.after.bytes.area().to_vec()))
}

/// Thaws a file into the areas of an image of arbitrary words.
pub fn compare_thaw(library: &dyn Library, file: &[u8], lent: &Image) -> Compared<Outcome<Thawed>> {
    let lending = Lending::of_image(lent).with_bytes(file);
    both(library, lending, |lent, bytes| Model.thaw(bytes, lent))
}

pub fn compare_record(library: &dyn Library, file: &[u8], offset: u64) -> Compared<RecordRead> {
    let lending = Lending::nothing().with_bytes(file).with_number(offset);
    let outcome = both(library, lending, |_, bytes| Model.record_at(bytes, offset))?;
    Ok(outcome.answer)
}
