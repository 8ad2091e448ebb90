//! All that one call is lent.

use super::call::{Answer, Call, Row};
use super::calls::{Calls, Lent};
use super::guard::{guarded_bytes, guarded_words, Guarded};
use crate::image::Image;

pub const AREAS: usize = 6;
pub const AREA_NAMES: [&str; AREAS] = ["control", "stack", "heap", "trail", "work", "room"];
const STACK: usize = 1;
const HEAP: usize = 2;
const WORK: usize = 4;
const ROOM: usize = 5;

/// The first four areas are those of an image.
pub const IMAGE_AREAS: usize = WORK;

/// The areas of one call, each between guards; an area that it does not use has none, and some
/// empty areas have none.
#[derive(Clone, Debug, PartialEq, Eq)]
pub struct Lending {
    /// In the order of `AREA_NAMES`.
    pub words: [Guarded<u32>; AREAS],
    /// The file to be read, or the output.
    pub bytes: Guarded<u8>,
    /// The address to be looked up, the offset of a record, or the heap index asked for.
    pub number: u64,
}

impl Lending {
    pub fn nothing() -> Lending {
        Lending {
            words: std::array::from_fn(|_| Guarded::unused()),
            bytes: Guarded::unused(),
            number: 0,
        }
    }

    /// The four areas of an image.
    pub fn of_image(image: &Image) -> Lending {
        let mut lending = Lending::nothing();
        let areas = [&image.control, &image.stack, &image.heap, &image.trail];
        for (lent, area) in lending.words.iter_mut().zip(areas) {
            *lent = guarded_words(area);
        }
        lending
    }

    /// Heap and stack of an image alone.
    pub fn of_heap_and_stack(image: &Image) -> Lending {
        let mut lending = Lending::nothing();
        lending.words[STACK] = guarded_words(&image.stack);
        lending.words[HEAP] = guarded_words(&image.heap);
        lending
    }

    pub fn with_work(mut self, work: &[u32]) -> Lending {
        self.words[WORK] = guarded_words(work);
        self
    }

    pub fn with_room(mut self, room: &[u32]) -> Lending {
        self.words[ROOM] = guarded_words(room);
        self
    }

    pub fn with_bytes(mut self, bytes: &[u8]) -> Lending {
        self.bytes = guarded_bytes(bytes);
        self
    }

    pub fn with_number(mut self, number: u64) -> Lending {
        self.number = number;
        self
    }

    /// The same with empty areas lent as no place at all, in every second case by the count of
    /// what is lent: the C interface takes NULL with length 0 as an empty area.
    pub fn with_some_null(mut self) -> Lending {
        let words: usize = self.words.iter().map(|area| area.area().len()).sum();
        if (words + self.bytes.area().len()) % 2 == 1 {
            return self;
        }
        for area in &mut self.words {
            if area.area().is_empty() {
                *area = Guarded::unused();
            }
        }
        if self.bytes.area().is_empty() {
            self.bytes = Guarded::unused();
        }
        self
    }

    /// The lent parts, to be written.
    pub fn parts(&mut self) -> (Lent<'_>, &mut [u8]) {
        let [control, stack, heap, trail, work, room] = &mut self.words;
        let lent = Lent {
            control: control.area_mut(),
            stack: stack.area_mut(),
            heap: heap.area_mut(),
            trail: trail.area_mut(),
            work: work.area_mut(),
            room: room.area_mut(),
        };
        (lent, self.bytes.area_mut())
    }

    pub fn image(&self) -> Image {
        let [control, stack, heap, trail, ..] = &self.words;
        Image {
            control: control.area().to_vec(),
            stack: stack.area().to_vec(),
            heap: heap.area().to_vec(),
            trail: trail.area().to_vec(),
        }
    }
}

/// Makes one call on what is lent.
pub fn make(calls: &dyn Calls, call: Call, lending: &mut Lending) -> Row {
    let number = lending.number;
    let (lent, bytes) = lending.parts();
    match call {
        Call::Collect => calls.collect(lent).row(),
        Call::StepBack => calls.step_back(lent).row(),
        Call::LookUp => calls.look_up(lent.heap, lent.stack, number as u32).row(),
        Call::Thaw => calls.thaw(bytes, lent).row(),
        Call::Freeze => calls.freeze(lent.shown(), bytes).row(),
        Call::Record => calls.record_at(bytes, number).row(),
        Call::WhyHeld => calls.why_held(lent, number as u32).row(),
    }
}
