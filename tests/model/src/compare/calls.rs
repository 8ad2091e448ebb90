//! The calls of the C interface as the comparison sees them.

use crate::image::Image;

/// Areas lent to a call, in the order of the C interface.
pub struct Lent<'a> {
    pub control: &'a mut [u32],
    pub stack: &'a mut [u32],
    pub heap: &'a mut [u32],
    pub trail: &'a mut [u32],
    pub work: &'a mut [u32],
    /// For a chain's heap indexes; empty where a call has no use for it.
    pub room: &'a mut [u32],
}

impl Lent<'_> {
    /// The same areas, lent on to another call.
    pub fn again(&mut self) -> Lent<'_> {
        Lent {
            control: self.control,
            stack: self.stack,
            heap: self.heap,
            trail: self.trail,
            work: self.work,
            room: self.room,
        }
    }

    /// The four areas, for reading only.
    pub fn shown(&self) -> Shown<'_> {
        Shown {
            control: self.control,
            stack: self.stack,
            heap: self.heap,
            trail: self.trail,
        }
    }

    /// A copy of the four areas.
    pub fn image(&self) -> Image {
        Image {
            control: self.control.to_vec(),
            stack: self.stack.to_vec(),
            heap: self.heap.to_vec(),
            trail: self.trail.to_vec(),
        }
    }

    /// Writes an image of the same lengths back.
    pub fn write(&mut self, image: &Image) {
        self.control.copy_from_slice(&image.control);
        self.stack.copy_from_slice(&image.stack);
        self.heap.copy_from_slice(&image.heap);
        self.trail.copy_from_slice(&image.trail);
    }
}

/// Areas lent for reading only.
pub struct Shown<'a> {
    pub control: &'a [u32],
    pub stack: &'a [u32],
    pub heap: &'a [u32],
    pub trail: &'a [u32],
}

#[derive(Clone, Copy, Debug, Default, PartialEq, Eq)]
pub struct Collected {
    pub refusal: u32,
    pub area: u32,
    pub index: u64,
    pub cells_kept: u64,
    pub cells_dropped: u64,
    pub entries_kept: u64,
    pub entries_dropped: u64,
}

#[derive(Clone, Copy, Debug, Default, PartialEq, Eq)]
pub struct Stepped {
    pub refusal: u32,
    pub area: u32,
    pub index: u64,
    pub undone: u64,
}

#[derive(Clone, Copy, Debug, Default, PartialEq, Eq)]
pub struct Found {
    pub area: u32,
    pub index: u64,
    pub length: u64,
}

#[derive(Clone, Copy, Debug, Default, PartialEq, Eq)]
pub struct WhyHeld {
    pub refusal: u32,
    pub area: u32,
    pub index: u64,
    pub held: u32,
    pub root_area: u32,
    pub root_index: u64,
    pub length: u64,
}

#[derive(Clone, Copy, Debug, Default, PartialEq, Eq)]
pub struct Thawed {
    pub refusal: u32,
    pub offset: u64,
    pub control: u64,
    pub stack: u64,
    pub heap: u64,
    pub trail: u64,
}

#[derive(Clone, Copy, Debug, Default, PartialEq, Eq)]
pub struct Frozen {
    pub refusal: u32,
    pub bytes: u64,
}

#[derive(Clone, Copy, Debug, Default, PartialEq, Eq)]
pub struct RecordRead {
    pub refusal: u32,
    pub offset: u64,
    pub kind: u32,
    pub body: u64,
    pub next: u64,
}

/// The library under test. Any answer it may give can be told from the model's.
pub trait Calls {
    fn collect(&self, lent: Lent<'_>) -> Collected;
    fn step_back(&self, lent: Lent<'_>) -> Stepped;
    fn why_held(&self, lent: Lent<'_>, cell: u32) -> WhyHeld;
    fn look_up(&self, heap: &[u32], stack: &[u32], address: u32) -> Found;
    /// The work of `lent` is empty and not used.
    fn thaw(&self, file: &[u8], lent: Lent<'_>) -> Thawed;
    fn freeze(&self, shown: Shown<'_>, output: &mut [u8]) -> Frozen;
    fn record_at(&self, file: &[u8], offset: u64) -> RecordRead;
}
