//! The model's answers in the form of the C interface.

use super::calls::*;
use crate::collect::{collect, Counts};
use crate::freeze::freeze;
use crate::held::{why_held, Chain};
use crate::image::Image;
use crate::look_up::look_up;
use crate::record::{record_at, Record};
use crate::refusal::{BadFile, Refusal};
use crate::step_back::step_back;
use crate::thaw::{thaw, FileCounts};

/// The model behind the same calls as the library.
pub struct Model;

pub fn collected(answer: Result<Counts, Refusal>) -> Collected {
    match answer {
        Ok(counts) => Collected {
            cells_kept: counts.cells_kept as u64,
            cells_dropped: counts.cells_dropped as u64,
            entries_kept: counts.entries_kept as u64,
            entries_dropped: counts.entries_dropped as u64,
            ..Collected::default()
        },
        // "A refusal has zero counts"
        Err(refusal) => Collected {
            refusal: refusal.number,
            area: refusal.place.map_or(0, |place| place.area as u32),
            index: refusal.place.map_or(0, |place| place.index as u64),
            ..Collected::default()
        },
    }
}

pub fn stepped(answer: Result<usize, Refusal>) -> Stepped {
    let refused = collected(answer.map(|_| Counts::default()));
    Stepped {
        refusal: refused.refusal,
        area: refused.area,
        index: refused.index,
        undone: answer.unwrap_or(0) as u64,
    }
}

pub fn why_held_answer(answer: Result<Option<Chain>, Refusal>) -> WhyHeld {
    match answer {
        Ok(Some(chain)) => WhyHeld {
            held: 1,
            root_area: chain.root.area as u32,
            root_index: chain.root.index as u64,
            length: chain.cells.len() as u64,
            ..WhyHeld::default()
        },
        Ok(None) => WhyHeld::default(),
        Err(refusal) => {
            let refused = collected(Err(refusal));
            WhyHeld {
                refusal: refused.refusal,
                area: refused.area,
                index: refused.index,
                ..WhyHeld::default()
            }
        }
    }
}

pub fn thawed(answer: Result<FileCounts, BadFile>) -> Thawed {
    match answer {
        Ok(counts) => Thawed {
            control: counts.control as u64,
            stack: counts.stack as u64,
            heap: counts.heap as u64,
            trail: counts.trail as u64,
            ..Thawed::default()
        },
        Err(bad) => Thawed {
            refusal: bad.number,
            offset: bad.offset as u64,
            ..Thawed::default()
        },
    }
}

pub fn frozen(answer: Result<usize, u32>) -> Frozen {
    Frozen {
        refusal: answer.err().unwrap_or(0),
        bytes: answer.unwrap_or(0) as u64,
    }
}

pub fn record_read(answer: Result<Record, BadFile>) -> RecordRead {
    match answer {
        Ok(record) => RecordRead {
            kind: record.kind as u32,
            body: record.body as u64,
            next: record.next as u64,
            ..RecordRead::default()
        },
        Err(bad) => RecordRead {
            refusal: bad.number,
            offset: bad.offset as u64,
            ..RecordRead::default()
        },
    }
}

/// Calls the model on a copy of the lent areas and writes the copy back.
fn on_image<A>(mut lent: Lent<'_>, call: impl FnOnce(&mut Image, &mut [u32]) -> A) -> A {
    let mut image = lent.image();
    let answer = call(&mut image, lent.work);
    lent.write(&image);
    answer
}

impl Calls for Model {
    fn collect(&self, lent: Lent<'_>) -> Collected {
        collected(on_image(lent, collect))
    }

    fn step_back(&self, lent: Lent<'_>) -> Stepped {
        stepped(on_image(lent, step_back))
    }

    fn why_held(&self, lent: Lent<'_>, cell: u32) -> WhyHeld {
        // The image is lent for reading only.
        let image = lent.image();
        why_held_answer(why_held(&image, lent.work, cell, lent.room))
    }

    fn look_up(&self, heap: &[u32], stack: &[u32], address: u32) -> Found {
        let part = look_up(heap.len(), stack.len(), address);
        Found {
            area: part.area as u32,
            index: part.index as u64,
            length: part.length as u64,
        }
    }

    fn thaw(&self, file: &[u8], lent: Lent<'_>) -> Thawed {
        thawed(on_image(lent, |image, _| thaw(file, image)))
    }

    fn freeze(&self, shown: Shown<'_>, output: &mut [u8]) -> Frozen {
        let image = Image {
            control: shown.control.to_vec(),
            stack: shown.stack.to_vec(),
            heap: shown.heap.to_vec(),
            trail: shown.trail.to_vec(),
        };
        frozen(freeze(&image, output))
    }

    fn record_at(&self, file: &[u8], offset: u64) -> RecordRead {
        record_read(record_at(file, offset))
    }
}
