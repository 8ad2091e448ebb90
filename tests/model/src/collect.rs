//! "After a collection".

use crate::check::{check, Checked};
use crate::image::{Image, FIELD_H, FIELD_T, FIXED_WORDS};
use crate::reached::{reached, Reached};
use crate::refusal::{Refusal, SIZES};
use crate::word::{address, cell, tag, value, Address, Tag};

/// "The answer holds cells kept, cells dropped, entries kept, entries dropped".
#[derive(Clone, Copy, Debug, Default, PartialEq, Eq)]
pub struct Counts {
    pub cells_kept: usize,
    pub cells_dropped: usize,
    pub entries_kept: usize,
    pub entries_dropped: usize,
}

/// Collects the image and leaves the work words as the document says.
pub fn collect(image: &mut Image, work: &mut [u32]) -> Result<Counts, Refusal> {
    let verdict = check(image, work.len());
    leave_work(image, work, verdict.as_ref().err());
    let checked = verdict?;
    let reached = reached(image, &checked);
    let (after, counts) = collected(image, &checked, &reached);
    *image = after;
    Ok(counts)
}

/// "Work: under 1 unchanged; otherwise its first heap + stack words are 0 after every call".
pub fn leave_work(image: &Image, work: &mut [u32], refusal: Option<&Refusal>) {
    if refusal.is_none_or(|refusal| refusal.number != SIZES) {
        work[..image.work_needed()].fill(0);
    }
}

/// The image after a collection that keeps the cells in `reached`, and the four counts.
pub fn collected(old: &Image, checked: &Checked, reached: &Reached) -> (Image, Counts) {
    let control = old.control_header();
    let entries = Entries::kept(old, checked, reached);
    let mut new = old.clone();
    move_heap(old, &mut new, reached);
    for x in checked.roles.cells() {
        new.stack[x] = moved(old.stack[x], reached);
    }
    for x in FIXED_WORDS..FIXED_WORDS + control.n {
        new.control[x] = moved(old.control[x], reached);
    }
    new.control[FIELD_T] = entries.below(control.t) as u32;
    new.control[FIELD_H] = reached.d(control.h) as u32;
    for found in &checked.chains.choice_points {
        new.stack[found.at + FIELD_T] = entries.below(found.header.t) as u32;
        new.stack[found.at + FIELD_H] = reached.d(found.header.h) as u32;
    }
    entries.close_up(old, &mut new, reached);
    let counts = Counts {
        cells_kept: reached.d(control.h),
        cells_dropped: control.h - reached.d(control.h),
        entries_kept: entries.below(control.t),
        entries_dropped: control.t - entries.below(control.t),
    };
    (new, counts)
}

/// "each reached cell at x moves to d(x)"; "Heap words from the new H to the old H [...] become 0".
fn move_heap(old: &Image, new: &mut Image, reached: &Reached) {
    let h = old.control_header().h;
    new.heap[..h].fill(0);
    for x in reached.indexes() {
        new.heap[reached.d(x)] = moved(old.heap[x], reached);
    }
}

/// "a VAR, LIST or STRUCT value v in the heap becomes d(v)"
pub fn moved(word: u32, reached: &Reached) -> u32 {
    match (tag(word), address(value(word))) {
        (Tag::Const, _) | (_, Address::Stack(_)) => word,
        (kind, Address::Heap(v)) => cell(kind, reached.d(v) as u32),
    }
}

/// "kept if it is the address of a reached heap cell or of a stack word that is a cell"
pub fn is_kept(entry: u32, checked: &Checked, reached: &Reached) -> bool {
    match address(entry) {
        Address::Heap(x) => reached.contains(x),
        Address::Stack(x) => checked.roles.is_cell(x),
    }
}

/// For each trail entry below T whether it is kept.
struct Entries(Vec<bool>);

impl Entries {
    fn kept(old: &Image, checked: &Checked, reached: &Reached) -> Entries {
        let entries = &old.trail[..old.control_header().t];
        let kept = entries.iter();
        let kept = kept.map(|entry| is_kept(*entry, checked, reached));
        Entries(kept.collect())
    }

    /// "Each T becomes the number of kept entries below it."
    fn below(&self, t: usize) -> usize {
        self.0[..t].iter().filter(|kept| **kept).count()
    }

    /// "kept entries close up in order, heap entries v becoming d(v)"; freed trail words are 0.
    fn close_up(&self, old: &Image, new: &mut Image, reached: &Reached) {
        new.trail[..self.0.len()].fill(0);
        let kept = (0..self.0.len()).filter(|index| self.0[*index]);
        for (place, index) in kept.enumerate() {
            let entry = old.trail[index];
            new.trail[place] = match address(entry) {
                Address::Heap(v) => reached.d(v) as u32,
                Address::Stack(_) => entry,
            };
        }
    }
}
