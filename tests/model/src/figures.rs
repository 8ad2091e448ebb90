//! Document 02, order 1: what the month's report counts in one image.

use crate::chain::frames;
use crate::check::{check_image, Checked};
use crate::collect::is_kept;
use crate::image::Image;
use crate::reached::{reached, Reached};
use crate::refusal::Refusal;
use crate::word::{tag, Tag};

/// The order in which the report names the tags.
const TAGS: [Tag; 4] = [Tag::Var, Tag::Struct, Tag::List, Tag::Const];

/// A count for each tag, in that order.
pub type ByTag = [u64; TAGS.len()];

/// "heap cells kept and dropped by each of the four tags as read, trail entries kept and dropped,
/// choice points, deepest frame chain"
#[derive(Clone, Copy, Debug, Default, PartialEq, Eq)]
pub struct Figures {
    pub cells_kept: ByTag,
    pub cells_dropped: ByTag,
    pub entries_kept: u64,
    pub entries_dropped: u64,
    pub choice_points: u64,
    /// In frames; 0 if there is none.
    pub deepest: u64,
}

/// The figures of an image that has as much work as it needs, or why a collection refuses it.
pub fn figures(image: &Image) -> Result<Figures, Refusal> {
    let checked = check_image(image)?;
    let reached = reached(image, &checked);
    Ok(Figures {
        cells_kept: cells_by_tag(image, |x| reached.contains(x)),
        cells_dropped: cells_by_tag(image, |x| !reached.contains(x)),
        entries_kept: entries(image, &checked, &reached, true),
        entries_dropped: entries(image, &checked, &reached, false),
        choice_points: checked.chains.choice_points.len() as u64,
        deepest: deepest(image, &checked) as u64,
    })
}

/// Counts the heap cells below H that are wanted, by the tags that they were read with.
fn cells_by_tag(image: &Image, wanted: impl Fn(usize) -> bool) -> ByTag {
    let h = image.control_header().h;
    TAGS.map(|own| {
        let cells = (0..h).filter(|x| wanted(*x) && tag(image.heap[*x]) == own);
        cells.count() as u64
    })
}

/// Counts the trail entries below T that are kept, or those that are dropped.
fn entries(image: &Image, checked: &Checked, reached: &Reached, kept: bool) -> u64 {
    let entries = image.trail[..image.control_header().t].iter();
    let entries = entries.filter(|entry| is_kept(**entry, checked, reached) == kept);
    entries.count() as u64
}

/// The longest of the frame chains from the control's E and from each choice point's.
fn deepest(image: &Image, checked: &Checked) -> usize {
    let stack = &image.stack;
    let control = image.control_header();
    let mut chains = vec![frames(stack, control.e, control.l, stack.len())];
    for found in &checked.chains.choice_points {
        chains.push(frames(stack, found.header.e, found.header.l, found.at));
    }
    let lengths = chains.into_iter().flatten().map(|chain| chain.len());
    lengths.max().unwrap_or(0)
}

impl Figures {
    /// "a total is the sum over the accepted files"; "the deepest chain (in frames) of all is the
    /// largest"
    pub fn add(&mut self, other: &Figures) {
        for own in 0..TAGS.len() {
            self.cells_kept[own] += other.cells_kept[own];
            self.cells_dropped[own] += other.cells_dropped[own];
        }
        self.entries_kept += other.entries_kept;
        self.entries_dropped += other.entries_dropped;
        self.choice_points += other.choice_points;
        self.deepest = self.deepest.max(other.deepest);
    }

    /// The figures as a line of the report has them, the line's end included.
    pub fn line(&self) -> String {
        format!(
            "kept {} dropped {} trail {} {} points {} deepest {}\n",
            by_tag_text(&self.cells_kept),
            by_tag_text(&self.cells_dropped),
            self.entries_kept,
            self.entries_dropped,
            self.choice_points,
            self.deepest
        )
    }
}

fn by_tag_text(counts: &ByTag) -> String {
    counts.map(|count| count.to_string()).join(" ")
}
