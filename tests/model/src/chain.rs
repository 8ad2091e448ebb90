//! The chains of frames and choice points, and what of them is seen.

use crate::image::{header, Header, Image, FIXED_WORDS, MOST_ARGUMENTS};
use crate::word::{ARITY_LIMIT, NONE};

/// A frame's fixed part: CL and CE.
pub const FRAME_WORDS: usize = 2;
pub const FRAME_CE: usize = 1;

/// One frame as one pointer sees it: "One frame may be seen with several sizes."
#[derive(Clone, Copy, Debug, PartialEq, Eq)]
pub struct View {
    pub at: usize,
    pub size: usize,
}

/// A choice point in the chain from the control's B.
#[derive(Clone, Copy, Debug, PartialEq, Eq)]
pub struct ChoicePoint {
    pub at: usize,
    pub header: Header,
}

/// All that the control area and its choice points see, the newest first.
#[derive(Clone, Debug, Default, PartialEq, Eq)]
pub struct Chains {
    pub views: Vec<View>,
    pub choice_points: Vec<ChoicePoint>,
}

/// Document 02, order 5: a chain is broken at this stack index, that "of the first frame or choice
/// point at fault", "as its pointer holds it, even outside the stack".
#[derive(Clone, Copy, Debug, PartialEq, Eq)]
pub struct BrokenAt(pub usize);

/// "the size of the frame at E is L mod 256"; CL stands to CE as L stands to E.
pub fn frame_size(l: u32) -> usize {
    (l % ARITY_LIMIT) as usize
}

/// The frame chain from one E. The first frame ends at or below `bound`, each later one at or
/// below the child frame's index. A frame that does not is at fault, not whoever points to it.
pub fn frames(stack: &[u32], e: u32, l: u32, bound: usize) -> Result<Vec<View>, BrokenAt> {
    let mut views = Vec::new();
    let (mut next, mut size, mut bound) = (e, frame_size(l), bound);
    while next != NONE {
        let at = next as usize;
        if at + FRAME_WORDS + size > bound {
            return Err(BrokenAt(at));
        }
        views.push(View { at, size });
        next = stack[at + FRAME_CE];
        size = frame_size(stack[at]);
        bound = at;
    }
    Ok(views)
}

/// The choice point at `at`, if it stands below `bound` and fits the newer one.
fn choice_point(stack: &[u32], at: usize, bound: usize, newer: &Header) -> Option<ChoicePoint> {
    if at + FIXED_WORDS > bound {
        return None;
    }
    let own = header(stack, at)?;
    let fits = own.n <= MOST_ARGUMENTS
        && at + FIXED_WORDS + own.n <= bound
        && own.t <= newer.t
        && own.h <= newer.h;
    fits.then_some(ChoicePoint { at, header: own })
}

/// All chains of the image, or where the first of them is broken: "the control's frames first, then
/// from the newest each choice point (place, n, T, H) and after it its frames".
pub fn walk(image: &Image) -> Result<Chains, BrokenAt> {
    let stack = &image.stack;
    let mut newer = image.control_header();
    let mut bound = stack.len();
    let mut chains = Chains::default();
    chains.views.extend(frames(stack, newer.e, newer.l, bound)?);
    while newer.b != NONE {
        let at = newer.b as usize;
        let found = choice_point(stack, at, bound, &newer).ok_or(BrokenAt(at))?;
        newer = found.header;
        bound = found.at;
        chains.choice_points.push(found);
        chains.views.extend(frames(stack, newer.e, newer.l, bound)?);
    }
    Ok(chains)
}
