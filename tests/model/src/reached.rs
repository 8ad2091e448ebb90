//! "Roots" and "reached", as a plain fixpoint, and d.

use crate::check::Checked;
use crate::image::{Image, FIXED_WORDS};
use crate::refer::refers_to;
use crate::refusal::{Area, Place};

/// For each heap cell below H whether it is reached.
#[derive(Clone, Debug, Default, PartialEq, Eq)]
pub struct Reached(pub Vec<bool>);

impl Reached {
    pub fn contains(&self, x: usize) -> bool {
        self.0.get(x).copied().unwrap_or(false)
    }

    /// d(x) = number of reached heap cells below x.
    pub fn d(&self, x: usize) -> usize {
        let below = &self.0[..x.min(self.0.len())];
        below.iter().filter(|reached| **reached).count()
    }

    /// The indexes of the reached cells, rising.
    pub fn indexes(&self) -> Vec<usize> {
        (0..self.0.len()).filter(|x| self.0[*x]).collect()
    }

    /// Adds what `word` refers to, and tells whether anything was new.
    fn add(&mut self, heap: &[u32], word: u32) -> bool {
        let mut new = false;
        for x in refers_to(heap, word) {
            if x < self.0.len() && !self.0[x] {
                self.0[x] = true;
                new = true;
            }
        }
        new
    }
}

/// A cell that reaches heap cells by itself.
#[derive(Clone, Copy, Debug, PartialEq, Eq)]
pub struct Root {
    pub place: Place,
    pub word: u32,
}

/// "The saved arguments of the control area; every cell of every frame in the chain from E; the
/// same for each choice point in the chain from B." Those of the control area come first, then
/// the stack's by their index.
pub fn roots(image: &Image, checked: &Checked) -> Vec<Root> {
    let root = |area, index, word| Root {
        place: Place { area, index },
        word,
    };
    let arguments = FIXED_WORDS..FIXED_WORDS + image.control_header().n;
    let arguments = arguments.map(|x| root(Area::Control, x, image.control[x]));
    let cells = checked.roles.cells().into_iter();
    let cells = cells.map(|x| root(Area::Stack, x, image.stack[x]));
    arguments.chain(cells).collect()
}

/// "A heap cell is reached if a root refers to it or a reached heap cell does."
pub fn reached(image: &Image, checked: &Checked) -> Reached {
    let h = image.control_header().h;
    let mut reached = Reached(vec![false; h]);
    for root in roots(image, checked) {
        reached.add(&image.heap, root.word);
    }
    let mut grew = true;
    while grew {
        grew = false;
        for x in 0..h {
            if reached.contains(x) && reached.add(&image.heap, image.heap[x]) {
                grew = true;
            }
        }
    }
    reached
}
