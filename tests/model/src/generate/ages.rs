//! How long each word lives while the machine steps back, so that images can be made whose
//! later states are sound as well.
//!
//! State 0 is the image itself, state i the machine after i steps back. A cell's age is the last
//! state in which it counts; what it refers to must be there in that state too.

use crate::chain::walk;
use crate::image::{Image, FIXED_WORDS};
use crate::role::{roles, Roles};

pub struct Ages {
    /// H and T of each state, falling.
    pub h: Vec<usize>,
    pub t: Vec<usize>,
    /// For each stack word the last state in which it is a cell.
    last: Vec<Option<usize>>,
    /// For each stack word the age of the cell that it holds.
    stack: Vec<usize>,
    /// The stack words that are cells in state 0, rising.
    pub cells: Vec<usize>,
    pub roles: Roles,
}

/// The ages of an image with sound chains. With `plain` only state 0 is looked at.
pub fn ages(image: &Image, plain: bool) -> Ages {
    let chains = walk(image).expect("the layout is sound");
    let own_roles = roles(image.stack.len(), &chains);
    let control = image.control_header();
    let mut ages = Ages {
        h: vec![control.h],
        t: vec![control.t],
        last: vec![None; image.stack.len()],
        stack: vec![0; image.stack.len()],
        cells: own_roles.cells(),
        roles: own_roles.clone(),
    };
    ages.note_state(0, &own_roles);
    if plain {
        return ages;
    }
    for (index, found) in chains.choice_points.iter().enumerate() {
        ages.h.push(found.header.h);
        ages.t.push(found.header.t);
        let state = state_of(image, found.at);
        let chains = walk(&state).expect("the layout is sound");
        ages.note_state(index + 1, &roles(image.stack.len(), &chains));
        // A choice point's saved arguments are copied to the control area by the step to it.
        let first = found.at + FIXED_WORDS;
        ages.stack[first..first + found.header.n].fill(index + 1);
    }
    ages
}

/// The machine that stands at the choice point at `b`, as far as its chains go.
fn state_of(image: &Image, b: usize) -> Image {
    Image {
        control: image.stack[b..b + FIXED_WORDS].to_vec(),
        stack: image.stack.clone(),
        ..Image::default()
    }
}

impl Ages {
    fn note_state(&mut self, state: usize, roles: &Roles) {
        for x in roles.cells() {
            self.last[x] = Some(state);
            self.stack[x] = state;
        }
    }

    /// The age of a stack cell.
    pub fn of_stack(&self, index: usize) -> usize {
        self.stack[index]
    }

    /// The age of a heap cell: the last state whose H is above it.
    pub fn of_heap(&self, index: usize) -> usize {
        let above = self.h.iter().rposition(|h| *h > index);
        above.unwrap_or(0)
    }

    /// Whether a stack word is still a cell in the given state.
    pub fn is_cell_in(&self, index: usize, state: usize) -> bool {
        self.last[index].is_some_and(|last| last >= state)
    }
}
