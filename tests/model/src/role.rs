//! "Role": what the chains make of each stack word.

use std::collections::BTreeSet;

use crate::chain::{Chains, FRAME_WORDS};
use crate::image::FIXED_WORDS;

/// A cell, or a field by its name. Two different names on one word are refusal 4.
#[derive(Clone, Copy, Debug, PartialEq, Eq, PartialOrd, Ord)]
pub enum Role {
    Cell,
    Cl,
    Ce,
    P,
    L,
    E,
    B,
    T,
    H,
    N,
}

const FRAME_FIELDS: [Role; FRAME_WORDS] = [Role::Cl, Role::Ce];
const CHOICE_POINT_FIELDS: [Role; FIXED_WORDS] = [
    Role::P,
    Role::L,
    Role::E,
    Role::B,
    Role::T,
    Role::H,
    Role::N,
];

/// For each stack word the set of all roles that any view or choice point gives it.
#[derive(Clone, Debug, Default, PartialEq, Eq)]
pub struct Roles(Vec<BTreeSet<Role>>);

/// Collects the roles of every stack word. A word outside the stack gets none.
pub fn roles(stack_length: usize, chains: &Chains) -> Roles {
    let mut roles = Roles(vec![BTreeSet::new(); stack_length]);
    for view in &chains.views {
        roles.give(view.at, &FRAME_FIELDS, view.size);
    }
    for found in &chains.choice_points {
        roles.give(found.at, &CHOICE_POINT_FIELDS, found.header.n);
    }
    roles
}

impl Roles {
    /// Names the fields from `at` on, and as cells the `cells` words after them.
    fn give(&mut self, at: usize, fields: &[Role], cells: usize) {
        for (index, field) in fields.iter().enumerate() {
            self.add(at + index, *field);
        }
        for index in 0..cells {
            self.add(at + fields.len() + index, Role::Cell);
        }
    }

    fn add(&mut self, index: usize, role: Role) {
        if let Some(word) = self.0.get_mut(index) {
            word.insert(role);
        }
    }

    /// The roles of one word; none outside the stack.
    pub fn of(&self, index: usize) -> impl Iterator<Item = Role> + '_ {
        self.0.get(index).into_iter().flatten().copied()
    }

    pub fn is_cell(&self, index: usize) -> bool {
        self.of(index).any(|role| role == Role::Cell)
    }

    pub fn is_field(&self, index: usize) -> bool {
        self.of(index).any(|role| role != Role::Cell)
    }

    /// "a stack word would have two different roles or be two different fields"; of all such words
    /// "the lowest word in conflict"
    pub fn lowest_conflict(&self) -> Option<usize> {
        (0..self.0.len()).find(|index| self.of(*index).count() > 1)
    }

    /// The indexes of all stack words that are cells, rising.
    pub fn cells(&self) -> Vec<usize> {
        (0..self.0.len())
            .filter(|index| self.is_cell(*index))
            .collect()
    }

    /// The indexes of all stack words with a role, rising.
    pub fn with_a_role(&self) -> Vec<usize> {
        (0..self.0.len())
            .filter(|index| self.of(*index).count() > 0)
            .collect()
    }
}
