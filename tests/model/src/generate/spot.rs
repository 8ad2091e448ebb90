//! The words of an image that hold its chains together, so that damage can be aimed at them.

use crate::chain::{walk, Chains, FRAME_CE};
use crate::image::*;
use crate::role::{roles, Roles};

/// One word of the control area or of the stack.
#[derive(Clone, Copy, Debug)]
pub enum Spot {
    Control(usize),
    Stack(usize),
}

impl Spot {
    fn word(self, image: &mut Image) -> Option<&mut u32> {
        match self {
            Spot::Control(x) => image.control.get_mut(x),
            Spot::Stack(x) => image.stack.get_mut(x),
        }
    }

    pub fn set(self, image: &mut Image, word: u32) {
        if let Some(place) = self.word(image) {
            *place = word;
        }
    }

    pub fn get(self, image: &Image) -> u32 {
        let found = match self {
            Spot::Control(x) => image.control.get(x),
            Spot::Stack(x) => image.stack.get(x),
        };
        found.copied().unwrap_or(0)
    }
}

/// A pointer to a frame: where its size and its index stand, and where the frame must end.
#[derive(Clone, Copy, Debug)]
pub struct FrameLink {
    pub l: Spot,
    pub e: Spot,
    pub bound: usize,
}

/// A pointer to a choice point, where that must end, and the T and H above it.
#[derive(Clone, Copy, Debug)]
pub struct ChoiceLink {
    pub b: Spot,
    pub bound: usize,
    pub newer_t: Spot,
    pub newer_h: Spot,
}

/// All that the damage needs to know of an image with sound chains.
pub struct Spots {
    pub chains: Chains,
    pub roles: Roles,
    pub frame_links: Vec<FrameLink>,
    pub choice_links: Vec<ChoiceLink>,
}

pub fn spots(image: &Image) -> Option<Spots> {
    if image.control.len() < FIXED_WORDS {
        return None;
    }
    let chains = walk(image).ok()?;
    let mut spots = Spots {
        roles: roles(image.stack.len(), &chains),
        frame_links: Vec::new(),
        choice_links: Vec::new(),
        chains,
    };
    spots.note_header(Spot::Control, 0, image.stack.len());
    for found in spots.chains.choice_points.clone() {
        spots.note_header(Spot::Stack, found.at, found.at);
    }
    for view in &spots.chains.views {
        spots.frame_links.push(FrameLink {
            l: Spot::Stack(view.at),
            e: Spot::Stack(view.at + FRAME_CE),
            bound: view.at,
        });
    }
    Some(spots)
}

impl Spots {
    fn note_header(&mut self, spot: fn(usize) -> Spot, at: usize, bound: usize) {
        self.frame_links.push(FrameLink {
            l: spot(at + FIELD_L),
            e: spot(at + FIELD_E),
            bound,
        });
        self.choice_links.push(ChoiceLink {
            b: spot(at + FIELD_B),
            bound,
            newer_t: spot(at + FIELD_T),
            newer_h: spot(at + FIELD_H),
        });
    }
}
