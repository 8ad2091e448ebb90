//! Other readings of "the first frame or choice point at fault" and of "the lowest word in
//! conflict".

use model::chain::{frame_size, walk, Chains, FRAME_CE, FRAME_WORDS};
use model::image::{header, Header, Image, FIXED_WORDS, MOST_ARGUMENTS};
use model::role::roles;
use model::word::NONE;

/// A frame or choice point that is wrong, and what another reading may make of it.
#[derive(Clone, Copy, Debug)]
pub struct Fault {
    pub at: usize,
    end: usize,
    bound: usize,
    is_frame: bool,
    /// A frame that an earlier view found whole.
    seen: bool,
}

/// All faults in the order of the walk, which goes on behind each as far as words can be read.
struct Faults<'a> {
    stack: &'a [u32],
    seen: Vec<usize>,
    found: Vec<Fault>,
}

pub fn faults(image: &Image) -> Vec<Fault> {
    let stack = &image.stack;
    let mut faults = Faults {
        stack,
        seen: Vec::new(),
        found: Vec::new(),
    };
    let mut newer = image.control_header();
    let mut bound = stack.len();
    faults.note_frames(&newer, bound);
    while newer.b != NONE {
        let at = newer.b as usize;
        let Some(own) = header(stack, at).filter(|_| at + FIXED_WORDS <= bound) else {
            faults.note(at, at + FIXED_WORDS, bound, false);
            break;
        };
        let end = at + FIXED_WORDS + own.n;
        if own.n > MOST_ARGUMENTS || end > bound || own.t > newer.t || own.h > newer.h {
            faults.note(at, end, bound, false);
        }
        (newer, bound) = (own, at);
        faults.note_frames(&newer, bound);
    }
    faults.found
}

impl Faults<'_> {
    fn note(&mut self, at: usize, end: usize, bound: usize, is_frame: bool) {
        self.found.push(Fault {
            at,
            end,
            bound,
            is_frame,
            seen: is_frame && self.seen.contains(&at),
        });
    }

    /// The frames from one E; a broken one ends its chain.
    fn note_frames(&mut self, from: &Header, bound: usize) {
        let (mut e, mut l, mut bound) = (from.e, from.l, bound);
        while e != NONE {
            let at = e as usize;
            let end = at + FRAME_WORDS + frame_size(l);
            if end > bound {
                return self.note(at, end, bound, true);
            }
            self.seen.push(at);
            (l, e, bound) = (self.stack[at], self.stack[at + FRAME_CE], at);
        }
    }
}

/// A reading of 3: what it names in the stack, of all faults; nothing is "no refusal 3".
pub type Reading = fn(&[Fault], &Image) -> Option<usize>;

/// The first for which this holds, or else the first.
fn first_such(faults: &[Fault], such: impl Fn(&Fault) -> bool) -> Option<usize> {
    let found = faults.iter().find(|fault| such(fault));
    found.or(faults.first()).map(|fault| fault.at)
}

pub const READINGS: [(&str, Reading); 10] = [
    ("every choice point before any frame", |faults, _| {
        first_such(faults, |fault| !fault.is_frame)
    }),
    ("every frame before any choice point", |faults, _| {
        first_such(faults, |fault| fault.is_frame)
    }),
    ("a choice point after its own frames", |faults, _| {
        let own = |one: &Fault| {
            faults
                .iter()
                .find(|two| two.is_frame && two.bound == one.at)
        };
        let first = faults.first()?;
        let own = own(first).filter(|_| !first.is_frame);
        Some(own.unwrap_or(first).at)
    }),
    ("the lowest", |faults, _| {
        faults.iter().map(|fault| fault.at).min()
    }),
    ("the highest", |faults, _| {
        faults.iter().map(|fault| fault.at).max()
    }),
    ("the oldest", |faults, _| {
        faults.last().map(|fault| fault.at)
    }),
    ("the end", |faults, _| faults.first().map(|fault| fault.end)),
    ("what must not be passed", |faults, _| {
        faults.first().map(|fault| fault.bound)
    }),
    ("a place in the stack", |faults, image| {
        let first = faults.first()?;
        Some(first.at.min(image.stack.len()))
    }),
    (
        "only frames that no earlier view found whole",
        |faults, _| {
            faults
                .iter()
                .find(|fault| !fault.seen)
                .map(|fault| fault.at)
        },
    ),
];

/// A reading of 4, of all words in conflict, rising, and of the chains.
pub type ConflictReading = fn(&[usize], &Chains) -> usize;

pub const CONFLICT_READINGS: [(&str, ConflictReading); 4] = [
    ("the highest word", |words, _| words[words.len() - 1]),
    ("the highest run of words", |words, _| {
        let begins = |x: &&usize| **x == 0 || !words.contains(&(**x - 1));
        words.iter().filter(begins).max().copied().unwrap_or(0)
    }),
    ("that of the first view that meets one", |words, chains| {
        first_met(chains).unwrap_or(words[0])
    }),
    ("where the lower of the two begins", |words, chains| {
        let points = chains.choice_points.iter().map(|found| found.at);
        let firsts = chains.views.iter().map(|view| view.at).chain(points);
        firsts.filter(|at| *at < words[0]).max().unwrap_or(words[0])
    }),
];

/// The lowest word in conflict once the first view is there that brings one.
fn first_met(chains: &Chains) -> Option<usize> {
    let views = &chains.views;
    let length = views.iter().map(|view| view.at + FRAME_WORDS + view.size);
    let length = length.max().unwrap_or(0);
    let met = |count: usize| {
        let some = Chains {
            views: views[..count].to_vec(),
            ..chains.clone()
        };
        roles(length, &some).lowest_conflict()
    };
    (1..=views.len()).find_map(met)
}

/// All words in conflict, and the chains that make them so.
pub fn conflicts(image: &Image) -> (Vec<usize>, Chains) {
    let chains = walk(image).expect("4 comes after 3");
    let roles = roles(image.stack.len(), &chains);
    let words = (0..image.stack.len()).filter(|x| roles.of(*x).count() > 1);
    (words.collect(), chains)
}
