//! Fills the heap and all other cells with sound references and constants.

use super::ages::Ages;
use crate::image::{Image, FIXED_WORDS};
use crate::random::Random;
use crate::refer::Holder;
use crate::word::*;

/// A constant that a STRUCT may refer to, and so nothing else may.
#[derive(Clone, Copy, Debug)]
struct Functor {
    at: usize,
    arity: usize,
}

/// What the cells of one image may refer to.
pub struct Terms {
    /// Rising, and none among the arguments of another.
    functors: Vec<Functor>,
    /// The share of constants and unbound cells; the rest refers to something.
    still: usize,
}

/// Chooses the constants of the heap, functors among them. The other cells are filled later.
pub fn lay_constants(random: &mut Random, image: &mut Image, widest: usize) -> Terms {
    let h = image.control_header().h;
    // Tag VAR marks a cell as one to fill.
    image.heap[..h].fill(cell(Tag::Var, 0));
    let share = random.one_of(&[10, 20, 40]);
    for x in 0..h {
        match random.below(100) {
            choice if choice < share => image.heap[x] = functor(random, widest),
            choice if choice < share + 10 => image.heap[x] = constant(random),
            _ => {}
        }
    }
    Terms {
        functors: some_functors(random, image, h),
        still: random.one_of(&[10, 25, 50, 80]),
    }
}

fn functor(random: &mut Random, widest: usize) -> u32 {
    let name = random.below(40) as u32;
    let most = if random.percent(5) { widest } else { 3 };
    let arity = random.between(1, most.max(1)) as u32;
    cell(Tag::Const, name * ARITY_LIMIT + arity)
}

fn constant(random: &mut Random) -> u32 {
    let value = match random.below(4) {
        0 => VALUE_LIMIT - 1 - random.below(3) as u32,
        1 => random.word() % VALUE_LIMIT,
        _ => random.below(20) as u32,
    };
    cell(Tag::Const, value)
}

/// Any constant whose arguments end at or below H will do, meant as a functor or not. Those that
/// are not taken stay plain constants, to which all but a STRUCT may refer.
fn some_functors(random: &mut Random, image: &Image, h: usize) -> Vec<Functor> {
    let share = random.one_of(&[60, 90]);
    let mut functors = Vec::new();
    let mut free = 0;
    for (at, word) in image.heap[..h].iter().enumerate() {
        let arity = arity(*word);
        let fits = tag(*word) == Tag::Const && arity >= 1 && at + 1 + arity <= h;
        if fits && at >= free && random.percent(share) {
            functors.push(Functor { at, arity });
            free = at + 1 + arity;
        }
    }
    functors
}

/// Fills every cell that is no constant yet, so that the image is sound in all its states.
pub fn fill_cells(random: &mut Random, image: &mut Image, ages: &Ages, terms: &Terms) {
    let control = image.control_header();
    for x in 0..control.h {
        if tag(image.heap[x]) != Tag::Const {
            let age = ages.of_heap(x);
            image.heap[x] = terms.some_cell(random, ages, Holder::Heap, age, x as u32);
        }
    }
    for x in ages.cells.clone() {
        let (age, own) = (ages.of_stack(x), stack_address(x));
        image.stack[x] = terms.some_cell(random, ages, Holder::Stack(x), age, own);
    }
    for x in FIXED_WORDS..FIXED_WORDS + control.n {
        // A control cell has no address; 0 stands in and is never taken.
        image.control[x] = terms.some_cell(random, ages, Holder::Control, 0, 0);
    }
}

impl Terms {
    /// A cell that refers only to what is there in state `age`. Its own address is `own`.
    pub fn some_cell(
        &self,
        random: &mut Random,
        ages: &Ages,
        holder: Holder,
        age: usize,
        own: u32,
    ) -> u32 {
        // A saved argument's own word is no cell any more once it is copied.
        let own_is_sound = match holder {
            Holder::Heap => true,
            Holder::Stack(x) => ages.is_cell_in(x, age),
            Holder::Control => false,
        };
        // Roots refer more often than heap cells, or little would be reached.
        let still = match holder {
            Holder::Heap => self.still,
            _ => self.still / 2,
        };
        if random.percent(still) {
            if own_is_sound && random.percent(40) {
                return unbound(own);
            }
            return constant(random);
        }
        let h = ages.h[age];
        let found = match random.below(4) {
            0 => self.some_struct(random, h),
            1 => self.some_list(random, h),
            2 => some_stack_var(random, ages, holder, age),
            _ => self.some_var(random, h),
        };
        found.unwrap_or_else(|| constant(random))
    }

    /// Whether a STRUCT may refer to this cell, so that nothing else may.
    pub fn is_functor(&self, x: usize) -> bool {
        let found = self.functors.binary_search_by_key(&x, |functor| functor.at);
        found.is_ok()
    }

    fn some_var(&self, random: &mut Random, h: usize) -> Option<u32> {
        let x = self.some_index(random, h, |x| !self.is_functor(x))?;
        Some(cell(Tag::Var, x as u32))
    }

    fn some_list(&self, random: &mut Random, h: usize) -> Option<u32> {
        let free = |x| !self.is_functor(x) && !self.is_functor(x + 1);
        let x = self.some_index(random, h.saturating_sub(1), free)?;
        Some(cell(Tag::List, x as u32))
    }

    /// An index below `limit` that will do, if one is found soon.
    fn some_index(
        &self,
        random: &mut Random,
        limit: usize,
        will_do: impl Fn(usize) -> bool,
    ) -> Option<usize> {
        let mut tried = (0..8).map(|_| random.below(limit));
        tried.find(|x| *x < limit && will_do(*x))
    }

    fn some_struct(&self, random: &mut Random, h: usize) -> Option<u32> {
        let chosen = random.maybe_one_of(&self.functors)?;
        let inside = chosen.at + 1 + chosen.arity <= h;
        inside.then(|| cell(Tag::Struct, chosen.at as u32))
    }
}

/// "a stack word at or below itself that is a cell; a control cell, of any stack word that is".
fn some_stack_var(random: &mut Random, ages: &Ages, holder: Holder, age: usize) -> Option<u32> {
    let candidates = match holder {
        Holder::Heap => return None,
        Holder::Stack(own) => &ages.cells[..ages.cells.partition_point(|x| *x <= own)],
        Holder::Control => &ages.cells[..],
    };
    let chosen = random.maybe_one_of(candidates)?;
    let there = ages.is_cell_in(chosen, age);
    there.then(|| unbound(stack_address(chosen)))
}
