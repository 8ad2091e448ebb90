//! A lent area with guards on both sides, so that a write outside it is seen.

const GUARD_LENGTH: usize = 8;
const GUARD_WORD: u32 = 0xA5C3_96E1;
const GUARD_BYTE: u8 = 0xA5;

/// An area between two rows of guards.
#[derive(Clone, Debug, PartialEq, Eq)]
pub struct Guarded<T> {
    all: Vec<T>,
    row: usize,
    guard: T,
}

pub fn guarded_words(words: &[u32]) -> Guarded<u32> {
    Guarded::new(words, GUARD_WORD)
}

pub fn guarded_bytes(bytes: &[u8]) -> Guarded<u8> {
    Guarded::new(bytes, GUARD_BYTE)
}

impl<T: Copy + Default + PartialEq> Guarded<T> {
    fn new(content: &[T], guard: T) -> Guarded<T> {
        let row = [guard; GUARD_LENGTH];
        Guarded {
            all: [&row, content, &row].concat(),
            row: GUARD_LENGTH,
            guard,
        }
    }

    /// For an area that a call does not use, or an empty one without a place: no guards either.
    pub fn unused() -> Guarded<T> {
        Guarded {
            all: Vec::new(),
            row: 0,
            guard: T::default(),
        }
    }

    pub fn is_used(&self) -> bool {
        self.row > 0
    }

    fn end(&self) -> usize {
        self.all.len() - self.row
    }

    pub fn area(&self) -> &[T] {
        &self.all[self.row..self.end()]
    }

    pub fn area_mut(&mut self) -> &mut [T] {
        let end = self.end();
        &mut self.all[self.row..end]
    }

    /// The guards before, the area, the guards after.
    pub fn all(&self) -> &[T] {
        &self.all
    }

    pub fn all_mut(&mut self) -> &mut [T] {
        &mut self.all
    }

    /// The length of one row of guards, which is where the area begins.
    pub fn row(&self) -> usize {
        self.row
    }

    /// Whether both rows of guards are as they were.
    pub fn intact(&self) -> bool {
        let (before, after) = (&self.all[..self.row], &self.all[self.end()..]);
        before.iter().chain(after).all(|word| *word == self.guard)
    }
}
