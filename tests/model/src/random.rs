//! A fixed-seed source of numbers (splitmix64), so that every run can be repeated.

#[derive(Clone, Debug)]
pub struct Random(u64);

const STEP: u64 = 0x9E37_79B9_7F4A_7C15;

impl Random {
    pub fn new(seed: u64) -> Random {
        Random(seed)
    }

    /// The source for one image of a run: each image can be made again without those before it.
    pub fn for_item(seed: u64, item: u64) -> Random {
        let mut random = Random(seed ^ item.wrapping_mul(STEP));
        random.word();
        random
    }

    fn number(&mut self) -> u64 {
        self.0 = self.0.wrapping_add(STEP);
        let mut mixed = self.0;
        mixed = (mixed ^ (mixed >> 30)).wrapping_mul(0xBF58_476D_1CE4_E5B9);
        mixed = (mixed ^ (mixed >> 27)).wrapping_mul(0x94D0_49BB_1331_11EB);
        mixed ^ (mixed >> 31)
    }

    /// Any 32-bit word.
    pub fn word(&mut self) -> u32 {
        (self.number() >> 32) as u32
    }

    /// A number below `limit`; 0 if there is none.
    pub fn below(&mut self, limit: usize) -> usize {
        if limit == 0 {
            return 0;
        }
        (self.number() % limit as u64) as usize
    }

    /// A number from `low` to `high`, both counted in.
    pub fn between(&mut self, low: usize, high: usize) -> usize {
        low + self.below(high.max(low) - low + 1)
    }

    /// True in `share` of 100 cases.
    pub fn percent(&mut self, share: usize) -> bool {
        self.below(100) < share
    }

    /// One of the given items. There must be one.
    pub fn one_of<T: Copy>(&mut self, items: &[T]) -> T {
        items[self.below(items.len())]
    }

    /// One of the given items, if there is one.
    pub fn maybe_one_of<T: Copy>(&mut self, items: &[T]) -> Option<T> {
        (!items.is_empty()).then(|| self.one_of(items))
    }

    /// A word that looks like those of the machine: small, a cell, near a limit, or anything.
    pub fn garbage(&mut self) -> u32 {
        match self.below(6) {
            0 => self.below(64) as u32,
            1 => self.below(64) as u32 * 16 + self.below(16) as u32,
            2 => u32::MAX - self.below(16) as u32,
            3 => crate::word::STACK_BASE + self.below(64) as u32,
            4 => (crate::word::STACK_BASE + self.below(64) as u32) * 16 + self.below(16) as u32,
            _ => self.word(),
        }
    }

    /// A list of such words.
    pub fn garbage_list(&mut self, length: usize) -> Vec<u32> {
        (0..length).map(|_| self.garbage()).collect()
    }
}
