//! The model with another collector or step back in its place, to be seen rejected.

use model::compare::answers::Model;
use model::compare::calls::*;
use model::compare::run;

const SEED: u64 = 3;
const COUNT: u64 = 20_000;

pub struct Wrong<C, S> {
    pub collect: C,
    pub step_back: S,
}

impl<C, S> Calls for Wrong<C, S>
where
    C: Fn(Lent<'_>) -> Collected,
    S: Fn(Lent<'_>) -> Stepped,
{
    fn collect(&self, lent: Lent<'_>) -> Collected {
        (self.collect)(lent)
    }
    fn step_back(&self, lent: Lent<'_>) -> Stepped {
        (self.step_back)(lent)
    }
    fn why_held(&self, lent: Lent<'_>, cell: u32) -> WhyHeld {
        Model.why_held(lent, cell)
    }
    fn look_up(&self, heap: &[u32], stack: &[u32], address: u32) -> Found {
        Model.look_up(heap, stack, address)
    }
    fn thaw(&self, file: &[u8], lent: Lent<'_>) -> Thawed {
        Model.thaw(file, lent)
    }
    fn freeze(&self, shown: Shown<'_>, output: &mut [u8]) -> Frozen {
        Model.freeze(shown, output)
    }
    fn record_at(&self, file: &[u8], offset: u64) -> RecordRead {
        Model.record_at(file, offset)
    }
}

/// The text of the first difference, if there is one.
pub fn first_difference(
    collect: impl Fn(Lent<'_>) -> Collected,
    step_back: impl Fn(Lent<'_>) -> Stepped,
) -> Option<String> {
    let library = Wrong { collect, step_back };
    run(&library, SEED, 0..COUNT, |_| {}).err()
}

/// Asserts that the comparison finds this collector wrong.
pub fn assert_rejected(collect: impl Fn(Lent<'_>) -> Collected) {
    let found = first_difference(collect, |lent| Model.step_back(lent));
    let text = found.expect("a difference");
    assert!(text.contains("difference in collect"), "{text}");
}
