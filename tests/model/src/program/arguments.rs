//! The arguments of a comparison with a program: `[SEED COUNT [FIRST]] -- PROGRAM...`.

use std::env;
use std::ops::Range;

const FIXED_SEED: u64 = 1;

pub struct Arguments {
    pub seed: u64,
    pub items: Range<u64>,
    pub program: Vec<String>,
}

/// Those of this process; without numbers it takes `fixed_count` items at a fixed seed.
pub fn arguments(fixed_count: u64) -> Option<Arguments> {
    let mut given = env::args().skip(1);
    let numbers = given.by_ref().take_while(|word| word != "--");
    let numbers: Result<Vec<u64>, _> = numbers.map(|number| number.parse()).collect();
    let (seed, items) = match numbers.ok()?[..] {
        [] => (FIXED_SEED, 0..fixed_count),
        [seed, count] => (seed, 0..count),
        [seed, count, first] => (seed, first..first.checked_add(count)?),
        _ => return None,
    };
    let program: Vec<String> = given.collect();
    (!program.is_empty()).then_some(Arguments {
        seed,
        items,
        program,
    })
}
