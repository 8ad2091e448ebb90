//! All comparisons on one file.

use super::asked::{Compared, Library};
use super::calls::Thawed;
use super::one_call::*;
use super::tally::Tally;
use crate::generate::file::FileCase;
use crate::image::Image;
use crate::random::Random;

pub fn compare_file(
    random: &mut Random,
    library: &dyn Library,
    case: &FileCase,
    tally: &mut Tally,
) -> Compared<()> {
    tally.files += 1;
    let [control, stack, heap, trail] = case.lent;
    let lent = Image {
        control: random.garbage_list(control),
        stack: random.garbage_list(stack),
        heap: random.garbage_list(heap),
        trail: random.garbage_list(trail),
    };
    let thawed = compare_thaw(library, &case.file, &lent)?;
    tally.thaw.add(thawed.answer.refusal);
    if thawed.answer.refusal == 0 {
        compare_written_again(library, &case.file, &thawed)?;
    }
    for _ in 0..3 {
        let offset = some_offset(random, case.file.len());
        let record = compare_record(library, &case.file, offset)?;
        tally.record.add(record.refusal);
    }
    Ok(())
}

/// "each accepted file is written again byte for byte when the writer is given just the counted
/// front of the stack"
fn compare_written_again(
    library: &dyn Library,
    file: &[u8],
    thawed: &Outcome<Thawed>,
) -> Compared<()> {
    let mut image = thawed.image();
    image.stack.truncate(thawed.answer.stack as usize);
    let output = vec![0; file.len()];
    let (answer, written) = compare_freeze(library, &image, &output)?;
    if answer.refusal != 0 || written != file {
        return Err(format!(
            "an accepted file is not written again\nfile {file:?}\nwritten {written:?}\n"
        ));
    }
    Ok(())
}

/// An offset inside the file, near its end, or near the largest number.
fn some_offset(random: &mut Random, length: usize) -> u64 {
    match random.below(10) {
        0 => u64::MAX - random.below(20) as u64,
        1 => u64::from(u32::MAX) + random.below(3) as u64,
        2 | 3 => (length + random.below(8)).saturating_sub(5) as u64,
        4 => 0,
        _ => random.below(length + 1) as u64,
    }
}
