//! "Try these and see them rejected": the collectors that document 01 names.

#[path = "common/wrong.rs"]
mod wrong;

use std::cell::Cell;

use model::compare::answers::Model;
use model::compare::calls::*;
use wrong::{assert_rejected, first_difference};

#[test]
fn the_model_in_its_own_place_passes() {
    let found = first_difference(|lent| Model.collect(lent), |lent| Model.step_back(lent));
    assert_eq!(found, None);
}

#[test]
fn one_that_refuses_everything() {
    assert_rejected(|_| Collected {
        refusal: 1,
        ..Collected::default()
    });
}

#[test]
fn one_with_a_constant_answer() {
    assert_rejected(|lent| {
        Model.collect(lent);
        Collected::default()
    });
}

#[test]
fn one_that_leaves_the_heap_untouched() {
    assert_rejected(|lent| {
        let heap = &mut lent.heap.to_vec()[..];
        Model.collect(Lent { heap, ..lent })
    });
}

#[test]
fn one_that_collects_the_first_time_and_then_only_reports() {
    let collected = Cell::new(false);
    assert_rejected(|mut lent| {
        let before = lent.image();
        let answer = Model.collect(lent.again());
        if collected.replace(true) {
            lent.write(&before);
        }
        answer
    });
}

#[test]
fn one_that_invents_its_counts() {
    assert_rejected(|lent| {
        let mut answer = Model.collect(lent);
        std::mem::swap(&mut answer.cells_kept, &mut answer.cells_dropped);
        answer
    });
}

#[test]
fn one_that_leaves_the_work_words() {
    assert_rejected(|lent| {
        let work = &mut lent.work.to_vec()[..];
        Model.collect(Lent { work, ..lent })
    });
}

#[test]
fn one_that_clears_too_much_work() {
    assert_rejected(|mut lent| {
        let answer = Model.collect(lent.again());
        lent.work.fill(0);
        answer
    });
}
