//! "Errors that look right", each made by a collector or step back and seen rejected.

#[path = "common/wrong.rs"]
mod wrong;

use std::cell::RefCell;

use model::check::{check, Checked};
use model::collect::collected;
use model::compare::answers::{self, Model};
use model::compare::calls::*;
use model::image::{Image, FIELD_H};
use model::reached::{reached, roots, Reached};
use model::refer::refers_to;
use model::role::roles;
use model::word::{address, arity, tag, unbound, Address, Tag};
use wrong::{assert_rejected, first_difference};

/// A collector that keeps the cells that `kept` says, where the image is accepted.
fn keeping(kept: impl Fn(&Image, &Checked) -> Reached) -> impl Fn(Lent<'_>) -> Collected {
    move |mut lent| {
        let image = lent.image();
        let right = Model.collect(lent.again());
        let Ok(checked) = check(&image, lent.work.len()) else {
            return right;
        };
        let (after, counts) = collected(&image, &checked, &kept(&image, &checked));
        lent.write(&after);
        answers::collected(Ok(counts))
    }
}

/// Such a collector is right when it keeps what is reached.
#[test]
fn one_that_keeps_what_is_reached_passes() {
    let found = first_difference(keeping(reached), |lent| Model.step_back(lent));
    assert_eq!(found, None);
}

#[test]
fn one_that_marks_a_whole_structure_for_one_argument() {
    assert_rejected(keeping(|image, checked| {
        let mut kept = reached(image, checked);
        for (x, word) in image.heap[..kept.0.len()].iter().enumerate() {
            let end = x + 1 + arity(*word);
            if tag(*word) == Tag::Const && end <= kept.0.len() && kept.d(end) > kept.d(x + 1) {
                kept.0[x..end].fill(true);
            }
        }
        kept
    }));
}

/// Marks what one word refers to and so on, passing over a structure whose functor is marked.
fn mark(heap: &[u32], kept: &mut Reached, word: u32) {
    let cells = refers_to(heap, word);
    if tag(word) == Tag::Struct && kept.contains(cells.start) {
        return;
    }
    for x in cells {
        if !kept.contains(x) {
            kept.0[x] = true;
            mark(heap, kept, heap[x]);
        }
    }
}

/// What such a marking keeps.
fn marked(image: &Image, checked: &Checked, mark: Mark) -> Reached {
    let mut kept = Reached(vec![false; image.control_header().h]);
    for root in roots(image, checked) {
        mark(&image.heap, &mut kept, root.word);
    }
    kept
}

type Mark = fn(&[u32], &mut Reached, u32);

/// Since document 02's order 2 only a STRUCT marks a functor's cell, so this one is right.
#[test]
fn one_that_passes_over_a_structure_whose_functor_is_marked_passes() {
    let collect = keeping(|image, checked| marked(image, checked, mark));
    let found = first_difference(collect, |lent| Model.step_back(lent));
    assert_eq!(found, None);
}

/// Likewise for lists, whose first cell a VAR alone may have marked.
fn mark_lists_so(heap: &[u32], kept: &mut Reached, word: u32) {
    let cells = refers_to(heap, word);
    if tag(word) == Tag::List && kept.contains(cells.start) {
        return;
    }
    for x in cells {
        if !kept.contains(x) {
            kept.0[x] = true;
            mark_lists_so(heap, kept, heap[x]);
        }
    }
}

#[test]
fn one_that_passes_over_a_list_whose_first_cell_is_marked() {
    assert_rejected(keeping(|image, checked| {
        marked(image, checked, mark_lists_so)
    }));
}

#[test]
fn one_that_stops_at_a_frame_seen_earlier() {
    assert_rejected(keeping(|image, checked| {
        let mut first_views = checked.clone();
        let mut seen = Vec::new();
        first_views.chains.views.retain(|view| {
            let new = !seen.contains(&view.at);
            seen.push(view.at);
            new
        });
        first_views.roles = roles(image.stack.len(), &first_views.chains);
        reached(image, &first_views)
    }));
}

#[test]
fn one_that_leaves_a_boundary_whose_cell_is_dead() {
    assert_rejected(|mut lent| {
        let image = lent.image();
        let answer = Model.collect(lent.again());
        let Ok(checked) = check(&image, lent.work.len()) else {
            return answer;
        };
        let kept = reached(&image, &checked);
        for found in &checked.chains.choice_points {
            let h = found.header.h;
            if h < kept.0.len() && !kept.contains(h) {
                lent.stack[found.at + FIELD_H] = h as u32;
            }
        }
        answer
    });
}

/// The heap entries that a collection of the image drops.
fn dropped_entries(image: &Image, work_length: usize) -> Vec<u32> {
    let Ok(checked) = check(image, work_length) else {
        return Vec::new();
    };
    let kept = reached(image, &checked);
    let mut entries = image.trail[..image.control_header().t].to_vec();
    entries.retain(|entry| matches!(address(*entry), Address::Heap(x) if !kept.contains(x)));
    entries
}

#[test]
fn one_that_undoes_dropped_entries_at_their_old_addresses() {
    let dropped = RefCell::new(Vec::new());
    let collect = |lent: Lent<'_>| {
        *dropped.borrow_mut() = dropped_entries(&lent.image(), lent.work.len());
        Model.collect(lent)
    };
    let step_back = |mut lent: Lent<'_>| {
        let answer = Model.step_back(lent.again());
        for entry in dropped.borrow_mut().drain(..) {
            if answer.refusal == 0 && (entry as usize) < lent.heap.len() {
                lent.heap[entry as usize] = unbound(entry);
            }
        }
        answer
    };
    let text = first_difference(collect, step_back).expect("a difference");
    assert!(text.contains("difference in step back"), "{text}");
}
