//! Order 4: chains by hand, the room and the work words, refusals.

mod common;

use common::*;
use model::check::check_image;
use model::held::{chain_to, why_held};
use model::image::{Image, FIXED_WORDS};
use model::refusal::Area;
use model::word::{cell, Tag, NONE};

/// The area and index of the root and the heap indexes, or nothing for a dead cell.
fn holder(image: &Image, asked: usize) -> Option<(Area, usize, Vec<usize>)> {
    let checked = check_image(image).expect("an accepted image");
    let found = chain_to(image, &checked, asked)?;
    Some((found.root.area, found.root.index, found.cells))
}

/// A frame at 0 seen with all its cells and a choice point above it; both may hold something.
fn with_stack(arguments: &[u32], frame: &[u32], saved: &[u32], heap: &[u32]) -> Image {
    let h = heap.len() as u32;
    let b = 2 + frame.len() as u32;
    let choice_point = header(0, NONE, NONE, 0, h, saved);
    Image {
        control: header(frame.len() as u32, 0, b, 0, h, arguments),
        stack: [&[0, NONE], frame, &choice_point].concat(),
        heap: heap.to_vec(),
        ..Image::default()
    }
}

#[test]
fn each_kind_of_root() {
    let heap = [k(1), k(2), k(3), k(4)];
    let image = with_stack(&[k(0), v(0)], &[k(0), v(1)], &[k(0), v(2)], &heap);
    assert_eq!(holder(&image, 0), Some((Area::Control, 8, vec![0])));
    assert_eq!(holder(&image, 1), Some((Area::Stack, 3, vec![1])));
    assert_eq!(holder(&image, 2), Some((Area::Stack, 12, vec![2])));
    assert_eq!(holder(&image, 3), None);
}

#[test]
fn each_kind_of_reference() {
    let heap = [
        li(2),
        st(4),
        k(1),
        v(6),
        functor(5, 2),
        k(2),
        li(7),
        v(7),
        k(3),
    ];
    let image = tiny(&[v(0), v(1), v(3)], &heap);
    let through = |asked| holder(&image, asked).map(|(_, index, cells)| (index, cells));
    assert_eq!(through(2), Some((7, vec![0, 2])));
    assert_eq!(through(3), Some((9, vec![3])));
    assert_eq!(through(4), Some((8, vec![1, 4])));
    assert_eq!(through(5), Some((8, vec![1, 5])));
    assert_eq!(through(6), Some((8, vec![1, 6])));
    assert_eq!(through(7), Some((8, vec![1, 6, 7])));
    assert_eq!(through(8), Some((8, vec![1, 6, 8])));
}

/// References from stack to stack add nothing, and a VAR that names itself leads nowhere.
#[test]
fn what_leads_nowhere() {
    let image = with_stack(&[s(2)], &[v(1), s(3)], &[s(2)], &[v(0), v(1), k(2)]);
    assert_eq!(holder(&image, 0), None);
    assert_eq!(holder(&image, 1), Some((Area::Stack, 2, vec![1])));
    assert_eq!(holder(&image, 2), None);
}

#[test]
fn the_shortest_comes_first() {
    // Control's argument meets 3 over 0, 1 and 2, the choice point's over 2 alone.
    let image = with_stack(&[v(0)], &[], &[v(2)], &[v(1), v(2), v(3), k(1)]);
    assert_eq!(holder(&image, 3), Some((Area::Stack, 9, vec![2, 3])));
}

#[test]
fn control_before_stack_and_the_lowest_root() {
    let heap = [v(1), k(1)];
    let both = with_stack(&[k(0), v(0), v(0)], &[v(0)], &[v(0)], &heap);
    assert_eq!(holder(&both, 1), Some((Area::Control, 8, vec![0, 1])));
    let stack = with_stack(&[k(0)], &[k(0), v(0), v(0)], &[v(0)], &heap);
    assert_eq!(holder(&stack, 1), Some((Area::Stack, 3, vec![0, 1])));
    let saved = with_stack(&[], &[k(0)], &[v(0), v(0)], &heap);
    assert_eq!(holder(&saved, 1), Some((Area::Stack, 10, vec![0, 1])));
}

/// A lower root wins over lower cells after it, a lower cell over lower ones after that.
#[test]
fn the_lowest_places_from_the_root_on() {
    let heap = [v(4), v(4), v(4), v(4), k(1)];
    let root = tiny(&[v(3), v(0)], &heap);
    assert_eq!(holder(&root, 4), Some((Area::Control, 7, vec![3, 4])));
    let first = tiny(&[li(1)], &heap);
    assert_eq!(holder(&first, 4), Some((Area::Control, 7, vec![1, 4])));
    // 0 over 4 and 1 over 2: the first cell decides, and it is 0.
    let heap = [v(4), v(2), v(5), k(1), v(5), k(2)];
    let deep = tiny(&[li(0)], &heap);
    assert_eq!(holder(&deep, 5), Some((Area::Control, 7, vec![0, 4, 5])));
    // Both cells of the pair at 4 meet 7 over another: 2 over 5 and 3 over 4.
    let heap = [li(4), k(0), v(7), v(7), v(3), v(2), k(0), k(1)];
    let deeper = tiny(&[v(0)], &heap);
    let cells = vec![0, 4, 3, 7];
    assert_eq!(holder(&deeper, 7), Some((Area::Control, 7, cells)));
}

#[test]
fn cycles_end() {
    let ring = tiny(&[v(1)], &[v(1), v(2), v(3), v(1), v(4)]);
    assert_eq!(
        holder(&ring, 3),
        Some((Area::Control, 7, vec![1, 2, 3])),
        "around the ring"
    );
    assert_eq!(
        holder(&ring, 0),
        None,
        "a dead cell that refers to the ring"
    );
    assert_eq!(holder(&ring, 4), None, "a dead cell that refers to itself");
    let lists = tiny(&[li(0)], &[li(0), li(2), li(0), li(1)]);
    assert_eq!(
        holder(&lists, 3),
        Some((Area::Control, 7, vec![1, 3])),
        "pairs that share a cell"
    );
}

/// The call with work of sevens and a room of nines; gives the refusal's number, the work and the
/// room.
fn asked_of(image: &Image, work: usize, asked: u32, room: usize) -> (u32, Vec<u32>, Vec<u32>) {
    let (mut work, mut room) = (vec![7; work], vec![9; room]);
    let answer = why_held(image, &mut work, asked, &mut room);
    let number = answer.err().map_or(0, |refusal| refusal.number);
    (number, work, room)
}

#[test]
fn the_room_takes_the_chain_and_the_rest_stays() {
    let image = tiny(&[v(0)], &[v(1), v(2), k(1), k(2)]);
    let nought = vec![0; 4];
    for (length, number, room) in [
        (0, 19, vec![]),
        (1, 19, vec![9]),
        (2, 19, vec![9; 2]),
        (3, 0, vec![0, 1, 2]),
        (5, 0, vec![0, 1, 2, 9, 9]),
    ] {
        let answer = asked_of(&image, 4, 2, length);
        assert_eq!(answer, (number, nought.clone(), room));
    }
    // A dead cell needs no room.
    assert_eq!(asked_of(&image, 4, 3, 0), (0, nought.clone(), vec![]));
    assert_eq!(asked_of(&image, 4, 3, 2), (0, nought, vec![9; 2]));
}

#[test]
fn an_index_at_or_above_h() {
    let mut image = tiny(&[v(0)], &[v(1), k(1)]);
    image.heap.push(k(2));
    let expected = |number| (number, vec![0, 0, 0, 7], vec![9]);
    assert_eq!(asked_of(&image, 4, 1, 1), expected(19));
    for asked in [2, 3, 4, NONE - 1, NONE] {
        assert_eq!(asked_of(&image, 4, asked, 1), expected(18));
    }
    let empty = tiny(&[], &[]);
    assert_eq!(asked_of(&empty, 0, 0, 0), (18, vec![], vec![]));
}

/// "Refusals: the collector's; then 18": each is given, whatever the index and the room.
#[test]
fn the_collector_s_refusals_come_first() {
    let mut wrong = Vec::new();
    let mut add = |number: u32, change: fn(&mut Image)| {
        let mut image = two_chains();
        change(&mut image);
        wrong.push((number, image));
    };
    add(1, |image| image.control.truncate(6));
    add(2, |image| image.control[4] = 3);
    add(3, |image| image.stack[10] = 9);
    add(4, |image| image.control[2] = 7);
    add(5, |image| image.heap[1] += 1);
    add(6, |image| image.heap[1] = v(2));
    add(7, |image| image.trail[0] = 2);
    add(17, |image| {
        image.control[FIXED_WORDS] = st(0);
        image.heap = vec![functor(5, 1), v(0)];
    });
    for (number, image) in wrong {
        let needed = image.work_needed();
        for (asked, room) in [(0, 0), (1, 3), (2, 0), (NONE, 1)] {
            let (found, work, left) = asked_of(&image, needed + 1, asked, room);
            assert_eq!(found, number, "{image:?}");
            assert_eq!(left, vec![9; room]);
            let cleared = if number == 1 { 0 } else { needed };
            assert!(work[..cleared].iter().all(|word| *word == 0));
            assert!(work[cleared..].iter().all(|word| *word == 7));
        }
        let (found, work, _) = asked_of(&image, needed - 1, 0, 9);
        assert_eq!((found, work), (1, vec![7; needed - 1]));
    }
}

/// A constant is no reference, whatever its value is.
#[test]
fn a_constant_holds_nothing() {
    let image = tiny(&[v(0)], &[cell(Tag::Const, 1), k(5)]);
    assert_eq!(holder(&image, 1), None);
}
