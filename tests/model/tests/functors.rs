//! Refusal 17, document 02's order 2: each kind of culprit in each area, what just passes, the
//! order of the checks, and how often random images meet it.

mod common;

use std::collections::BTreeMap;

use common::*;
use model::check::check_image;
use model::generate;
use model::image::Image;
use model::random::Random;
use model::reached::reached;
use model::refusal::{Area, FUNCTOR_NAMED};
use model::word::{stack_address, tag, value, Tag, NONE};

/// A frame with one cell at stack 2, one saved argument, and this heap, all below H.
fn framed(argument: u32, frame_cell: u32, heap: &[u32]) -> Image {
    Image {
        control: header(1, 0, NONE, 0, heap.len() as u32, &[argument]),
        stack: vec![0, NONE, frame_cell],
        heap: heap.to_vec(),
        trail: vec![],
    }
}

/// f5/1 at 2, its argument at 3, a free cell at 4, and its one STRUCT in the dead cell 5; f6/2 at
/// 0 only looks like a functor.
fn heap() -> Vec<u32> {
    vec![functor(6, 2), k(1), functor(5, 1), k(2), k(3), st(2)]
}

/// VAR at, LIST over with either half, STRUCT around the functor at 2.
fn culprits() -> [u32; 4] {
    [v(2), li(1), li(2), st(0)]
}

#[test]
fn the_settled_examples() {
    let image = tiny(&[], &[functor(5, 1), k(1), st(0), v(0)]);
    assert_refused(&image, 17, Some((Area::Heap, 3)));
    let image = tiny(&[st(0), st(1)], &[functor(5, 2), functor(6, 1), k(1)]);
    assert_refused(&image, 17, Some((Area::Control, 7)));
}

#[test]
fn each_culprit_in_each_area() {
    for culprit in culprits() {
        let mut words = heap();
        words[4] = culprit;
        assert_refused(&framed(k(0), k(0), &words), 17, Some((Area::Heap, 4)));
        let image = framed(k(0), culprit, &heap());
        assert_refused(&image, 17, Some((Area::Stack, 2)));
        let image = framed(culprit, k(0), &heap());
        assert_refused(&image, 17, Some((Area::Control, 7)));
        let image = framed(culprit, culprit, &heap());
        assert_refused(&image, 17, Some((Area::Stack, 2)));
    }
    let mut image = framed(k(0), k(0), &heap());
    image.trail = vec![1, 2];
    image.control[4] = 2;
    assert_refused(&image, 17, Some((Area::Trail, 1)));
}

#[test]
fn the_cells_beside_a_functor_are_free() {
    for word in [v(1), v(3), v(0), li(0), li(3), st(2), k(0)] {
        assert_accepted(&framed(word, word, &heap()));
    }
    // The outer structure ends just below the inner one's functor.
    let mut words = heap();
    words[0] = functor(6, 1);
    assert_accepted(&framed(st(0), st(2), &words));
    words[0] = functor(6, 2);
    assert_refused(&framed(st(0), st(2), &words), 17, Some((Area::Control, 7)));
}

#[test]
fn any_struct_counts_wherever_it_stands() {
    let words = [functor(5, 1), k(1), v(0)];
    let place = Some((Area::Heap, 2));
    assert_accepted(&framed(k(0), k(0), &words));
    assert_refused(&framed(st(0), k(0), &words), 17, place);
    assert_refused(&framed(k(0), st(0), &words), 17, place);
    let dead = [&words[..], &[st(0)]].concat();
    assert_refused(&framed(k(0), k(0), &dead), 17, place);
}

#[test]
fn words_without_a_role_do_not_count() {
    let mut image = framed(v(0), k(0), &[functor(5, 1), k(1)]);
    image.control.push(st(0));
    image.stack.push(st(0));
    image.heap.push(st(0));
    assert_accepted(&image);
    // Nor do they when they are the ones that name it.
    let mut image = framed(st(0), k(0), &[functor(5, 1), k(1)]);
    image.control.push(v(0));
    image.stack.push(v(0));
    image.heap.push(v(0));
    image.trail.push(0);
    assert_accepted(&image);
}

#[test]
fn a_functor_inside_itself_or_of_two() {
    // Two structures that cover one another's functor cannot be: the later one's is covered.
    let words = [functor(5, 2), functor(6, 2), k(1), k(2)];
    assert_refused(&tiny(&[st(1), st(0)], &words), 17, Some((Area::Control, 8)));
    assert_accepted(&tiny(&[st(0), v(1), li(1)], &words));
    assert_accepted(&tiny(&[st(1), v(0)], &words));
    // A VAR in a structure that names that structure's own functor.
    let own = [functor(5, 1), v(0)];
    assert_refused(&tiny(&[st(0)], &own), 17, Some((Area::Heap, 1)));
    assert_accepted(&tiny(&[], &own));
    let cyclic = [functor(5, 1), st(0)];
    assert_accepted(&tiny(&[st(0)], &cyclic));
}

#[test]
fn after_7_and_before_8() {
    let mut image = framed(v(2), k(0), &heap());
    image.trail = vec![6];
    image.control[4] = 1;
    assert_refused(&image, 7, Some((Area::Trail, 0)));
    image.trail[0] = 2;
    // B is none, so a step back would be refused 8; `assert_refused` tries both calls.
    assert_refused(&image, 17, Some((Area::Control, 7)));
    image.control[7] = k(0);
    assert_refused(&image, 17, Some((Area::Trail, 0)));
    image.trail[0] = stack_address(2);
    assert_accepted(&image);
    assert_eq!(stepped(&mut image).unwrap_err().number, 8);
    // A wrong reference anywhere comes before it.
    let mut words = heap();
    words[4] = v(2);
    let image = framed(v(9), k(0), &words);
    assert_refused(&image, 6, Some((Area::Control, 7)));
}

const DEAD_STRUCT: &str = "live VAR at the functor of a dead STRUCT";

/// What an image that is refused 17 has at the place that is named. A STRUCT there is the outer of
/// two structures that overlap.
fn culprit(image: &Image, area: Area, index: usize) -> String {
    let word = match area {
        Area::Heap => image.heap[index],
        Area::Stack => image.stack[index],
        Area::Control => image.control[index],
        Area::Trail => return "entry in the trail".to_string(),
    };
    format!("{:?} in the {}", tag(word), area.name())
}

/// Whether a live cell or root is at fault though every STRUCT at the functor is dead.
fn is_dead_struct(image: &Image, area: Area, index: usize) -> bool {
    let word = match area {
        Area::Stack => image.stack[index],
        Area::Control => image.control[index],
        Area::Heap | Area::Trail => return false,
    };
    let named = |other: &u32| tag(*other) == Tag::Struct && value(*other) == value(word);
    if tag(word) != Tag::Var || image.stack.iter().chain(&image.control).any(named) {
        return false;
    }
    // With the dead ones gone the image must be accepted, and have lost nothing that is reached.
    let mut pardoned = image.clone();
    let h = image.control_header().h;
    let structs: Vec<usize> = (0..h).filter(|x| named(&image.heap[*x])).collect();
    for x in &structs {
        pardoned.heap[*x] = k(0);
    }
    check_image(&pardoned).is_ok_and(|checked| {
        let kept = reached(&pardoned, &checked);
        structs.iter().all(|x| !kept.contains(*x))
    })
}

#[test]
fn random_images_have_each_culprit_in_each_area() {
    const COUNT: u64 = 40_000;
    let mut met: BTreeMap<String, u64> = BTreeMap::new();
    for item in 0..COUNT {
        let image = generate::image(&mut Random::for_item(5, item));
        let Err(refusal) = check_image(&image) else {
            continue;
        };
        if refusal.number != FUNCTOR_NAMED {
            continue;
        }
        let place = refusal.place.expect("17 has a place");
        let (area, index) = (place.area, place.index);
        let mut names = vec![culprit(&image, area, index)];
        if is_dead_struct(&image, area, index) {
            names.push(DEAD_STRUCT.to_string());
        }
        for name in names {
            *met.entry(name).or_default() += 1;
        }
    }
    let mut wanted: Vec<String> = Vec::new();
    for area in ["heap", "stack", "control"] {
        wanted.extend(["Var", "List", "Struct"].map(|kind| format!("{kind} in the {area}")));
    }
    wanted.extend(["entry in the trail", DEAD_STRUCT].map(String::from));
    for name in wanted {
        let count = met.get(&name).copied().unwrap_or(0);
        println!("{name}: {count} of {COUNT}");
        assert!(count >= 30, "{name}: {count}");
    }
}
