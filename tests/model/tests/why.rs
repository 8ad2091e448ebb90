//! The program `why`: its argument, each kind of text, the stored questions.

mod common;

use std::collections::BTreeMap;
use std::fs;
use std::path::Path;

use common::*;
use model::freeze::file_of;
use model::generate::why::why_input;
use model::image::Image;
use model::why::{heap_index, why, BAD_ARGUMENT};
use model::word::NONE;

fn asked(image: &Image, argument: &str) -> String {
    why(&[argument.into()], &file_of(image))
}

#[test]
fn night_a_s_list() {
    let text = "held by cell 1 of the frame at 0: stack 2\n2 VAR 6\n6 LIST 7\n8 CONST 0\n";
    assert_eq!(asked(&night_a(), "8"), text);
    assert_eq!(asked(&night_a(), "0008"), text);
    assert_eq!(asked(&night_a(), "0"), "dead\n");
    assert_eq!(asked(&night_a(), "9"), "refused 18\n");
    assert_eq!(asked(&night_a(), "4294967295"), "refused 18\n");
}

/// Word 44 is cell 3 of the frame at 40, word 95 saved argument 1 of the choice point at 88, and
/// control word 8 is argument 2.
#[test]
fn the_settled_lines() {
    let mut stack = vec![k(0); 96];
    stack[40..45].copy_from_slice(&[0, NONE, k(1), k(2), v(1)]);
    stack[88..].copy_from_slice(&header(0, NONE, NONE, 0, 3, &[v(2)]));
    let image = Image {
        control: header(3, 40, 88, 0, 3, &[k(0), v(0)]),
        stack,
        heap: vec![k(7), v(2), k(8)],
        ..Image::default()
    };
    let argument = "held by argument 2 of the control area: control 8\n0 CONST 7\n";
    assert_eq!(asked(&image, "0"), argument);
    let cell = "held by cell 3 of the frame at 40: stack 44\n1 VAR 2\n";
    assert_eq!(asked(&image, "1"), cell);
    let saved = "held by saved argument 1 of the choice point at 88: stack 95\n2 CONST 8\n";
    assert_eq!(asked(&image, "2"), saved);
}

#[test]
fn refused_images_and_bad_files_as_the_listing_has_them() {
    let image = tiny(&[], &[k(1), k(2), k(3), v(4)]);
    assert_eq!(asked(&image, "0"), "refused 6 heap 3\n");
    assert_eq!(asked(&image, "4"), "refused 6 heap 3\n");
    assert_eq!(why(&[b"0".to_vec()], &[2]), "file 11 0\n");
    assert_eq!(why(&[b"99".to_vec()], &[]), "file 10 0\n");
}

#[test]
fn the_argument() {
    let one = |text: &[u8]| heap_index(&[text.to_vec()]);
    assert_eq!(one(b"0"), Some(0));
    assert_eq!(one(b"0000000000000000000000000000000000000012"), Some(12));
    assert_eq!(one(b"4294967295"), Some(NONE));
    assert_eq!(one(b"00004294967295"), Some(NONE));
    for bad in [
        "",
        " ",
        "-",
        "+",
        "-0",
        "+1",
        "1 ",
        " 1",
        "1\n",
        "a",
        "1a",
        "0x1",
        "1.",
        "1/",
        "1:",
        "\u{661}",
        "4294967296",
        "4294967297",
        "04294967296",
        "18446744073709551616",
        "18446744073709551617",
        "340282366920938463463374607431768211457",
    ] {
        assert_eq!(one(bad.as_bytes()), None, "{bad:?}");
    }
    assert_eq!(one(b"\xff"), None);
    assert_eq!(heap_index(&[]), None);
    assert_eq!(heap_index(&[b"1".to_vec(), b"1".to_vec()]), None);
    // Whatever the file is.
    assert_eq!(why(&[], &[]), BAD_ARGUMENT);
    assert_eq!(why(&[b"x".to_vec()], &file_of(&night_a())), BAD_ARGUMENT);
}

/// The questions of `tests/why`, which are made by `tests/make_why.py`.
#[test]
fn the_stored_texts_are_the_model_s() {
    let folder = Path::new(env!("CARGO_MANIFEST_DIR")).join("../why");
    let mut stored = 0;
    for entry in fs::read_dir(folder).expect("the stored questions") {
        let path = entry.unwrap().path();
        if path.extension().is_some_and(|name| name == "freeze") {
            let lines = fs::read(path.with_extension("args")).unwrap();
            let lines = lines.split_inclusive(|byte| *byte == b'\n');
            let arguments: Vec<Vec<u8>> =
                lines.map(|line| line[..line.len() - 1].to_vec()).collect();
            let text = fs::read_to_string(path.with_extension("txt")).unwrap();
            assert_eq!(why(&arguments, &fs::read(&path).unwrap()), text, "{path:?}");
            stored += 1;
        }
    }
    assert!(stored > 100);
}

/// The first words of each text that the comparison's questions must meet.
const WANTED: [&str; 17] = [
    "held by argument",
    "held by cell",
    "held by saved argument",
    "dead",
    "refused 3",
    "refused 4",
    "refused 5 ",
    "refused 6 ",
    "refused 7 trail",
    "refused 17 ",
    "refused 18",
    "file 10 ",
    "file 11 ",
    "file 12 0",
    "file 13 ",
    "file 14 0",
    "give one heap index",
];

#[test]
fn the_comparison_s_questions_meet_every_answer() {
    let mut met: BTreeMap<&str, u64> = BTreeMap::new();
    let mut longest = 0;
    for item in 0..2_000 {
        let input = why_input(1, item);
        let text = why(&input.arguments, &input.file);
        longest = longest.max(text.lines().count());
        let kind = WANTED.iter().find(|words| text.starts_with(**words));
        *met.entry(kind.expect("a text that is known")).or_default() += 1;
    }
    assert_eq!(met.len(), WANTED.len(), "{met:?}");
    assert!(met.values().all(|count| *count >= 5), "{met:?}");
    assert!(longest > 1_000, "{longest}");
}
