//! Freeze files: each reason to refuse one, and the order of the reasons.

mod common;

use common::*;
use model::freeze::{file_of, freeze};
use model::image::Image;
use model::record::{record_at, Record};
use model::refusal::BadFile;
use model::text::{four_lists, read_four_lists};
use model::thaw::{thaw, FileCounts};

fn room(control: usize, stack: usize, heap: usize, trail: usize) -> Image {
    Image {
        control: vec![7; control],
        stack: vec![7; stack],
        heap: vec![7; heap],
        trail: vec![7; trail],
    }
}

/// Reads into areas with some room to spare, which must stay as they are if it is refused.
fn refusal_of(file: &[u8]) -> Option<(u32, usize)> {
    let mut lent = room(9, 13, 10, 4);
    let before = lent.clone();
    let answer = thaw(file, &mut lent);
    if answer.is_err() {
        assert_eq!(lent, before);
    }
    answer.err().map(|bad| (bad.number, bad.offset))
}

#[test]
fn an_accepted_file_fills_the_fronts() {
    let mut lent = room(9, 13, 10, 4);
    let counts = FileCounts {
        control: 8,
        stack: 12,
        heap: 9,
        trail: 3,
    };
    assert_eq!(thaw(&file_of(&night_a()), &mut lent), Ok(counts));
    let mut expected = night_a();
    expected.control.push(7);
    expected.stack.push(7);
    expected.heap.push(7);
    expected.trail.push(7);
    assert_eq!(lent, expected);
}

#[test]
fn a_file_cut_anywhere_ends_early() {
    let file = file_of(&night_a());
    for length in 0..file.len() {
        // The counts record has 17 bytes, every other one 5, up to the end's single byte.
        let cut = if length < 17 {
            0
        } else {
            length - (length - 17) % 5
        };
        assert_eq!(refusal_of(&file[..length]), Some((10, cut)), "{length}");
    }
}

#[test]
fn another_kind_is_told_from_a_cut_one() {
    let file = file_of(&night_a());
    for at in [0, 17, 17 + 5 * 8, 17 + 5 * 20, 17 + 5 * 29, 177] {
        for kind in [0, 1, 2, 3, 4, 5, 6, 7, 31, 32, 255] {
            if kind == file[at] {
                continue;
            }
            let mut wrong = file.clone();
            wrong[at] = kind;
            assert_eq!(refusal_of(&wrong), Some((11, at)));
            // The wrong kind beats a cut body.
            assert_eq!(refusal_of(&wrong[..at + 1]), Some((11, at)));
        }
    }
}

#[test]
fn a_count_above_the_room_is_found_with_the_counts_record() {
    let file = file_of(&night_a());
    for (place, count) in [(0, 10), (1, 14), (2, 11), (3, 5), (3, 255)] {
        let mut wrong = file.clone();
        wrong[1 + 4 * place] = count;
        assert_eq!(refusal_of(&wrong), Some((12, 0)));
        assert_eq!(refusal_of(&wrong[..17]), Some((12, 0)));
        assert_eq!(refusal_of(&wrong[..16]), Some((10, 0)));
    }
}

#[test]
fn bytes_after_the_end_come_before_differing_counts() {
    let mut lists = night_a();
    lists.control[4] = 2;
    let mut file = file_of(&lists);
    assert_eq!(refusal_of(&file), Some((14, 0)));
    file.push(0);
    assert_eq!(refusal_of(&file), Some((13, 178)));
    file.push(6);
    assert_eq!(refusal_of(&file), Some((13, 178)));
}

#[test]
fn counts_that_differ() {
    for (field, word) in [(4, 4), (5, 8), (5, 10), (6, 0), (6, 2), (6, u32::MAX)] {
        let mut lists = night_a();
        lists.control[field] = word;
        assert_eq!(refusal_of(&file_of(&lists)), Some((14, 0)));
    }
}

#[test]
fn a_short_control_area_is_read_on_and_refused_last() {
    for length in 0..7 {
        let mut lists = night_a();
        lists.control.truncate(length);
        let file = file_of(&lists);
        assert_eq!(refusal_of(&file), Some((14, 0)));
        let cut = file.len() - 1;
        assert_eq!(refusal_of(&file[..cut]), Some((10, cut)));
    }
}

#[test]
fn lent_sizes_come_first() {
    let sizes = BadFile {
        number: 1,
        offset: 0,
    };
    for (control, trail) in [(6, 3), (263, 3), (8, 262_145)] {
        let mut lent = room(control, 12, 9, trail);
        assert_eq!(thaw(&[], &mut lent), Err(sizes));
    }
}

#[test]
fn the_writer_refuses_sizes_counts_and_room() {
    let mut image = night_a();
    image.control.truncate(6);
    assert_eq!(freeze(&image, &mut []), Err(1));
    let mut image = night_a();
    image.control[5] = 10;
    let mut output = vec![7; 500];
    assert_eq!(freeze(&image, &mut output), Err(2));
    assert_eq!(freeze(&night_a(), &mut output[..177]), Err(15));
    assert!(output.iter().all(|byte| *byte == 7));
}

#[test]
fn one_record() {
    let file = [6, 2, 1, 0, 0, 0, 7, 1, 0];
    let record = |kind, body, next| Ok(Record { kind, body, next });
    let bad = |number, offset| Err(BadFile { number, offset });
    assert_eq!(record_at(&file, 0), record(6, 1, 1));
    assert_eq!(record_at(&file, 1), record(2, 2, 6));
    assert_eq!(record_at(&file, 6), bad(11, 6));
    assert_eq!(record_at(&file, 7), bad(10, 7));
    assert_eq!(record_at(&file, 8), bad(11, 8));
    assert_eq!(record_at(&file, 9), bad(10, 9));
    assert_eq!(record_at(&file, u64::MAX), bad(10, 9));
    assert_eq!(record_at(&[], 0), bad(10, 0));
    for kind in 7..=255 {
        assert_eq!(record_at(&[kind], 0), bad(11, 0));
    }
}

#[test]
fn lists_as_text() {
    let image = night_a();
    let text = four_lists("", &image);
    assert_eq!(read_four_lists(&text).as_ref(), Ok(&image));
    let bare = "1 2\n\n3\n";
    let read = read_four_lists(bare).unwrap();
    assert_eq!((read.control, read.stack), (vec![1, 2], vec![]));
    assert_eq!((read.heap, read.trail), (vec![3], vec![]));
    assert!(read_four_lists("1\n2\n3\n4\n5\n").is_err());
    assert!(read_four_lists("4294967296\n").is_err());
}
