//! Months: the report's figures, its refused images, and each way to end it.

mod common;

use std::collections::BTreeMap;
use std::fs;
use std::path::Path;

use common::*;
use model::check::check_image;
use model::freeze::file_of;
use model::generate::file::file_case;
use model::generate::month::{month_input, FULL_MONTHS};
use model::image::Image;
use model::listing::read_image;
use model::month::{month, read_month, MOST_FILES};
use model::random::Random;
use model::word::NONE;

const NIGHT_A_FIGURES: &str = "kept 1 0 1 4 dropped 1 0 0 2 trail 2 1 points 1 deepest 1\n";
const NO_FIGURES: &str = "kept 0 0 0 0 dropped 0 0 0 0 trail 0 0 points 0 deepest 0\n";

/// The last line of a report.
fn ending(input: &[u8]) -> String {
    let text = month(input);
    let last = text.trim_end().lines().last();
    last.expect("a report has lines").to_string()
}

/// The smallest file there is: the fixed part of a control area and nothing else.
fn smallest() -> Vec<u8> {
    file_of(&tiny(&[], &[]))
}

#[test]
fn an_empty_month() {
    assert_eq!(month(&[]), format!("all 0 {NO_FIGURES}end\n"));
}

#[test]
fn a_month_of_night_a() {
    let text = format!("freeze 1 {NIGHT_A_FIGURES}all 1 {NIGHT_A_FIGURES}end\n");
    assert_eq!(month(&file_of(&night_a())), text);
}

#[test]
fn a_refused_image_counts_under_its_number_alone() {
    let mut entry = night_a();
    entry.trail[0] = 9;
    let night = file_of(&night_a());
    let dangling = file_of(&tiny(&[], &[v(1)]));
    let input = [&file_of(&entry), &night[..], &dangling, &dangling, &night].concat();
    let expected = format!(
        "freeze 1 refused 7 trail 0\n\
         freeze 2 {NIGHT_A_FIGURES}\
         freeze 3 refused 6 heap 0\n\
         freeze 4 refused 6 heap 0\n\
         freeze 5 {NIGHT_A_FIGURES}\
         all 2 kept 2 0 2 8 dropped 2 0 0 4 trail 4 2 points 2 deepest 1\n\
         refused 6 2\n\
         refused 7 1\n\
         end\n"
    );
    assert_eq!(month(&input), expected);
}

/// The control's frame alone at 11, and below it a choice point that sees frame 2 on frame 0.
fn deeper_below() -> Image {
    let choice_point = header(0, 2, NONE, 0, 0, &[]);
    Image {
        control: header(0, 11, 4, 0, 0, &[]),
        stack: [&[0, NONE, 0, 0], &choice_point[..], &[0, NONE]].concat(),
        ..Image::default()
    }
}

#[test]
fn the_deepest_chain_is_the_longest_of_all() {
    let figures = read_month(&file_of(&deeper_below())).files[0].unwrap();
    assert_eq!((figures.choice_points, figures.deepest), (1, 2));
    let both = [file_of(&deeper_below()), file_of(&night_a())].concat();
    let totals = read_month(&both).totals();
    assert_eq!((totals.choice_points, totals.deepest), (2, 2));
}

#[test]
fn a_cut_file_is_placed_in_the_whole_input() {
    let night = file_of(&night_a());
    for length in 1..night.len() {
        let input = [&night, &night[..length]].concat();
        let cut = if length < 17 {
            0
        } else {
            length - (length - 17) % 5
        };
        assert_eq!(ending(&input), format!("file 10 {}", 178 + cut), "{length}");
        assert_eq!(read_month(&input).files.len(), 1);
    }
}

#[test]
fn another_kind_is_placed_in_the_whole_input() {
    let night = file_of(&night_a());
    for at in [0, 17, 57, 117, 162, 177] {
        let mut wrong = night.clone();
        wrong[at] = 7;
        let input = [&night[..], &wrong, &night].concat();
        assert_eq!(ending(&input), format!("file 11 {}", 178 + at));
    }
    // The next file in the place of the end.
    let input = [&night[..177], &night].concat();
    assert_eq!(ending(&input), "file 11 177");
    assert_eq!(ending(&[&night[..], &[6], &night].concat()), "file 11 178");
}

#[test]
fn counts_of_a_later_file() {
    let night = file_of(&night_a());
    let mut room = night.clone();
    room[1 + 4 + 1] = 5;
    assert_eq!(ending(&[&night[..], &room].concat()), "file 12 178");
    assert_eq!(ending(&[&night[..], &room[..17]].concat()), "file 12 178");
    assert_eq!(ending(&[&night[..], &room[..16]].concat()), "file 10 178");
    let mut lists = night_a();
    lists.control[4] = 2;
    let differing = file_of(&lists);
    // What follows a file is the next one, not "bytes after the end".
    let input = [&night[..], &differing, &night].concat();
    assert_eq!(ending(&input), "file 14 178");
    let input = [&night[..], &differing[..177]].concat();
    assert_eq!(ending(&input), "file 10 355");
}

#[test]
fn bytes_after_the_last_file_there_may_be() {
    let most = smallest().repeat(MOST_FILES);
    let text = month(&most);
    assert!(text.ends_with(&format!(
        "freeze 65535 {NO_FIGURES}all 65535 {NO_FIGURES}end\n"
    )));
    let after = most.len();
    for more in [&[0][..], &[1], &[6], &smallest()] {
        let input = [&most[..], more].concat();
        assert_eq!(ending(&input), format!("file 13 {after}"));
    }
    assert_eq!(ending(&most[..after - 1]), format!("file 10 {}", after - 1));
}

/// The months of `tests/month`, which are made by `tests/make_month.py`.
#[test]
fn the_stored_reports_are_the_model_s() {
    let folder = Path::new(env!("CARGO_MANIFEST_DIR")).join("../month");
    let mut stored = 0;
    for entry in fs::read_dir(folder).expect("the stored months") {
        let path = entry.unwrap().path();
        if path.extension().is_some_and(|name| name == "freezes") {
            let report = fs::read_to_string(path.with_extension("txt")).unwrap();
            assert_eq!(month(&fs::read(&path).unwrap()), report, "{path:?}");
            stored += 1;
        }
    }
    assert!(stored > 30);
}

/// A file that is read states counts which agree with its control words and fit the buffers, so
/// its image is never refused 1 or 2.
#[test]
fn an_image_of_a_file_is_not_refused_1_or_2() {
    for item in 0..20_000 {
        let case = file_case(&mut Random::for_item(3, item));
        let verdict = read_image(&case.file).map(|image| check_image(&image));
        if let Ok(Err(refusal)) = verdict {
            assert!(refusal.number > 2, "item {item}");
        }
    }
}

#[test]
fn the_comparison_s_months_meet_every_answer() {
    let mut refused: BTreeMap<u32, u64> = BTreeMap::new();
    let mut endings: BTreeMap<u32, u64> = BTreeMap::new();
    for item in FULL_MONTHS..FULL_MONTHS + 200 {
        let met = read_month(&month_input(1, item));
        for (number, count) in met.refused() {
            *refused.entry(number).or_default() += count;
        }
        let ending = met.bad.map_or(0, |bad| bad.number);
        *endings.entry(ending).or_default() += 1;
    }
    let numbers: Vec<u32> = refused.keys().copied().collect();
    assert_eq!(numbers, [3, 4, 5, 6, 7, 17]);
    assert!(refused.values().all(|count| *count > 100), "{refused:?}");
    let endings_met: Vec<u32> = endings.keys().copied().collect();
    assert_eq!(endings_met, [0, 10, 11, 12, 14]);
    assert!(endings.values().all(|count| *count >= 5), "{endings:?}");
}
