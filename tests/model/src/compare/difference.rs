//! The text of a difference.

use super::asked::Asked;
use super::call::{Call, Row};
use super::guard::Guarded;
use super::lending::{Lending, AREA_NAMES, IMAGE_AREAS};
use crate::listing::line;

/// Longer lists are not printed: the image can be made again from its seed and item.
const MOST_PRINTED: usize = 10_000;

/// What was lent, both answers, the areas that were left different, and the first word of them.
pub fn difference(asked: &Asked<'_>, row: &Row, after: &Lending) -> String {
    let call = asked.call;
    let mut text = format!("difference in {}\n", call.name());
    text += &lent_text(call, asked.before);
    text += &answer_text("model", call, &asked.row);
    text += &answer_text("library", call, row);
    for (area, name) in AREA_NAMES.iter().enumerate() {
        text += &area_text(name, &asked.after.words[area], &after.words[area]);
    }
    let (model, library) = (widened(&asked.after.bytes), widened(&after.bytes));
    text + &bytes_text(&model, &library, after.bytes.intact())
}

/// The areas that a call uses, and its number. The four lists of an image are always whole.
pub fn lent_text(call: Call, lending: &Lending) -> String {
    let mut text = String::new();
    let has_image = !matches!(call, Call::LookUp | Call::Record);
    for (index, area) in lending.words.iter().enumerate() {
        if area.is_used() || (has_image && index < IMAGE_AREAS) {
            text += &list(AREA_NAMES[index], area.area());
        }
    }
    if lending.bytes.is_used() {
        text += &list("bytes", &widened(&lending.bytes));
    }
    match call {
        Call::LookUp => text + &format!("address {}\n", lending.number),
        Call::Record => text + &format!("offset {}\n", lending.number),
        Call::WhyHeld => text + &format!("cell {}\n", lending.number),
        _ => text,
    }
}

fn answer_text(who: &str, call: Call, row: &Row) -> String {
    let mut text = format!("{who} answers");
    for (name, field) in call.fields().iter().zip(row) {
        text += &format!(" {name} {field}");
    }
    text + "\n"
}

fn area_text(name: &str, model: &Guarded<u32>, library: &Guarded<u32>) -> String {
    both_lists(name, model.area(), library.area()) + &guard_text(name, library.intact())
}

fn bytes_text(model: &[u32], library: &[u32], intact: bool) -> String {
    both_lists("bytes", model, library) + &guard_text("bytes", intact)
}

/// What the two left in an area, if it differs.
fn both_lists(name: &str, model: &[u32], library: &[u32]) -> String {
    let Some(index) = (0..model.len()).find(|x| model[*x] != library[*x]) else {
        return String::new();
    };
    let mut text = list(&format!("model leaves {name}"), model);
    text += &list(&format!("library leaves {name}"), library);
    let (expected, found) = (model[index], library[index]);
    text + &format!("first different {name} {index}: model {expected} library {found}\n")
}

fn guard_text(name: &str, intact: bool) -> String {
    if intact {
        return String::new();
    }
    format!("the library wrote outside the lent {name}\n")
}

fn list(name: &str, words: &[u32]) -> String {
    if words.len() > MOST_PRINTED {
        return format!("{name} of {} words, not printed\n", words.len());
    }
    line(name, words)
}

fn widened(bytes: &Guarded<u8>) -> Vec<u32> {
    bytes.area().iter().map(|byte| u32::from(*byte)).collect()
}
