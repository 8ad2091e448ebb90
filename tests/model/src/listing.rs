//! "Listing program": its whole output for the bytes of its standard input.

use crate::check::MOST_CONTROL;
use crate::collect::{collect, Counts};
use crate::image::{Image, FIXED_WORDS};
use crate::refusal::{BadFile, Refusal};
use crate::thaw::thaw;

pub const LISTING_HEAP: usize = 2048;
pub const LISTING_STACK: usize = 1024;
pub const LISTING_TRAIL: usize = 512;

/// Reads, collects and prints.
pub fn listing(input: &[u8]) -> String {
    let mut image = match read_image(input) {
        Ok(image) => image,
        Err(bad) => return bad_file_line(&bad),
    };
    let mut work = vec![0; image.work_needed()];
    match collect(&mut image, &mut work) {
        Ok(counts) => collected_text(&image, &counts),
        Err(refusal) => refused_line(&refusal),
    }
}

/// Reads one file into areas of the program's sizes, "buffers starting as zeros".
pub fn read_image(file: &[u8]) -> Result<Image, BadFile> {
    let mut image = Image {
        control: vec![0; MOST_CONTROL],
        stack: vec![0; LISTING_STACK],
        heap: vec![0; LISTING_HEAP],
        trail: vec![0; LISTING_TRAIL],
    };
    let counts = thaw(file, &mut image)?;
    // "taking as the stack the counted front"; the other buffers are lent whole.
    image.stack.truncate(counts.stack);
    Ok(image)
}

pub fn bad_file_line(bad: &BadFile) -> String {
    format!("file {} {}\n", bad.number, bad.offset)
}

pub fn refused_line(refusal: &Refusal) -> String {
    match refusal.place {
        None => format!("refused {}\n", refusal.number),
        Some(place) => format!(
            "refused {} {} {}\n",
            refusal.number,
            place.area.name(),
            place.index
        ),
    }
}

fn collected_text(image: &Image, counts: &Counts) -> String {
    let control = image.control_header();
    let first = format!(
        "kept {} {} trail {} {}\n",
        counts.cells_kept, counts.cells_dropped, counts.entries_kept, counts.entries_dropped
    );
    let areas = [
        line("control", &image.control[..FIXED_WORDS + control.n]),
        line("stack", &image.stack),
        line("heap", &image.heap[..control.h]),
        line("trail", &image.trail[..control.t]),
    ];
    first + &areas.concat() + "end\n"
}

/// A word and the numbers after it. "An empty area is its word alone."
pub fn line(word: &str, numbers: &[u32]) -> String {
    let mut text = word.to_string();
    for number in numbers {
        text.push_str(&format!(" {number}"));
    }
    text.push('\n');
    text
}
