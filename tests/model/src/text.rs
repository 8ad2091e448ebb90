//! Four lists as text: how images are printed, and how a file's words are given to the tool.

use crate::image::Image;
use crate::listing::line;

/// The image as four lines, in the order control, stack, heap, trail, each led by `before`.
pub fn four_lists(before: &str, image: &Image) -> String {
    let areas = [
        ("control", &image.control),
        ("stack", &image.stack),
        ("heap", &image.heap),
        ("trail", &image.trail),
    ];
    areas
        .map(|(name, words)| line(&format!("{before}{name}"), words))
        .concat()
}

/// Reads four lines in that order. A line may begin with its area's name; missing lines are empty.
pub fn read_four_lists(text: &str) -> Result<Image, String> {
    let mut lines = text.lines();
    let image = Image {
        control: read_list("control", lines.next())?,
        stack: read_list("stack", lines.next())?,
        heap: read_list("heap", lines.next())?,
        trail: read_list("trail", lines.next())?,
    };
    if lines.any(|rest| !rest.trim().is_empty()) {
        return Err("more than four lines".to_string());
    }
    Ok(image)
}

fn read_list(name: &str, line: Option<&str>) -> Result<Vec<u32>, String> {
    let line = line.unwrap_or("").trim();
    let numbers = line.strip_prefix(name).unwrap_or(line);
    let read = |number: &str| {
        let word = number.parse::<u32>();
        word.map_err(|error| format!("{name}: {number}: {error}"))
    };
    numbers.split_whitespace().map(read).collect()
}
