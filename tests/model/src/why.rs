//! Document 02, order 4: the program `why`, its whole output for its arguments and the bytes of its
//! standard input.

use crate::chain::walk;
use crate::held::{root_kind, why_held, Chain, RootKind};
use crate::image::Image;
use crate::listing::{bad_file_line, read_image, refused_line, LISTING_HEAP};
use crate::refusal::Place;
use crate::word::{tag, value, Tag};

pub const BAD_ARGUMENT: &str = "give one heap index, in decimal, below 4294967296\n";
pub const DEAD: &str = "dead\n";

/// Reads, asks and prints. The argument is looked at before the file.
pub fn why(arguments: &[Vec<u8>], input: &[u8]) -> String {
    let Some(asked) = heap_index(arguments) else {
        return BAD_ARGUMENT.to_string();
    };
    let image = match read_image(input) {
        Ok(image) => image,
        Err(bad) => return bad_file_line(&bad),
    };
    let mut work = vec![0; image.work_needed()];
    // No chain has a cell twice, so each fits.
    let mut room = vec![0; LISTING_HEAP];
    match why_held(&image, &mut work, asked, &mut room) {
        Ok(Some(chain)) => chain_text(&image, &chain),
        Ok(None) => DEAD.to_string(),
        Err(refusal) => refused_line(&refusal),
    }
}

/// One argument, one or more digits and nothing else, below 4294967296; zeros may lead.
pub fn heap_index(arguments: &[Vec<u8>]) -> Option<u32> {
    let [digits] = arguments else {
        return None;
    };
    if digits.is_empty() {
        return None;
    }
    let mut number: u64 = 0;
    for digit in digits {
        if !digit.is_ascii_digit() {
            return None;
        }
        number = number * 10 + u64::from(digit - b'0');
        // More digits would not make it less.
        number = number.min(u64::from(u32::MAX) + 1);
    }
    u32::try_from(number).ok()
}

/// A line for the root, then a line for each heap cell from the root down to the asked one.
pub fn chain_text(image: &Image, chain: &Chain) -> String {
    let mut text = format!(
        "held by {}: {} {}\n",
        root_name(image, chain.root),
        chain.root.area.name(),
        chain.root.index
    );
    for x in &chain.cells {
        let word = image.heap[*x];
        text += &format!("{x} {} {}\n", tag_name(word), value(word));
    }
    text
}

fn root_name(image: &Image, root: Place) -> String {
    let chains = walk(image).expect("an accepted image has sound chains");
    match root_kind(&chains, root) {
        RootKind::Argument { number } => format!("argument {number} of the control area"),
        RootKind::FrameCell { number, frame } => format!("cell {number} of the frame at {frame}"),
        RootKind::SavedArgument {
            number,
            choice_point,
        } => format!("saved argument {number} of the choice point at {choice_point}"),
    }
}

fn tag_name(word: u32) -> &'static str {
    match tag(word) {
        Tag::Var => "VAR",
        Tag::Struct => "STRUCT",
        Tag::List => "LIST",
        Tag::Const => "CONST",
    }
}
