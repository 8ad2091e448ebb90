//! Document 02, order 1: the report over freeze files laid end to end.

use std::collections::BTreeMap;

use crate::figures::{figures, Figures};
use crate::listing::{bad_file_line, read_image, refused_line};
use crate::record::{expected_record, KIND_COUNTS};
use crate::refusal::{BadFile, Refusal, BYTES_AFTER_END};
use crate::thaw::counts_at;

/// "up to 65,535 of them"
pub const MOST_FILES: usize = 65_535;

/// All that is known of a month.
#[derive(Clone, Debug, Default, PartialEq, Eq)]
pub struct Month {
    /// One for each file before a bad one.
    pub files: Vec<Result<Figures, Refusal>>,
    /// "a bad file ends the report with its usual number and its offset in the whole input"
    pub bad: Option<BadFile>,
}

/// The whole report on the bytes of standard input.
pub fn month(input: &[u8]) -> String {
    read_month(input).text()
}

/// Reads file after file. "input that stops between files, or is empty, is no fault"
pub fn read_month(input: &[u8]) -> Month {
    let mut month = Month::default();
    let mut offset = 0;
    while offset < input.len() {
        if month.files.len() == MOST_FILES {
            month.bad = Some(bad(BYTES_AFTER_END, offset));
            break;
        }
        let file = front_file(&input[offset..]);
        match read_image(file) {
            Ok(image) => month.files.push(figures(&image)),
            Err(found) => {
                month.bad = Some(bad(found.number, offset + found.offset));
                break;
            }
        }
        offset += file.len();
    }
    month
}

fn bad(number: u32, offset: usize) -> BadFile {
    BadFile { number, offset }
}

/// The file at the front: as long as its counts say, or all that is left. Without a whole counts
/// record the reader refuses it, and its length is of no account.
fn front_file(rest: &[u8]) -> &[u8] {
    let length = match expected_record(rest, 0, KIND_COUNTS) {
        Ok(record) => counts_at(rest, record.body).file_length(),
        Err(_) => rest.len(),
    };
    &rest[..length.min(rest.len())]
}

impl Month {
    pub fn accepted(&self) -> impl Iterator<Item = &Figures> {
        self.files.iter().flatten()
    }

    /// "A refused image counts under its number": how many, by number.
    pub fn refused(&self) -> BTreeMap<u32, u64> {
        let mut refused = BTreeMap::new();
        for refusal in self.files.iter().filter_map(|file| file.err()) {
            *refused.entry(refusal.number).or_default() += 1;
        }
        refused
    }

    /// The figures "for all together".
    pub fn totals(&self) -> Figures {
        let mut totals = Figures::default();
        for figures in self.accepted() {
            totals.add(figures);
        }
        totals
    }

    /// A line for each file, one for all, one for each refusal number that occurred, and the end
    /// or the bad file.
    pub fn text(&self) -> String {
        let mut text = String::new();
        for (index, file) in self.files.iter().enumerate() {
            let line = match file {
                Ok(figures) => figures.line(),
                Err(refusal) => refused_line(refusal),
            };
            text += &format!("freeze {} {line}", index + 1);
        }
        text += &format!("all {} {}", self.accepted().count(), self.totals().line());
        for (number, count) in self.refused() {
            text += &format!("refused {number} {count}\n");
        }
        text + &match &self.bad {
            None => "end\n".to_string(),
            Some(bad) => bad_file_line(bad),
        }
    }
}
