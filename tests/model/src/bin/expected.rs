//! What the model expects.
//!
//! `expected FILE...` prints the listing of each freeze file, one after the other.
//! `expected freeze` reads four lists from standard input and writes their file to standard output.
//! `expected antt COUNT SEED` prints small images with all that the model says of them.
//! `expected month` prints the report on the freeze files laid end to end on standard input.
//! `expected month-input SEED ITEM` writes a month of the comparison, and
//! `expected month-files SEED COUNT` one to measure, to standard output.
//! `expected why ARGUMENT...` prints why a heap cell of the freeze file on standard input is held,
//! and `expected why-input SEED ITEM` writes a file of the comparison to standard output, its
//! arguments to standard error.

use std::env;
use std::ffi::OsString;
use std::fs;
use std::io::{self, Read, Write};
use std::os::unix::ffi::OsStringExt;
use std::process::ExitCode;

use model::antt::antt;
use model::freeze::file_of;
use model::generate::month::{measured_file, month_input};
use model::generate::why::why_input;
use model::listing::{listing, read_image};
use model::month::month;
use model::text::read_four_lists;
use model::why::why;

const USAGE: &str = "usage: expected FILE... | expected freeze | expected antt COUNT SEED
       expected month | expected month-input SEED ITEM | expected month-files SEED COUNT
       expected why ARGUMENT... | expected why-input SEED ITEM";

fn main() -> ExitCode {
    let mut given = env::args_os().skip(1);
    let done = match given.next() {
        // Its arguments need not be text.
        Some(word) if word == "why" => print_why(given.map(OsString::into_vec).collect()),
        word => run(word.into_iter().chain(given).collect()),
    };
    match done {
        Ok(()) => ExitCode::SUCCESS,
        Err(text) => {
            eprintln!("{text}");
            ExitCode::from(2)
        }
    }
}

fn run(given: Vec<OsString>) -> Result<(), String> {
    let given = given.iter().map(|word| word.to_str().ok_or(USAGE));
    let given: Vec<&str> = given.collect::<Result<_, _>>()?;
    match given.as_slice() {
        [] => Err(USAGE.to_string()),
        ["freeze"] => write_file(),
        ["antt", count, seed] => print_antt(count, seed),
        ["month"] => print_month(),
        ["month-input", seed, item] => write_month(seed, item),
        ["month-files", seed, count] => write_files(seed, count),
        ["why-input", seed, item] => write_why(seed, item),
        paths => print_listings(paths),
    }
}

fn print_listings(paths: &[&str]) -> Result<(), String> {
    for path in paths {
        let file = fs::read(path).map_err(|error| format!("{path}: {error}"))?;
        put(listing(&file).as_bytes())?;
    }
    Ok(())
}

/// Writes any four lists as they are; lists that the reader refuses are named on standard error,
/// since bad files are wanted as examples too.
fn write_file() -> Result<(), String> {
    let text = String::from_utf8(input()?).map_err(|error| error.to_string())?;
    let file = file_of(&read_four_lists(&text)?);
    if let Err(bad) = read_image(&file) {
        eprintln!("note: a file refused {} at {}", bad.number, bad.offset);
    }
    put(&file)
}

fn print_antt(count: &str, seed: &str) -> Result<(), String> {
    put(antt(number(count)?, number(seed)?).as_bytes())
}

fn print_month() -> Result<(), String> {
    put(month(&input()?).as_bytes())
}

fn write_month(seed: &str, item: &str) -> Result<(), String> {
    put(&month_input(number(seed)?, number(item)?))
}

/// File by file, so that a month of any length can be made.
fn write_files(seed: &str, count: &str) -> Result<(), String> {
    let seed = number(seed)?;
    for item in 0..number(count)? {
        put(&measured_file(seed, item))?;
    }
    Ok(())
}

fn print_why(arguments: Vec<Vec<u8>>) -> Result<(), String> {
    put(why(&arguments, &input()?).as_bytes())
}

fn write_why(seed: &str, item: &str) -> Result<(), String> {
    let input = why_input(number(seed)?, number(item)?);
    eprintln!("{}", input.arguments_text());
    put(&input.file)
}

fn number(word: &str) -> Result<u64, String> {
    word.parse().map_err(|_| USAGE.to_string())
}

fn input() -> Result<Vec<u8>, String> {
    let mut bytes = Vec::new();
    let read = io::stdin().read_to_end(&mut bytes);
    read.map_err(|error| format!("standard input: {error}"))?;
    Ok(bytes)
}

fn put(bytes: &[u8]) -> Result<(), String> {
    let written = io::stdout().write_all(bytes);
    written.map_err(|error| format!("standard output: {error}"))
}
