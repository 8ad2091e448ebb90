//! Compares the library under test with the model. The library is behind a driver, a program that
//! serves its calls over standard input and output.
//!
//! `compare` runs 200,000 images and as many files at a fixed seed;
//! `compare SEED COUNT` runs a longer or another row and shows how far it is;
//! `compare SEED COUNT FIRST` begins with that item, to come near one that ends the driver.
//! After `--` comes the driver's command; without it the variable BIK_DRIVER names it, in words
//! parted by blanks.

mod batch;
mod pipe;
mod process;

use std::env;
use std::ops::Range;
use std::process::ExitCode;

use model::compare::call::Call;
use model::compare::run;
use pipe::Pipe;

const FIXED_SEED: u64 = 1;
const FIXED_COUNT: u64 = 200_000;
const PROGRESS_EVERY: u64 = 10_000;
const USAGE: &str = "usage: compare [SEED COUNT [FIRST]] [-- DRIVER...]   (or BIK_DRIVER=DRIVER)";

struct Arguments {
    seed: u64,
    items: Range<u64>,
    shows_progress: bool,
    driver: Vec<String>,
}

fn arguments() -> Option<Arguments> {
    let mut given = env::args().skip(1);
    let numbers = given.by_ref().take_while(|word| word != "--");
    let numbers: Result<Vec<u64>, _> = numbers.map(|number| number.parse()).collect();
    let (seed, items, shows_progress) = match numbers.ok()?[..] {
        [] => (FIXED_SEED, 0..FIXED_COUNT, false),
        [seed, count] => (seed, 0..count, true),
        [seed, count, first] => (seed, first..first.checked_add(count)?, true),
        _ => return None,
    };
    let mut driver: Vec<String> = given.collect();
    if driver.is_empty() {
        let named = env::var("BIK_DRIVER").ok()?;
        driver = named.split_whitespace().map(String::from).collect();
    }
    Some(Arguments {
        seed,
        items,
        shows_progress,
        driver,
    })
}

/// Runs all items and gives the text of what was met.
fn compare(arguments: Arguments) -> Result<String, String> {
    let seed = arguments.seed;
    let pipe = Pipe::start(arguments.driver)?;
    let there = pipe.there.clone();
    let begin = |item: u64| {
        pipe.at(item);
        if arguments.shows_progress && item.is_multiple_of(PROGRESS_EVERY) {
            eprintln!("at item {item}");
        }
    };
    let met = run(&pipe, seed, arguments.items, begin);
    // What the driver's answers say comes first: it is why the run may have stopped.
    let calls = pipe.finish();
    let calls = calls.map_err(|text| format!("seed {seed}, {text}"))?;
    let mut text = met?.text(&there);
    for call in Call::ALL.iter().filter(|call| !there.contains(call)) {
        text += &format!("not there and not compared: {}\n", call.name());
    }
    Ok(text + &format!("{calls} calls compared, no difference\n"))
}

fn main() -> ExitCode {
    let Some(arguments) = arguments() else {
        eprintln!("{USAGE}");
        return ExitCode::from(2);
    };
    match compare(arguments) {
        Ok(text) => {
            print!("{text}");
            ExitCode::SUCCESS
        }
        Err(text) => {
            println!("{}", text.trim_end());
            ExitCode::from(1)
        }
    }
}
