//! Compares the program `why` with the model: each freeze file goes to the program's standard
//! input with the arguments that belong to it, and what it prints must be the model's text byte
//! for byte.
//!
//! `compare_why` takes 500 files at a fixed seed;
//! `compare_why SEED COUNT` takes more or others;
//! `compare_why SEED COUNT FIRST` begins with that item.
//! After `--` comes the program's command.

use std::collections::BTreeMap;
use std::process::ExitCode;

use model::generate::why::{why_input, WhyInput};
use model::program::arguments::{arguments, Arguments};
use model::program::{difference, Feed, Running};
use model::random::Random;
use model::why::why;

const FIXED_COUNT: u64 = 500;
const USAGE: &str = "usage: compare_why [SEED COUNT [FIRST]] -- PROGRAM...";

/// How often each kind of text was met, by its first two words.
type Met = BTreeMap<String, u64>;

/// Compares all files and gives the text of what was met.
fn compare(arguments: &Arguments) -> Result<String, String> {
    let mut met = Met::new();
    for item in arguments.items.clone() {
        let seed = arguments.seed;
        let input = why_input(seed, item);
        let expected = compare_item(&arguments.program, item, &input).map_err(|text| {
            format!(
                "seed {seed}, item {item}: {text}\narguments {}\n\
                 the file is made again by: expected why-input {seed} {item}\n",
                input.arguments_text()
            )
        })?;
        let words: Vec<&str> = expected.split_whitespace().take(3).collect();
        let kind = match words[..] {
            ["held", "by", kind] => format!("held by {kind}"),
            ["refused" | "file", number, ..] => format!("{} {number}", words[0]),
            _ => words[0].to_string(),
        };
        *met.entry(kind).or_default() += 1;
    }
    let kinds = met.iter().map(|(kind, count)| format!("{kind}: {count}"));
    let kinds: Vec<String> = kinds.collect();
    let files: u64 = met.values().sum();
    let kinds = kinds.join(", ");
    Ok(format!("files {files}; {kinds}\nno difference\n"))
}

/// Gives the text that both have.
fn compare_item(program: &[String], item: u64, input: &WhyInput) -> Result<String, String> {
    let feed = some_feed(item);
    let running = Running::start(program, &input.arguments, &input.file, feed, item)?;
    let expected = why(&input.arguments, &input.file);
    let found = running.output()?;
    if found != expected.as_bytes() {
        return Err(difference(&expected, &found));
    }
    Ok(expected)
}

fn some_feed(item: u64) -> Feed {
    let random = &mut Random::new(item);
    let most = random.one_of(&[3, 20, 300, 5000]);
    match random.below(4) {
        0 | 1 => Feed::Whole,
        2 => Feed::Pieces(most.max(300)),
        _ => Feed::Paused(most),
    }
}

fn main() -> ExitCode {
    let Some(arguments) = arguments(FIXED_COUNT) else {
        eprintln!("{USAGE}");
        return ExitCode::from(2);
    };
    match compare(&arguments) {
        Ok(text) => {
            print!("{text}");
            ExitCode::SUCCESS
        }
        Err(text) => {
            println!("{}", text.trim_end());
            ExitCode::from(1)
        }
    }
}
