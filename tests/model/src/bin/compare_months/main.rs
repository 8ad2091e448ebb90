//! Compares the program `month` with the model: each month goes to the program's standard input,
//! and what it prints must be the model's report byte for byte.
//!
//! `compare_months` takes 200 months at a fixed seed;
//! `compare_months SEED COUNT` takes more or others;
//! `compare_months SEED COUNT FIRST` begins with that item.
//! After `--` comes the program's command.

mod met;

use std::process::ExitCode;

use met::Met;
use model::generate::month::{month_input, FULL_MONTHS};
use model::month::read_month;
use model::program::arguments::{arguments, Arguments};
use model::program::{difference, Feed, Running};
use model::random::Random;

const FIXED_COUNT: u64 = 200;
const USAGE: &str = "usage: compare_months [SEED COUNT [FIRST]] -- PROGRAM...";

/// Compares all months and gives the text of what was met.
fn compare(arguments: &Arguments) -> Result<String, String> {
    let mut met = Met::default();
    for item in arguments.items.clone() {
        let seed = arguments.seed;
        compare_item(&arguments.program, seed, item, &mut met).map_err(|text| {
            format!(
                "seed {seed}, item {item}: {text}\n\
                 the input is made again by: expected month-input {seed} {item}\n"
            )
        })?;
    }
    Ok(met.text())
}

fn compare_item(program: &[String], seed: u64, item: u64, met: &mut Met) -> Result<(), String> {
    let input = month_input(seed, item);
    let running = Running::start(program, &[], &input, some_feed(item), item)?;
    // The program runs while the model counts.
    let month = read_month(&input);
    let expected = month.text();
    let found = running.output()?;
    if found != expected.as_bytes() {
        return Err(difference(&expected, &found));
    }
    met.add(&input, &month);
    Ok(())
}

fn some_feed(item: u64) -> Feed {
    let random = &mut Random::new(item);
    let most = random.one_of(&[3, 20, 300, 5000, 70_000]);
    match random.below(3) {
        _ if item < FULL_MONTHS => Feed::Whole,
        0 => Feed::Whole,
        1 => Feed::Pieces(most.max(300)),
        _ => Feed::Paused(most),
    }
}

fn main() -> ExitCode {
    let Some(arguments) = arguments(FIXED_COUNT) else {
        eprintln!("{USAGE}");
        return ExitCode::from(2);
    };
    match compare(&arguments) {
        Ok(text) => {
            print!("{text}");
            ExitCode::SUCCESS
        }
        Err(text) => {
            println!("{}", text.trim_end());
            ExitCode::from(1)
        }
    }
}
