//! A program under test on one input: one thread feeds it, another takes what it prints.

pub mod arguments;

use std::ffi::OsString;
use std::io::{self, Read, Write};
use std::os::unix::ffi::OsStringExt;
use std::process::{Child, ChildStdin, ChildStdout, Command, Stdio};
use std::thread::{sleep, spawn, JoinHandle};
use std::time::Duration;

use crate::random::Random;

/// How the input reaches the program.
#[derive(Clone, Copy)]
pub enum Feed {
    Whole,
    /// In pieces of at most so many bytes.
    Pieces(usize),
    /// Likewise, with a pause after each of the first ones, so that reads end anywhere.
    Paused(usize),
}

const PAUSES: usize = 60;
const PAUSE: Duration = Duration::from_millis(2);

pub struct Running {
    child: Child,
    writer: JoinHandle<()>,
    reader: JoinHandle<io::Result<Vec<u8>>>,
}

impl Running {
    /// Starts the program, which is the first word of the command, with the other words and these
    /// arguments after them. `item` decides where the pieces of the input end.
    pub fn start(
        command: &[String],
        arguments: &[Vec<u8>],
        input: &[u8],
        feed: Feed,
        item: u64,
    ) -> Result<Running, String> {
        let (program, words) = command.split_first().ok_or("no program is named")?;
        let arguments = arguments.iter().cloned().map(OsString::from_vec);
        let mut child = Command::new(program)
            .args(words)
            .args(arguments)
            .stdin(Stdio::piped())
            .stdout(Stdio::piped())
            .spawn()
            .map_err(|error| format!("{program} cannot be started: {error}"))?;
        let to_child = child.stdin.take().ok_or("the program has no input")?;
        let output = child.stdout.take().ok_or("the program has no output")?;
        // No line of a text is five times as long as what it is about.
        let most = 5 * input.len() + 4096;
        let input = input.to_vec();
        let random = Random::new(item);
        Ok(Running {
            child,
            writer: spawn(move || write(to_child, &input, feed, random)),
            reader: spawn(move || take(output, most)),
        })
    }

    /// Waits for the end and gives all that was printed.
    pub fn output(mut self) -> Result<Vec<u8>, String> {
        let read = self.reader.join().map_err(|_| "the reader panicked")?;
        self.writer.join().map_err(|_| "the writer panicked")?;
        let status = self.child.wait().map_err(|error| error.to_string())?;
        if !status.success() {
            return Err(format!("the program ended with {status}"));
        }
        read.map_err(|error| error.to_string())
    }
}

/// Writes until there is nothing more, or the program takes no more: it may end at a bad file.
fn write(mut to: ChildStdin, input: &[u8], feed: Feed, mut random: Random) {
    let mut rest = input;
    let mut pieces = 0;
    while !rest.is_empty() {
        let length = match feed {
            Feed::Whole => rest.len(),
            Feed::Pieces(most) | Feed::Paused(most) => random.between(1, most).min(rest.len()),
        };
        if to.write_all(&rest[..length]).is_err() {
            return;
        }
        rest = &rest[length..];
        pieces += 1;
        if matches!(feed, Feed::Paused(_)) && pieces < PAUSES {
            sleep(PAUSE);
        }
    }
}

fn take(output: ChildStdout, most: usize) -> io::Result<Vec<u8>> {
    let mut found = Vec::new();
    output.take(most as u64).read_to_end(&mut found)?;
    Ok(found)
}

/// The first line that differs, as the model has it and as it was found.
pub fn difference(expected: &str, found: &[u8]) -> String {
    let found = String::from_utf8_lossy(found);
    let mut lines = 1;
    let (mut ours, mut theirs) = (expected.split('\n'), found.split('\n'));
    loop {
        match (ours.next(), theirs.next()) {
            (Some(one), Some(other)) if one == other => lines += 1,
            (one, other) => {
                let (one, other) = (one.unwrap_or(""), other.unwrap_or(""));
                return format!("the texts differ in line {lines}\nmodel   {one}\nprogram {other}");
            }
        }
    }
}
