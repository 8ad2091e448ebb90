//! The library behind the driver: one thread sends batches, another compares the answers.

use std::cell::{Cell, RefCell};
use std::io::{Read, Write};
use std::process::{Child, ChildStdin, ChildStdout};
use std::sync::mpsc::{sync_channel, Receiver, SyncSender};
use std::sync::Arc;
use std::thread::{spawn, JoinHandle};

use model::compare::asked::{Asked, Compared, Library};
use model::compare::call::Call;

use crate::batch::Batch;
use crate::process::Process;

/// So many batches may wait, so that no thread runs far ahead of the others.
const WAITING: usize = 4;

/// Why the comparison stopped.
enum Stop {
    Difference(String),
    /// The driver ended before it had answered this case of this batch.
    Ended(Arc<Batch>, usize),
}

pub struct Pipe {
    command: Vec<String>,
    pub there: Vec<Call>,
    item: Cell<u64>,
    batch: RefCell<Batch>,
    child: Child,
    to_writer: SyncSender<Arc<Batch>>,
    to_reader: SyncSender<Arc<Batch>>,
    writer: JoinHandle<()>,
    reader: JoinHandle<Result<u64, Stop>>,
}

impl Pipe {
    pub fn start(command: Vec<String>) -> Result<Pipe, String> {
        let mut process = Process::start(&command)?;
        let there = process.calls_there()?;
        let (to_writer, for_writer) = sync_channel(WAITING);
        let (to_reader, for_reader) = sync_channel(WAITING);
        let (input, output) = (process.input, process.output);
        Ok(Pipe {
            command,
            there,
            item: Cell::new(0),
            batch: RefCell::default(),
            child: process.child,
            to_writer,
            to_reader,
            writer: spawn(|| write(input, for_writer)),
            reader: spawn(|| read(output, for_reader)),
        })
    }

    /// The calls from here on belong to this item.
    pub fn at(&self, item: u64) {
        self.item.set(item);
    }

    /// Hands the batch on; false if the comparison has stopped. The reader gets it first, so that
    /// it is always ready for what the driver answers.
    fn send(&self) -> bool {
        let batch = Arc::new(self.batch.take());
        self.to_reader.send(batch.clone()).is_ok() && self.to_writer.send(batch).is_ok()
    }

    /// Waits for all answers and gives the number of calls compared, or the first difference.
    pub fn finish(mut self) -> Result<u64, String> {
        self.send();
        drop((self.to_writer, self.to_reader));
        self.writer.join().map_err(|_| "the writer panicked")?;
        let read = self.reader.join().map_err(|_| "the reader panicked")?;
        let status = self.child.wait().map_err(|error| error.to_string())?;
        match read {
            Ok(calls) if status.success() => Ok(calls),
            Ok(_) => Err(format!("the driver ended with {status}\n")),
            Err(Stop::Difference(text)) => Err(text),
            Err(Stop::Ended(batch, from)) => Err(find_end(&self.command, &batch, from)),
        }
    }
}

impl Library for Pipe {
    fn ask(&self, asked: &Asked<'_>) -> Compared<()> {
        if !self.there.contains(&asked.call) {
            return Ok(());
        }
        self.batch.borrow_mut().add(self.item.get(), asked);
        let full = self.batch.borrow().is_full();
        if full && !self.send() {
            return Err("the comparison has stopped".to_string());
        }
        Ok(())
    }
}

/// Writes until there is nothing more, or the driver takes no more.
fn write(mut input: ChildStdin, batches: Receiver<Arc<Batch>>) {
    for batch in batches {
        if input.write_all(&batch.requests).is_err() {
            return;
        }
    }
}

fn read(mut output: ChildStdout, batches: Receiver<Arc<Batch>>) -> Result<u64, Stop> {
    let mut calls = 0;
    let mut found = Vec::new();
    for batch in batches {
        found.clear();
        let mut limited = output.by_ref().take(batch.answers.len() as u64);
        // What a failed read did not bring is missing, and that is seen below.
        let _ = limited.read_to_end(&mut found);
        if found != batch.answers {
            return Err(stop(batch, &found));
        }
        calls += batch.len() as u64;
    }
    match output.read(&mut [0]) {
        Ok(0) => Ok(calls),
        _ => Err(Stop::Difference("the driver answers too much\n".into())),
    }
}

fn stop(batch: Arc<Batch>, found: &[u8]) -> Stop {
    match batch.first_difference(found) {
        Some((case, part)) if part.len() == batch.answer(case).len() => {
            Stop::Difference(batch.difference(case, part))
        }
        Some((case, _)) => Stop::Ended(batch, case),
        None => unreachable!("answers that differ have a first difference"),
    }
}

/// A driver that ends takes answers with it that it had not yet sent. So a new one is asked call
/// by call, to see in which it ends.
fn find_end(command: &[String], batch: &Batch, from: usize) -> String {
    let mut process = match Process::start(command) {
        Ok(process) => process,
        Err(text) => return text,
    };
    for case in from..batch.len() {
        let expected = batch.answer(case);
        let found = process.ask(batch.request(case), expected.len());
        if found.len() < expected.len() {
            let why = format!("the driver ends ({}) in", process.end());
            return batch.no_answer(case, &why);
        }
        if found != expected {
            return batch.difference(case, &found);
        }
    }
    batch.no_answer(
        from,
        "the driver ended, but not when asked call by call, after",
    )
}
