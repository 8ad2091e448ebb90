//! The driver as a child process.

use std::io::{Read, Write};
use std::process::{Child, ChildStdin, ChildStdout, Command, Stdio};

use model::compare::call::{Call, MOST_FIELDS};
use model::compare::lending::Lending;
use model::compare::wire;

pub struct Process {
    pub child: Child,
    pub input: ChildStdin,
    pub output: ChildStdout,
}

impl Process {
    /// Starts the program that is the first word of the command, with the others.
    pub fn start(command: &[String]) -> Result<Process, String> {
        let (program, arguments) = command.split_first().ok_or("no driver is named")?;
        let mut child = Command::new(program)
            .args(arguments)
            .stdin(Stdio::piped())
            .stdout(Stdio::piped())
            .spawn()
            .map_err(|error| format!("the driver {program} cannot be started: {error}"))?;
        let (input, output) = (child.stdin.take(), child.stdout.take());
        Ok(Process {
            child,
            input: input.ok_or("the driver has no input")?,
            output: output.ok_or("the driver has no output")?,
        })
    }

    /// Sends one request and waits for its answer, which may be cut if the driver ends.
    pub fn ask(&mut self, request: &[u8], answer_length: usize) -> Vec<u8> {
        let mut answer = Vec::new();
        // A driver that ended takes no request; then there is no answer, which says it all.
        if self.input.write_all(request).is_ok() {
            let mut limited = self.output.by_ref().take(answer_length as u64);
            let _ = limited.read_to_end(&mut answer);
        }
        answer
    }

    /// The calls that the driver was built with.
    pub fn calls_there(&mut self) -> Result<Vec<Call>, String> {
        let mut request = Vec::new();
        wire::write_request(&mut request, wire::WHAT_IS_THERE, &Lending::nothing());
        let answer = self.ask(&request, MOST_FIELDS * size_of::<u64>());
        if answer.len() < MOST_FIELDS * size_of::<u64>() {
            return Err("the driver does not say which calls are there".to_string());
        }
        let (row, _) = wire::read_answer(&answer, &Lending::nothing());
        let is_there = |call: &Call| row[0] >> (*call as u32) & 1 == 1;
        let there: Vec<Call> = Call::ALL.into_iter().filter(is_there).collect();
        if there.is_empty() {
            return Err("the driver was built without any call".to_string());
        }
        Ok(there)
    }

    /// Closes both pipes, waits for the end and says how it ended.
    pub fn end(mut self) -> String {
        drop((self.input, self.output));
        match self.child.wait() {
            Ok(status) => status.to_string(),
            Err(error) => error.to_string(),
        }
    }
}
