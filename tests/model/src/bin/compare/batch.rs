//! Requests that are sent together, with the answers that the model gives to them.

use model::compare::asked::Asked;
use model::compare::difference::{difference, lent_text};
use model::compare::wire;

/// A batch is sent when its requests have so many bytes. Many calls go in one, so that neither
/// the pipe nor the emulator's start and stop are felt.
const FULL: usize = 512 * 1024;

#[derive(Default)]
pub struct Batch {
    pub requests: Vec<u8>,
    pub answers: Vec<u8>,
    cases: Vec<Case>,
}

/// One call of a batch: its item, and where its request and its answer end.
struct Case {
    item: u64,
    request_end: usize,
    answer_end: usize,
}

impl Batch {
    pub fn add(&mut self, item: u64, asked: &Asked<'_>) {
        wire::write_request(&mut self.requests, asked.call as u32, asked.before);
        wire::write_answer(&mut self.answers, &asked.row, asked.after);
        self.cases.push(Case {
            item,
            request_end: self.requests.len(),
            answer_end: self.answers.len(),
        });
    }

    pub fn is_full(&self) -> bool {
        self.requests.len() >= FULL
    }

    pub fn len(&self) -> usize {
        self.cases.len()
    }

    pub fn request(&self, case: usize) -> &[u8] {
        let start = case.checked_sub(1).map_or(0, |x| self.cases[x].request_end);
        &self.requests[start..self.cases[case].request_end]
    }

    pub fn answer(&self, case: usize) -> &[u8] {
        let start = case.checked_sub(1).map_or(0, |x| self.cases[x].answer_end);
        &self.answers[start..self.cases[case].answer_end]
    }

    /// The first case that was answered otherwise, or not wholly, and what was found of its
    /// answer.
    pub fn first_difference<'a>(&self, found: &'a [u8]) -> Option<(usize, &'a [u8])> {
        (0..self.len()).find_map(|case| {
            let end = self.cases[case].answer_end;
            let start = end - self.answer(case).len();
            let part = &found[start.min(found.len())..end.min(found.len())];
            (part != self.answer(case)).then_some((case, part))
        })
    }

    /// The text of a difference in a case that was wholly answered.
    pub fn difference(&self, case: usize, found: &[u8]) -> String {
        let (call, before) = wire::read_request(self.request(case));
        let (row, after) = wire::read_answer(self.answer(case), &before);
        let asked = Asked {
            call,
            before: &before,
            row,
            after: &after,
        };
        let (row, after) = wire::read_answer(found, &before);
        let item = self.cases[case].item;
        format!("item {item}: {}", difference(&asked, &row, &after))
    }

    /// The text for a case that was not answered.
    pub fn no_answer(&self, case: usize, why: &str) -> String {
        let (call, before) = wire::read_request(self.request(case));
        let (item, name) = (self.cases[case].item, call.name());
        format!("item {item}: {why} {name}\n{}", lent_text(call, &before))
    }
}
