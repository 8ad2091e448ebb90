//! What the months of a run contained.

use std::collections::BTreeMap;

use model::month::Month;

#[derive(Default)]
pub struct Met {
    months: u64,
    bytes: u64,
    accepted: u64,
    refused: BTreeMap<u32, u64>,
    /// Months that end with a bad file, by its number.
    bad: BTreeMap<u32, u64>,
}

impl Met {
    pub fn add(&mut self, input: &[u8], month: &Month) {
        self.months += 1;
        self.bytes += input.len() as u64;
        self.accepted += month.accepted().count() as u64;
        for (number, count) in month.refused() {
            *self.refused.entry(number).or_default() += count;
        }
        if let Some(bad) = &month.bad {
            *self.bad.entry(bad.number).or_default() += 1;
        }
    }

    pub fn text(&self) -> String {
        let ended: u64 = self.bad.values().sum();
        format!(
            "months {}, bytes {}\nfiles: accepted {}{}\nmonths without a bad file: {}{}\n\
             no difference\n",
            self.months,
            self.bytes,
            self.accepted,
            numbers(&self.refused),
            self.months - ended,
            numbers(&self.bad)
        )
    }
}

/// ", 3: 17, 4: 2"
fn numbers(counts: &BTreeMap<u32, u64>) -> String {
    let counts = counts.iter();
    let counts = counts.map(|(number, count)| format!(", {number}: {count}"));
    counts.collect()
}
