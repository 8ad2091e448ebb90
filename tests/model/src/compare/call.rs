//! The seven calls by their numbers, and their answers as rows of numbers.

use super::calls::*;

pub const MOST_FIELDS: usize = 7;

/// An answer's fields in the order of the C interface; fields that it has not are 0.
pub type Row = [u64; MOST_FIELDS];

/// The numbers are those of the driver's protocol.
#[derive(Clone, Copy, Debug, PartialEq, Eq)]
pub enum Call {
    Collect = 1,
    StepBack = 2,
    LookUp = 3,
    Thaw = 4,
    Freeze = 5,
    Record = 6,
    WhyHeld = 7,
}

impl Call {
    pub const ALL: [Call; 7] = [
        Call::Collect,
        Call::StepBack,
        Call::LookUp,
        Call::Thaw,
        Call::Freeze,
        Call::Record,
        Call::WhyHeld,
    ];

    pub fn name(self) -> &'static str {
        match self {
            Call::Collect => "collect",
            Call::StepBack => "step back",
            Call::LookUp => "look-up",
            Call::Thaw => "thaw",
            Call::Freeze => "freeze",
            Call::Record => "record",
            Call::WhyHeld => "why held",
        }
    }

    /// The names of the answer's fields.
    pub fn fields(self) -> &'static [&'static str] {
        match self {
            Call::Collect => &[
                "refusal",
                "area",
                "index",
                "cells_kept",
                "cells_dropped",
                "entries_kept",
                "entries_dropped",
            ],
            Call::StepBack => &["refusal", "area", "index", "undone"],
            Call::LookUp => &["area", "index", "length"],
            Call::Thaw => &["refusal", "offset", "control", "stack", "heap", "trail"],
            Call::Freeze => &["refusal", "bytes"],
            Call::Record => &["refusal", "offset", "kind", "body", "next"],
            Call::WhyHeld => &[
                "refusal",
                "area",
                "index",
                "held",
                "root_area",
                "root_index",
                "length",
            ],
        }
    }
}

/// The answer of one of the calls.
pub trait Answer {
    const CALL: Call;
    fn row(&self) -> Row;
}

fn row<const FIELDS: usize>(fields: [u64; FIELDS]) -> Row {
    let mut row = [0; MOST_FIELDS];
    row[..FIELDS].copy_from_slice(&fields);
    row
}

impl Answer for Collected {
    const CALL: Call = Call::Collect;
    fn row(&self) -> Row {
        row([
            self.refusal.into(),
            self.area.into(),
            self.index,
            self.cells_kept,
            self.cells_dropped,
            self.entries_kept,
            self.entries_dropped,
        ])
    }
}

impl Answer for Stepped {
    const CALL: Call = Call::StepBack;
    fn row(&self) -> Row {
        let (refusal, area) = (self.refusal.into(), self.area.into());
        row([refusal, area, self.index, self.undone])
    }
}

impl Answer for Found {
    const CALL: Call = Call::LookUp;
    fn row(&self) -> Row {
        row([self.area.into(), self.index, self.length])
    }
}

impl Answer for Thawed {
    const CALL: Call = Call::Thaw;
    fn row(&self) -> Row {
        let counts = [self.control, self.stack, self.heap, self.trail];
        let [control, stack, heap, trail] = counts;
        let refusal = self.refusal.into();
        row([refusal, self.offset, control, stack, heap, trail])
    }
}

impl Answer for Frozen {
    const CALL: Call = Call::Freeze;
    fn row(&self) -> Row {
        row([self.refusal.into(), self.bytes])
    }
}

impl Answer for RecordRead {
    const CALL: Call = Call::Record;
    fn row(&self) -> Row {
        let (refusal, kind) = (self.refusal.into(), self.kind.into());
        row([refusal, self.offset, kind, self.body, self.next])
    }
}

impl Answer for WhyHeld {
    const CALL: Call = Call::WhyHeld;
    fn row(&self) -> Row {
        row([
            self.refusal.into(),
            self.area.into(),
            self.index,
            self.held.into(),
            self.root_area.into(),
            self.root_index,
            self.length,
        ])
    }
}
