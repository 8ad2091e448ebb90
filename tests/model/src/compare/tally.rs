//! What a run met: calls by refusal number and by place, and more.

use super::call::Call;
use crate::held::RootKind;
use crate::refusal::Area;

/// Refusal numbers up to 19; 0 counts the accepted.
const NUMBERS: usize = 20;

/// The refusals that name a place.
const WITH_A_PLACE: [u32; 6] = [3, 4, 5, 6, 7, 17];
const AREAS: usize = 5;

#[derive(Clone, Debug, Default)]
pub struct Numbers([u64; NUMBERS]);

impl Numbers {
    pub fn add(&mut self, refusal: u32) {
        self.0[refusal as usize] += 1;
    }

    pub fn of(&self, refusal: u32) -> u64 {
        self.0[refusal as usize]
    }

    /// "accepted 12, 1: 3, 5: 7": only the numbers that occurred.
    fn text(&self) -> String {
        let mut text = format!("accepted {}", self.0[0]);
        for (number, count) in self.0.iter().enumerate().skip(1) {
            if *count > 0 {
                text += &format!(", {number}: {count}");
            }
        }
        text
    }
}

#[derive(Clone, Debug, Default)]
pub struct Tally {
    pub images: u64,
    pub files: u64,
    pub collect: Numbers,
    pub step_back: Numbers,
    pub freeze: Numbers,
    pub thaw: Numbers,
    pub record: Numbers,
    pub why_held: Numbers,
    /// Collections refused with a place, by number and area.
    places: [[u64; AREAS]; NUMBERS],
    /// Accepted collections that kept cells, dropped cells, did both; the same for entries.
    pub cells_kept: u64,
    pub cells_dropped: u64,
    pub cells_both: u64,
    pub entries_both: u64,
    /// What answers to "why held" were, where it was not refused.
    pub held: HeldTally,
    /// Schedules of demand 3 by their number of steps back.
    pub schedules: [u64; 5],
}

/// Cells that were found dead or held, by the kind of root and by the chain's length.
#[derive(Clone, Debug, Default)]
pub struct HeldTally {
    pub dead: u64,
    pub by_argument: u64,
    pub by_frame_cell: u64,
    pub by_saved_argument: u64,
    /// Of 1, of 2 to 9, of 10 to 999 and of more cells.
    pub lengths: [u64; 4],
    /// Answers on images larger than the others.
    pub large: u64,
}

impl HeldTally {
    pub fn add(&mut self, kind: RootKind, length: u64) {
        match kind {
            RootKind::Argument { .. } => self.by_argument += 1,
            RootKind::FrameCell { .. } => self.by_frame_cell += 1,
            RootKind::SavedArgument { .. } => self.by_saved_argument += 1,
        }
        let class = match length {
            0 | 1 => 0,
            2..=9 => 1,
            10..=999 => 2,
            _ => 3,
        };
        self.lengths[class] += 1;
    }

    fn text(&self) -> String {
        format!(
            "\nheld by a control argument {}, a frame's cell {}, a saved argument {}; dead {}; \
             chains of 1, to 9, to 999 and of more cells: {:?}; in large images {}",
            self.by_argument,
            self.by_frame_cell,
            self.by_saved_argument,
            self.dead,
            self.lengths,
            self.large
        )
    }
}

impl Tally {
    pub fn add_place(&mut self, refusal: u32, area: u32) {
        self.places[refusal as usize][area as usize] += 1;
    }

    pub fn at(&self, refusal: u32, area: Area) -> u64 {
        self.places[refusal as usize][area as usize]
    }

    /// Names only the calls that are there.
    pub fn text(&self, there: &[Call]) -> String {
        let mut text = format!("images {}, files {}\n", self.images, self.files);
        for (call, numbers) in [
            (Call::Collect, &self.collect),
            (Call::StepBack, &self.step_back),
            (Call::Freeze, &self.freeze),
            (Call::Thaw, &self.thaw),
            (Call::Record, &self.record),
            (Call::WhyHeld, &self.why_held),
        ] {
            if there.contains(&call) {
                text += &format!("{}: {}\n", call.name(), numbers.text());
            }
        }
        text += "places:";
        for number in WITH_A_PLACE {
            for area in [Area::Heap, Area::Stack, Area::Control, Area::Trail] {
                let count = self.at(number, area);
                if count > 0 {
                    text += &format!(" {number} {} {count}", area.name());
                }
            }
        }
        if there.contains(&Call::WhyHeld) {
            text += &self.held.text();
        }
        text + &format!(
            "\naccepted collections that kept cells {}, dropped cells {}, both {}, \
             kept and dropped entries {}\nschedules with 0 to 4 steps back: {:?}\n",
            self.cells_kept, self.cells_dropped, self.cells_both, self.entries_both, self.schedules
        )
    }
}
