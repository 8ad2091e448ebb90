//! One call to the library under test, with what the model makes of it.

use super::call::{Call, Row};
use super::calls::Calls;
use super::difference::difference;
use super::lending::{make, Lending};

/// What a comparison gives: a value, or the text of a difference.
pub type Compared<T> = Result<T, String>;

/// A call: what it is lent, and the model's answer with the areas that the model leaves.
pub struct Asked<'a> {
    pub call: Call,
    pub before: &'a Lending,
    pub row: Row,
    pub after: &'a Lending,
}

/// A library under test. Which calls follow is decided by the model's answers alone, so a library
/// may compare later than it is asked; a difference then comes from a later call, or at its end.
pub trait Library {
    fn ask(&self, asked: &Asked<'_>) -> Compared<()>;
}

/// Calls within this program are compared at once.
impl<C: Calls> Library for C {
    fn ask(&self, asked: &Asked<'_>) -> Compared<()> {
        let mut after = asked.before.clone();
        let row = make(self, asked.call, &mut after);
        if row == asked.row && after == *asked.after {
            return Ok(());
        }
        Err(difference(asked, &row, &after))
    }
}
