//! Refusal numbers and places.

/// The four areas, with the codes of the C interface (0 is "no area").
#[derive(Clone, Copy, Debug, PartialEq, Eq, PartialOrd, Ord)]
pub enum Area {
    Heap = 1,
    Stack = 2,
    Control = 3,
    Trail = 4,
}

impl Area {
    pub fn name(self) -> &'static str {
        match self {
            Area::Heap => "heap",
            Area::Stack => "stack",
            Area::Control => "control",
            Area::Trail => "trail",
        }
    }
}

/// "Place is an area (heap, stack, control or trail) and the lowest index in it". For 3 it is the
/// index of the first frame or choice point at fault, which may lie outside the stack.
#[derive(Clone, Copy, Debug, PartialEq, Eq)]
pub struct Place {
    pub area: Area,
    pub index: usize,
}

/// A refused call: its number, and a place for 3 to 7 and 17 alone.
#[derive(Clone, Copy, Debug, PartialEq, Eq)]
pub struct Refusal {
    pub number: u32,
    pub place: Option<Place>,
}

pub const SIZES: u32 = 1;
pub const COUNTS_ABOVE_LENGTHS: u32 = 2;
pub const BROKEN_CHAIN: u32 = 3;
pub const TWO_ROLES: u32 = 4;
pub const BITS_SET: u32 = 5;
pub const WRONG_REFERENCE: u32 = 6;
pub const WRONG_ENTRY: u32 = 7;
pub const NO_CHOICE_POINT: u32 = 8;
pub const CONTROL_TOO_SHORT: u32 = 9;
pub const FILE_ENDS_EARLY: u32 = 10;
pub const OTHER_KIND: u32 = 11;
pub const COUNT_ABOVE_ROOM: u32 = 12;
pub const BYTES_AFTER_END: u32 = 13;
pub const COUNTS_DIFFER: u32 = 14;
pub const OUTPUT_TOO_SHORT: u32 = 15;
pub const FUNCTOR_NAMED: u32 = 17;
pub const INDEX_AT_H: u32 = 18;
pub const CHAIN_ABOVE_ROOM: u32 = 19;

/// A refusal without a place.
pub fn refused(number: u32) -> Refusal {
    Refusal {
        number,
        place: None,
    }
}

/// A refusal at a place.
pub fn refused_at(number: u32, area: Area, index: usize) -> Refusal {
    Refusal {
        number,
        place: Some(Place { area, index }),
    }
}

/// A refused file: its number and an offset in bytes.
#[derive(Clone, Copy, Debug, PartialEq, Eq)]
pub struct BadFile {
    pub number: u32,
    pub offset: usize,
}
