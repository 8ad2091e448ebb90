//! Calls and answers as the driver's protocol has them; all numbers are little-endian.
//!
//! A request is the call's number (4 bytes), its address, offset or heap index (8), then for
//! control, stack, heap, trail, work, room and the bytes three numbers of 4 bytes each, the length
//! of the whole buffer, where the lent part begins and its length, and then the seven buffers. An
//! answer is seven numbers of 8 bytes, the fields in their order and 0 after the last, and the
//! seven buffers.

use super::call::{Call, Row, MOST_FIELDS};
use super::guard::{guarded_bytes, guarded_words, Guarded};
use super::lending::{Lending, AREAS};

/// The request that asks which calls are there; bit n of the first field stands for call n.
pub const WHAT_IS_THERE: u32 = 0;

const WORD: usize = 4;
const NUMBER: usize = 8;

pub fn write_request(to: &mut Vec<u8>, call: u32, lending: &Lending) {
    to.extend(call.to_le_bytes());
    to.extend(lending.number.to_le_bytes());
    for area in &lending.words {
        write_lengths(to, area);
    }
    write_lengths(to, &lending.bytes);
    write_buffers(to, lending);
}

pub fn write_answer(to: &mut Vec<u8>, row: &Row, lending: &Lending) {
    for field in row {
        to.extend(field.to_le_bytes());
    }
    write_buffers(to, lending);
}

fn write_lengths<T: Copy + Default + PartialEq>(to: &mut Vec<u8>, area: &Guarded<T>) {
    for number in [area.all().len(), area.row(), area.area().len()] {
        let number = u32::try_from(number).expect("a buffer of less than 2^32 elements");
        to.extend(number.to_le_bytes());
    }
}

fn write_buffers(to: &mut Vec<u8>, lending: &Lending) {
    for area in &lending.words {
        let start = to.len();
        to.resize(start + area.all().len() * WORD, 0);
        let places = to[start..].chunks_exact_mut(WORD);
        for (place, word) in places.zip(area.all()) {
            place.copy_from_slice(&word.to_le_bytes());
        }
    }
    to.extend(lending.bytes.all());
}

/// Reads a request that `write_request` wrote.
pub fn read_request(mut from: &[u8]) -> (Call, Lending) {
    let number = read_word(&mut from);
    let call = Call::ALL.into_iter().find(|call| *call as u32 == number);
    let mut lending = Lending::nothing().with_number(read_number(&mut from));
    let lengths: [_; AREAS + 1] = std::array::from_fn(|_| {
        let [_, row, length] = std::array::from_fn(|_| read_word(&mut from) as usize);
        (row > 0, length)
    });
    for (area, (used, length)) in lending.words.iter_mut().zip(lengths) {
        if used {
            *area = guarded_words(&vec![0; length]);
        }
    }
    let (used, length) = lengths[AREAS];
    if used {
        lending.bytes = guarded_bytes(&vec![0; length]);
    }
    read_buffers(&mut from, &mut lending);
    (call.expect("a call's number"), lending)
}

/// Reads a whole answer to a call that was lent `before`.
pub fn read_answer(mut from: &[u8], before: &Lending) -> (Row, Lending) {
    let row: [u64; MOST_FIELDS] = std::array::from_fn(|_| read_number(&mut from));
    let mut after = before.clone();
    read_buffers(&mut from, &mut after);
    (row, after)
}

fn read_buffers(from: &mut &[u8], lending: &mut Lending) {
    for area in &mut lending.words {
        for word in area.all_mut() {
            *word = read_word(from);
        }
    }
    let bytes = lending.bytes.all_mut();
    bytes.copy_from_slice(&from[..bytes.len()]);
}

fn read_word(from: &mut &[u8]) -> u32 {
    let (word, rest) = from.split_first_chunk::<WORD>().expect("a whole word");
    *from = rest;
    u32::from_le_bytes(*word)
}

fn read_number(from: &mut &[u8]) -> u64 {
    let (number, rest) = from.split_first_chunk::<NUMBER>().expect("a whole number");
    *from = rest;
    u64::from_le_bytes(*number)
}
