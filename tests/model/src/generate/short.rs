//! Short names for the words of images that are written out.

use crate::word::{cell, Tag, ARITY_LIMIT};

pub fn var(x: usize) -> u32 {
    cell(Tag::Var, x as u32)
}

pub fn list(x: usize) -> u32 {
    cell(Tag::List, x as u32)
}

pub fn structure(x: usize) -> u32 {
    cell(Tag::Struct, x as u32)
}

pub fn constant(value: usize) -> u32 {
    cell(Tag::Const, value as u32)
}

pub fn functor(name: usize, arity: usize) -> u32 {
    constant(name * ARITY_LIMIT as usize + arity)
}

/// The fixed part of a control area or choice point without trail, and its arguments.
pub fn header(l: usize, e: u32, b: u32, h: usize, arguments: &[u32]) -> Vec<u32> {
    let fixed = [1, l as u32, e, b, 0, h as u32, arguments.len() as u32];
    [&fixed, arguments].concat()
}
