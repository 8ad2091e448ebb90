//! "The machine's words": cells, tags and addresses.

/// E, CE and B: "4,294,967,295 means none".
pub const NONE: u32 = 4_294_967_295;

/// The first address of the stack; all below are heap indexes.
pub const STACK_BASE: u32 = 134_217_728;

/// "The value is below 268,435,456."
pub const VALUE_LIMIT: u32 = 268_435_456;

/// A functor's value is name * 256 + arity; a frame's size is L or CL mod 256.
pub const ARITY_LIMIT: u32 = 256;

// The document's sums of a few 32-bit numbers fit a `usize` without wrapping.
const _: () = assert!(usize::BITS >= 64);

#[derive(Clone, Copy, Debug, PartialEq, Eq)]
pub enum Tag {
    Var = 0,
    Struct = 1,
    List = 2,
    Const = 3,
}

/// An address, split as the document splits it.
#[derive(Clone, Copy, Debug, PartialEq, Eq)]
pub enum Address {
    Heap(usize),
    Stack(usize),
}

/// word = value * 16 + tag * 4 + m * 2 + f, with m and f 0.
pub fn cell(tag: Tag, value: u32) -> u32 {
    assert!(value < VALUE_LIMIT);
    value * 16 + tag as u32 * 4
}

pub fn value(word: u32) -> u32 {
    word / 16
}

pub fn tag(word: u32) -> Tag {
    match word / 4 % 4 {
        0 => Tag::Var,
        1 => Tag::Struct,
        2 => Tag::List,
        _ => Tag::Const,
    }
}

/// m * 2 + f.
pub fn bits(word: u32) -> u32 {
    word % 4
}

/// The arity that a functor's cell states.
pub fn arity(word: u32) -> usize {
    (value(word) % ARITY_LIMIT) as usize
}

/// A whole 32-bit number is split; nothing is cut off, so a trail entry keeps all its bits.
pub fn address(number: u32) -> Address {
    if number < STACK_BASE {
        Address::Heap(number as usize)
    } else {
        Address::Stack((number - STACK_BASE) as usize)
    }
}

pub fn stack_address(index: usize) -> u32 {
    STACK_BASE + index as u32
}

/// "A VAR cell that holds its own address is unbound."
pub fn unbound(own_address: u32) -> u32 {
    cell(Tag::Var, own_address)
}

#[cfg(test)]
mod tests {
    use super::*;

    #[test]
    fn a_word_is_its_parts() {
        for word in [0, 3, 124, 20524, 2_147_483_696, u32::MAX] {
            let parts = value(word) * 16 + tag(word) as u32 * 4 + bits(word);
            assert_eq!(parts, word);
        }
    }

    #[test]
    fn the_last_heap_address_and_the_first_of_the_stack() {
        assert_eq!(address(134_217_727), Address::Heap(134_217_727));
        assert_eq!(address(134_217_728), Address::Stack(0));
        assert_eq!(address(u32::MAX), Address::Stack(4_160_749_567));
    }

    #[test]
    fn a_functor_of_five_with_two_arguments() {
        assert_eq!(arity(cell(Tag::Const, 5 * 256 + 2)), 2);
        assert_eq!(unbound(stack_address(3)), 134_217_731 * 16);
    }
}
