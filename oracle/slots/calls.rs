//! The calls on a slot word, and what one of them says: a number (0 for accepted) and up to three values.

#[derive(Clone, Copy, Debug, PartialEq, Eq, Hash)]
pub enum Name {
    Empty,
    MakeSorted,
    FromValue,
    Size,
    Get,
    Back,
    BackAtOffset,
    SetSize,
    SwapFreeSlots,
    InsertFromBack,
    Remove,
    RemoveToBack,
    RemoveSlot,
    Exchange,
    Rotate,
    /// The Rust has this beside `InsertFromBack`; the port's word goes in and comes back by value in any case.
    InsertFromBackImmutable,
}

use crate::words::Random;
use Name::*;

/// All calls, in the order of their code in the recorded list; the last is not recorded.
pub const NAMES: [Name; 16] = [
    Empty,
    MakeSorted,
    FromValue,
    Size,
    Get,
    Back,
    BackAtOffset,
    SetSize,
    SwapFreeSlots,
    InsertFromBack,
    Remove,
    RemoveToBack,
    RemoveSlot,
    Exchange,
    Rotate,
    InsertFromBackImmutable,
];

/// How many arguments a call takes beside the word and the width.
pub fn arguments(name: Name) -> usize {
    match name {
        Empty | FromValue | Size | Back => 0,
        SwapFreeSlots | Exchange | Rotate => 2,
        _ => 1,
    }
}

/// Whether the call takes a word; the others make one.
pub fn takes_word(name: Name) -> bool {
    !matches!(name, Empty | MakeSorted)
}

/// Whether the call tells a number of the word and changes nothing.
pub fn is_question(name: Name) -> bool {
    matches!(name, Size | Get | Back | BackAtOffset)
}

#[derive(Clone, Copy, Debug, PartialEq, Eq, Hash)]
pub struct Call {
    pub name: Name,
    pub width: usize,
    pub word: u64,
    pub a: usize,
    pub b: usize,
}

/// Accepted: 0, the new word or the number told, and of an insertion the slot and how many rest. Refused: the number and the word as given.
#[derive(Clone, Copy, Debug, PartialEq, Eq, Hash)]
pub struct Answer {
    pub number: u64,
    pub first: u64,
    pub second: u64,
    pub third: u64,
}

pub fn accepted(first: u64) -> Answer {
    inserted(first, 0, 0)
}

pub fn inserted(first: u64, second: u64, third: u64) -> Answer {
    Answer {
        number: 0,
        first,
        second,
        third,
    }
}

pub fn refused(call: &Call, number: u64) -> Answer {
    let first = if takes_word(call.name) { call.word } else { 0 };
    Answer {
        number,
        first,
        second: 0,
        third: 0,
    }
}

/// A call on this word, any that takes one, with arguments of which most are in range.
pub fn some_call(random: &mut Random, width: usize, word: u64) -> Call {
    Call {
        name: NAMES[2 + random.below(NAMES.len() - 3)],
        width,
        word,
        a: random.below(width + 1),
        b: random.below(width + 1),
    }
}
