//! What the Rust answers: its values on the low 4(W+1) bits, or that it panicked and with which words.

use crate::calls::{accepted, inserted, is_question, Answer, Call, Name};
use crate::permuter::Permuter;
use crate::words::cleared;
use std::cell::RefCell;
use std::panic::{catch_unwind, set_hook, AssertUnwindSafe};

thread_local! {
    static SAID: RefCell<String> = const { RefCell::new(String::new()) };
}

/// Keeps what a panic says instead of printing it.
pub fn silence_panics() {
    set_hook(Box::new(|info| {
        SAID.with(|said| {
            let mut said = said.borrow_mut();
            said.clear();
            said.push_str(info.payload_as_str().unwrap_or("a panic without words"));
        });
    }));
}

/// The answer, or what the panic said.
pub fn answer(call: &Call) -> Result<Answer, String> {
    let asked = catch_unwind(AssertUnwindSafe(|| at_width(call)));
    asked
        .map(|whole| low(call, whole))
        .map_err(|_| SAID.with(|said| said.borrow().clone()))
}

/// The first value of an accepted call with every bit that the Rust leaves in it.
pub fn whole_value(call: &Call) -> u64 {
    at_width(call).first
}

/// The word that the Rust goes on with, strays and all: the one that a call leaves, or the one as given where it panics or only asks.
pub fn word_after(call: &Call) -> u64 {
    if is_question(call.name) {
        return call.word;
    }
    catch_unwind(AssertUnwindSafe(|| at_width(call).first)).unwrap_or(call.word)
}

/// The refusal that a panic's words stand for.
pub fn number_of(said: &str) -> u64 {
    if said.contains("permuter full") {
        5
    } else if said.contains("not in permutation") {
        6
    } else {
        4
    }
}

/// The answer with the low 4(W+1) bits of a word; a number told is as it is.
fn low(call: &Call, whole: Answer) -> Answer {
    if is_question(call.name) {
        return whole;
    }
    Answer {
        first: cleared(whole.first, call.width),
        ..whole
    }
}

fn at_width(call: &Call) -> Answer {
    match call.width {
        1 => ask::<1>(call),
        2 => ask::<2>(call),
        3 => ask::<3>(call),
        4 => ask::<4>(call),
        5 => ask::<5>(call),
        6 => ask::<6>(call),
        7 => ask::<7>(call),
        8 => ask::<8>(call),
        9 => ask::<9>(call),
        10 => ask::<10>(call),
        11 => ask::<11>(call),
        12 => ask::<12>(call),
        13 => ask::<13>(call),
        14 => ask::<14>(call),
        15 => ask::<15>(call),
        width => unreachable!("the Rust has no width {width}"),
    }
}

fn ask<const W: usize>(call: &Call) -> Answer {
    let Call { a, b, .. } = *call;
    let mut p = Permuter::<W>::from_value(call.word);
    match call.name {
        Name::Empty => return accepted(Permuter::<W>::empty().value()),
        Name::MakeSorted => return accepted(Permuter::<W>::make_sorted(a).value()),
        Name::Size => return accepted(p.size() as u64),
        Name::Get => return accepted(p.get(a) as u64),
        Name::Back => return accepted(p.back() as u64),
        Name::BackAtOffset => return accepted(p.back_at_offset(a) as u64),
        Name::InsertFromBack => {
            let slot = p.insert_from_back(a);
            return inserted(p.value(), slot as u64, (W - p.size()) as u64);
        }
        Name::InsertFromBackImmutable => {
            let (after, slot) = p.insert_from_back_immutable(a);
            assert_eq!(
                p.value(),
                call.word,
                "the immutable insertion changed its word"
            );
            return inserted(after.value(), slot as u64, (W - after.size()) as u64);
        }
        Name::FromValue => {}
        Name::SetSize => p.set_size(a),
        Name::SwapFreeSlots => p.swap_free_slots(a, b),
        Name::Remove => p.remove(a),
        Name::RemoveToBack => p.remove_to_back(a),
        Name::RemoveSlot => p.remove_slot(a),
        Name::Exchange => p.exchange(a, b),
        Name::Rotate => p.rotate(a, b),
    }
    accepted(p.value())
}
