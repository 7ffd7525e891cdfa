//! What the port answers, through its C interface; and that a refused call leaves every lent number as it was.

use crate::calls::{accepted, inserted, is_question, refused, Answer, Call, Name};

#[link(name = "firmware", kind = "static")]
extern "C" {
    fn cherchivola_empty(width: usize, word: &mut u64) -> u64;
    fn cherchivola_make_sorted(width: usize, n: usize, word: &mut u64) -> u64;
    fn cherchivola_from_value(value: u64, width: usize, word: &mut u64) -> u64;
    fn cherchivola_size(word: u64, width: usize, told: &mut usize) -> u64;
    fn cherchivola_get(word: u64, width: usize, i: usize, told: &mut usize) -> u64;
    fn cherchivola_back(word: u64, width: usize, told: &mut usize) -> u64;
    fn cherchivola_back_at_offset(word: u64, width: usize, offset: usize, told: &mut usize) -> u64;
    fn cherchivola_set_size(word: &mut u64, width: usize, n: usize) -> u64;
    fn cherchivola_swap_free_slots(word: &mut u64, width: usize, i: usize, j: usize) -> u64;
    fn cherchivola_insert_from_back(
        word: &mut u64,
        width: usize,
        i: usize,
        slot: &mut usize,
        resting: &mut usize,
    ) -> u64;
    fn cherchivola_remove(word: &mut u64, width: usize, i: usize) -> u64;
    fn cherchivola_remove_to_back(word: &mut u64, width: usize, i: usize) -> u64;
    fn cherchivola_remove_slot(word: &mut u64, width: usize, slot: usize) -> u64;
    fn cherchivola_exchange(word: &mut u64, width: usize, i: usize, j: usize) -> u64;
    fn cherchivola_rotate(word: &mut u64, width: usize, i: usize, j: usize) -> u64;
}

/// What stands in a lent number that only takes a result.
const BLANK: usize = 0x5EED;

pub fn answer(call: &Call) -> Answer {
    let Call {
        name,
        width,
        word: given,
        a,
        b,
    } = *call;
    let lends_word =
        !is_question(name) && !matches!(name, Name::Empty | Name::MakeSorted | Name::FromValue);
    let before = if lends_word { given } else { BLANK as u64 };
    let mut word = before;
    let mut told = BLANK;
    let mut resting = BLANK;
    // SAFETY: every lent number is a local of this function.
    let number = unsafe {
        match name {
            Name::Empty => cherchivola_empty(width, &mut word),
            Name::MakeSorted => cherchivola_make_sorted(width, a, &mut word),
            Name::FromValue => cherchivola_from_value(given, width, &mut word),
            Name::Size => cherchivola_size(given, width, &mut told),
            Name::Get => cherchivola_get(given, width, a, &mut told),
            Name::Back => cherchivola_back(given, width, &mut told),
            Name::BackAtOffset => cherchivola_back_at_offset(given, width, a, &mut told),
            Name::SetSize => cherchivola_set_size(&mut word, width, a),
            Name::SwapFreeSlots => cherchivola_swap_free_slots(&mut word, width, a, b),
            Name::InsertFromBack | Name::InsertFromBackImmutable => {
                cherchivola_insert_from_back(&mut word, width, a, &mut told, &mut resting)
            }
            Name::Remove => cherchivola_remove(&mut word, width, a),
            Name::RemoveToBack => cherchivola_remove_to_back(&mut word, width, a),
            Name::RemoveSlot => cherchivola_remove_slot(&mut word, width, a),
            Name::Exchange => cherchivola_exchange(&mut word, width, a, b),
            Name::Rotate => cherchivola_rotate(&mut word, width, a, b),
        }
    };
    if number != 0 {
        assert!(
            word == before && told == BLANK && resting == BLANK,
            "{call:x?} was refused and a lent number changed"
        );
        return refused(call, number);
    }
    match name {
        _ if is_question(name) => accepted(told as u64),
        Name::InsertFromBack | Name::InsertFromBackImmutable => {
            inserted(word, told as u64, resting as u64)
        }
        _ => accepted(word),
    }
}
