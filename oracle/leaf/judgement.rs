//! Document 01's refusals 3, 7 and 10 of a leaf search, read plainly. The Rust has none of them.
use crate::key::Key;
use crate::leaf::{Asked, Entry, Leaf, LINK, LONGER};

/// The slots in use, in order, of a valid word.
pub fn slots(word: u64) -> Vec<usize> {
    (0..(word % 16) as usize).map(|i| (word >> (4 * i + 4)) as usize % 16).collect()
}

fn word_valid(word: u64) -> bool {
    let mut held: Vec<usize> = (0..15).map(|i| (word >> (4 * i + 4)) as usize % 16).collect();
    held.sort_unstable();
    held == (0..15).collect::<Vec<_>>()
}

fn lent_right(leaf: &Leaf) -> bool {
    let n = leaf.words_lent / 2;
    leaf.words_lent % 2 == 0 && (1..=255).contains(&n) && leaf.bytes_lent == 256 * n
}

fn of_kind(leaf: &Leaf, e: &Entry) -> bool {
    let lent = (e.at as usize) < leaf.words_lent / 2;
    let length_word = leaf.cells.get(e.at as usize).map_or(0, |c| c.length_word);
    e.class == LINK || (e.class <= LONGER && lent && (1..=257).contains(&length_word))
}

fn good(leaf: &Leaf) -> bool {
    let used: Vec<Entry> = slots(leaf.word).iter().map(|&s| leaf.entries[s]).collect();
    let place = |e: &Entry| (e.ikey, e.class.min(LONGER));
    used.iter().all(|e| of_kind(leaf, e)) && used.windows(2).all(|w| place(&w[0]) < place(&w[1]))
}

fn fits(asked: &Asked) -> bool {
    let (length, shifts) = (asked.bytes.len(), asked.shift_count);
    if length > 256 || (shifts != 0 && u128::from(shifts) * 8 >= length as u128) {
        return false;
    }
    let offset = 8 * shifts as usize;
    asked.ikey == Key::read_ikey(&asked.bytes, offset) && asked.suffix_start as usize == length.min(offset + 8)
}

/// 0, or the refusal with the lowest number.
pub fn refusal(leaf: &Leaf, asked: &Asked) -> u64 {
    let lent = lent_right(leaf);
    if !word_valid(leaf.word) || (lent && !good(leaf)) {
        return 3;
    }
    if !fits(asked) {
        return 7;
    }
    if lent { 0 } else { 10 }
}
