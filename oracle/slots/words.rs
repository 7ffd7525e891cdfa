//! Slot words by document 01's rule, independent of both sides: which are valid, all of a width, and some at random.

/// The size in bits 0-3, position i at bits 4i+4 to 4i+7.
pub fn pack(size: usize, slots: &[usize]) -> u64 {
    slots
        .iter()
        .enumerate()
        .fold(size as u64, |word, (i, &slot)| {
            word | (slot as u64) << (4 * i + 4)
        })
}

/// The slot at a position.
pub fn slot_at(word: u64, i: usize) -> usize {
    (word >> (4 * i + 4) & 15) as usize
}

pub fn size_of(word: u64) -> usize {
    (word & 15) as usize
}

/// The size is at most W, the W positions hold 0 to W-1 once each, and all higher bits are 0.
pub fn is_valid(word: u64, width: usize) -> bool {
    let mut slots: Vec<usize> = (0..width).map(|i| slot_at(word, i)).collect();
    let size = size_of(word);
    let fits = word == pack(size, &slots);
    slots.sort();
    fits && size <= width && slots.iter().enumerate().all(|(i, &slot)| i == slot)
}

/// A word from outside without its bits from 4(W+1) up, as it is judged; at width 15 there are none.
pub fn cleared(word: u64, width: usize) -> u64 {
    word & u64::MAX >> (60 - 4 * width)
}

/// Every valid word of a width: each order of the slots with each size.
pub fn every_word(width: usize, visit: &mut impl FnMut(u64)) {
    let mut slots: Vec<usize> = (0..width).collect();
    every_order(&mut slots, 0, &mut |slots| {
        (0..=width).for_each(|size| visit(pack(size, slots)))
    });
}

fn every_order(slots: &mut Vec<usize>, from: usize, visit: &mut impl FnMut(&[usize])) {
    if from == slots.len() {
        return visit(slots);
    }
    for i in from..slots.len() {
        slots.swap(from, i);
        every_order(slots, from + 1, visit);
        slots.swap(from, i);
    }
}

/// A row of numbers that is the same in every run (splitmix64).
pub struct Random(pub u64);

impl Random {
    pub fn next(&mut self) -> u64 {
        self.0 = self.0.wrapping_add(0x9E37_79B9_7F4A_7C15);
        let mut x = self.0;
        x = (x ^ (x >> 30)).wrapping_mul(0xBF58_476D_1CE4_E5B9);
        x = (x ^ (x >> 27)).wrapping_mul(0x94D0_49BB_1331_11EB);
        x ^ (x >> 31)
    }

    pub fn below(&mut self, n: usize) -> usize {
        (self.next() % n as u64) as usize
    }

    /// A valid word with this size.
    pub fn word(&mut self, width: usize, size: usize) -> u64 {
        let mut slots: Vec<usize> = (0..width).collect();
        for i in (1..width).rev() {
            slots.swap(i, self.below(i + 1));
        }
        pack(size, &slots)
    }
}
