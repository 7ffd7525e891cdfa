//! The Rust's `insert_from_back` at width 15 for C, with how many rest by its own size: as it is, and after the port's judgement by plain
//! loops. Beside it the same on a wide bank, which the Rust does not have, in plain Rust. The root that bench/run writes puts the Rust's
//! own file in as `permuter`.

use crate::permuter::Permuter;

#[no_mangle]
pub extern "C" fn rust_unchecked(
    word: &mut u64,
    _width: usize,
    i: usize,
    slot: &mut usize,
    resting: &mut usize,
) -> u64 {
    let mut permuter = Permuter::<15>::from_value(*word);
    *slot = permuter.insert_from_back(i);
    *resting = 15 - permuter.size();
    *word = permuter.value();
    0
}

#[no_mangle]
pub extern "C" fn rust_judged(
    word: &mut u64,
    width: usize,
    i: usize,
    slot: &mut usize,
    resting: &mut usize,
) -> u64 {
    let number = judged(*word, width, i);
    if number != 0 {
        return number;
    }
    rust_unchecked(word, width, i, slot, resting)
}

/// Refusals 1, 2, 4 and 5, the lowest first.
#[inline(never)]
fn judged(word: u64, width: usize, i: usize) -> u64 {
    if !(1..=15).contains(&width) {
        return 1;
    }
    if !is_valid(word, width) {
        return 2;
    }
    let size = (word & 15) as usize;
    if i > size {
        return 4;
    }
    if size == width {
        return 5;
    }
    0
}

/// The size is at most the width, each position holds a slot below the width, none twice, and nothing stands above.
fn is_valid(word: u64, width: usize) -> bool {
    if (word & 15) as usize > width {
        return false;
    }
    let mut rest = word >> 4;
    let mut seen = 0u32;
    for _ in 0..width {
        let slot = rest & 15;
        if slot as usize >= width || seen & 1 << slot != 0 {
            return false;
        }
        seen |= 1 << slot;
        rest >>= 4;
    }
    rest == 0
}

/// An insertion into a wide bank, after the port's judgement by a plain loop.
#[no_mangle]
pub extern "C" fn plain_wide(
    bank: &mut [u8; 25],
    width: usize,
    i: usize,
    slot: &mut usize,
    resting: &mut usize,
) -> u64 {
    let number = judged_wide(bank, width, i);
    if number != 0 {
        return number;
    }
    let last = bank[width];
    bank.copy_within(i + 1..width, i + 2);
    bank[i + 1] = last;
    bank[0] += 1;
    *slot = last as usize;
    *resting = width - bank[0] as usize;
    0
}

/// Refusals 1, 2, 4 and 5, the lowest first.
#[inline(never)]
fn judged_wide(bank: &[u8; 25], width: usize, i: usize) -> u64 {
    if !(16..=24).contains(&width) {
        return 1;
    }
    if !is_valid_wide(bank, width) {
        return 2;
    }
    let size = bank[0] as usize;
    if i > size {
        return 4;
    }
    if size == width {
        return 5;
    }
    0
}

/// The size is at most the width, each position holds a slot below the width, none twice, and all behind is 0.
fn is_valid_wide(bank: &[u8; 25], width: usize) -> bool {
    if bank[0] as usize > width {
        return false;
    }
    let mut seen = 0u32;
    for &slot in &bank[1..=width] {
        if slot as usize >= width || seen & 1 << slot != 0 {
            return false;
        }
        seen |= 1 << slot;
    }
    bank[width + 1..].iter().all(|&byte| byte == 0)
}
