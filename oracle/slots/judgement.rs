//! Refusals 1 and 2, of which the Rust knows nothing: the port against document 01's rule for a valid word, once what strays above the
//! width is cleared, in both directions, and that they go before every other refusal.

use crate::calls::{takes_word, Call, Name, NAMES};
use crate::port;
use crate::words::{cleared, is_valid, Random};

/// Up to this width every number with two bits more than a word has is judged.
const EXHAUSTIVE: usize = 4;
/// So many words of each larger width, most of them valid but for one nibble or one bit.
const AT_RANDOM: usize = 100_000;
const BAD_WIDTHS: [usize; 4] = [0, 16, 17, usize::MAX];

#[derive(Default)]
pub struct Judgement {
    valid: u64,
    refused: u64,
    wrong: u64,
}

impl Judgement {
    /// The port's number for a call, and document 01's, if it is 1 or 2.
    fn judge(&mut self, name: Name, width: usize, word: u64) {
        let call = Call {
            name,
            width,
            word,
            a: usize::MAX,
            b: usize::MAX,
        };
        let ours = port::answer(&call).number;
        let theirs = match width {
            1..=15 if !takes_word(name) || is_valid(cleared(word, width), width) => 0,
            1..=15 => 2,
            _ => 1,
        };
        match theirs {
            0 if ours != 1 && ours != 2 => self.valid += 1,
            1 | 2 if ours == theirs => self.refused += 1,
            _ => self.wrong += 1,
        }
    }

    pub fn run(&mut self) {
        for width in 1..=EXHAUSTIVE {
            (0..1u64 << (4 * width + 6)).for_each(|word| self.judge(Name::FromValue, width, word));
        }
        for width in 1..=15 {
            let mut random = Random(100 + width as u64);
            for _ in 0..AT_RANDOM {
                let word = nearly_valid(&mut random, width);
                let name = NAMES[2 + random.below(NAMES.len() - 2)];
                self.judge(name, width, word);
            }
        }
        for (name, width) in NAMES
            .into_iter()
            .flat_map(|name| BAD_WIDTHS.map(|width| (name, width)))
        {
            [0, 1, u64::MAX]
                .into_iter()
                .for_each(|word| self.judge(name, width, word));
        }
    }

    /// Prints what was seen, and answers whether the port judged every word as document 01 does.
    pub fn report(&self) -> bool {
        let Judgement {
            valid,
            refused,
            wrong,
        } = self;
        println!("refusals 1 and 2: {valid} words valid, {refused} refused, {wrong} judged otherwise than by document 01");
        *wrong == 0
    }
}

/// A valid word; one with another nibble or another bit; or any number at all.
fn nearly_valid(random: &mut Random, width: usize) -> u64 {
    let size = random.below(width + 1);
    let word = random.word(width, size);
    match random.below(8) {
        0 | 1 => word,
        2 | 3 | 4 => word ^ (random.next() & 15) << (4 * random.below(width + 1)),
        5 | 6 => word ^ 1 << random.below(64),
        _ => random.next(),
    }
}
