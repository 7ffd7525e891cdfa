//! A fixed list of answers for the program `replay_slots`: the Rust's own, and a few that only document 01 gives.
//!
//! A line has 101 bytes with its line feed: the kind, the call's code, the refusal's number, and then width, word, the two
//! arguments, the first, the second and the third value, all in lower-case hex. Kinds: `v` values of the Rust, `p` a panic of the
//! Rust, `d` document 01 alone (refusals 1 and 2, of which the Rust knows nothing).

use crate::calls::{arguments, refused, some_call, takes_word, Answer, Call, Name, NAMES};
use crate::original;
use crate::words::{cleared, is_valid, pack, size_of, slot_at, Random};
use std::collections::HashSet;
use std::fmt::Write;

const FAR: usize = usize::MAX;

pub struct List {
    text: String,
    told: HashSet<Call>,
}

impl List {
    /// The whole list.
    pub fn recorded() -> String {
        let mut list = List {
            text: String::new(),
            told: HashSet::new(),
        };
        let mut random = Random(2026);
        for width in 1..=15 {
            list.made(width);
            for size in sizes(width) {
                list.at_edges(width, random.word(width, size));
                list.inside(width, random.word(width, size));
            }
        }
        for width in 1..=14 {
            list.on_its_own(width, &mut random);
        }
        list.bad_widths();
        for width in [1, 7, 14, 15] {
            list.bad_words(width);
        }
        list.text
    }

    fn line(&mut self, kind: char, call: Call, answer: Answer) {
        if !self.told.insert(call) {
            return;
        }
        let Answer {
            number,
            first,
            second,
            third,
        } = answer;
        let Call {
            name,
            width,
            word,
            a,
            b,
        } = call;
        let name = name as u8;
        writeln!(self.text, "{kind} {name:x} {number:x} {width:016x} {word:016x} {a:016x} {b:016x} {first:016x} {second:04x} {third:04x}")
            .expect("text grows");
    }

    /// What the Rust answers, or that it panics.
    fn ask(&mut self, name: Name, width: usize, word: u64, a: usize, b: usize) {
        let call = Call {
            name,
            width,
            word,
            a,
            b,
        };
        match original::answer(&call) {
            Ok(answer) => self.line('v', call, answer),
            Err(said) => self.line('p', call, refused(&call, original::number_of(&said))),
        }
    }

    fn made(&mut self, width: usize) {
        self.ask(Name::Empty, width, 0, 0, 0);
        for n in (0..=width + 1).chain([FAR]) {
            self.ask(Name::MakeSorted, width, 0, n, 0);
        }
    }

    /// Every call on one valid word, at the edges of its size and of the width.
    fn at_edges(&mut self, width: usize, word: u64) {
        let size = size_of(word);
        for name in [Name::FromValue, Name::Size, Name::Back] {
            self.ask(name, width, word, 0, 0);
        }
        for i in [0, width / 2, width - 1, width, FAR] {
            self.ask(Name::Get, width, word, i, 0);
            self.ask(Name::SetSize, width, word, i, 0);
        }
        self.ask(Name::SetSize, width, word, width + 1, 0);
        for offset in [0, (width - size).wrapping_sub(1), width - size, FAR] {
            self.ask(Name::BackAtOffset, width, word, offset, 0);
        }
        for i in [0, size / 2, size.wrapping_sub(1), size, size + 1, FAR] {
            self.ask(Name::InsertFromBack, width, word, i, 0);
            self.ask(Name::Remove, width, word, i, 0);
            self.ask(Name::RemoveToBack, width, word, i, 0);
        }
        let held = [0, size / 2, size, width - 1].map(|i| slot_at(word, i.min(width - 1)));
        for slot in held.into_iter().chain([width, FAR]) {
            self.ask(Name::RemoveSlot, width, word, slot, 0);
        }
        for (i, j) in [
            (0, width - 1),
            (width - 1, width / 2),
            (size / 2, size / 2),
            (width, 0),
            (0, FAR),
        ] {
            self.ask(Name::Exchange, width, word, i, j);
        }
        for (i, j) in [
            (size, width - 1),
            (width - 1, size),
            (size, size),
            (0, size),
            (size, width),
            (size, FAR),
        ] {
            self.ask(Name::SwapFreeSlots, width, word, i, j);
        }
        for (i, j) in [
            (0, 1),
            (size / 2, width - 1),
            (0, width),
            (width, width),
            (size, size),
            (1, 0),
            (0, width + 1),
            (FAR, FAR),
        ] {
            self.ask(Name::Rotate, width, word, i, j);
        }
    }

    /// The calls that move slots on another word, in the middle of its range: most are accepted.
    fn inside(&mut self, width: usize, word: u64) {
        let size = size_of(word);
        for i in [size / 3, 2 * size / 3] {
            self.ask(Name::InsertFromBack, width, word, i, 0);
            self.ask(Name::Remove, width, word, i, 0);
            self.ask(Name::RemoveToBack, width, word, i, 0);
            self.ask(
                Name::RemoveSlot,
                width,
                word,
                slot_at(word, i.min(width - 1)),
                0,
            );
            self.ask(Name::Exchange, width, word, i, 2 * width / 3);
            self.ask(Name::Rotate, width, word, i, (i + width) / 2);
            self.ask(Name::Get, width, word, i.min(width - 1), 0);
        }
        self.ask(Name::SwapFreeSlots, width, word, size, (size + width) / 2);
        self.ask(Name::BackAtOffset, width, word, (width - size) / 2, 0);
    }

    /// A run of calls on the Rust's own words, stray nibbles and all: each call is put to the word that the one before left.
    fn on_its_own(&mut self, width: usize, random: &mut Random) {
        let mut word = random.word(width, width / 2);
        for _ in 0..48 {
            let Call { name, a, b, .. } = some_call(random, width, word);
            let b = if arguments(name) > 1 { b } else { 0 };
            let a = if arguments(name) > 0 { a } else { 0 };
            let call = Call {
                name,
                width,
                word,
                a,
                b,
            };
            self.ask(name, width, word, a, b);
            word = original::word_after(&call);
        }
    }

    /// Refusal 1: the width is not 1 to 15.
    fn bad_widths(&mut self) {
        for name in NAMES
            .into_iter()
            .filter(|&name| name != Name::InsertFromBackImmutable)
        {
            for width in [0, 16, FAR] {
                let word = if takes_word(name) { pack(0, &[0]) } else { 0 };
                let call = Call {
                    name,
                    width,
                    word,
                    a: 0,
                    b: 0,
                };
                self.line('d', call, refused(&call, 1));
            }
        }
    }

    /// Refusal 2: a slot twice, a slot and a size beyond the width, and each with stray bits above it, which come back as they were given;
    /// whatever the arguments are.
    fn bad_words(&mut self, width: usize) {
        let sorted: Vec<usize> = (0..width).collect();
        let good = pack(width / 2, &sorted);
        let mut bad = vec![good | 15, good ^ 1 << 4, good ^ 8 << (4 * width), u64::MAX];
        if width < 15 {
            bad.extend([good ^ 1 << 4 | 1 << (4 * width + 4), good | 15 | 1 << 63]);
        }
        if width > 1 {
            bad.push(0);
        }
        for word in bad {
            if is_valid(cleared(word, width), width) {
                continue;
            }
            for name in NAMES
                .into_iter()
                .filter(|&name| takes_word(name) && name != Name::InsertFromBackImmutable)
            {
                let a = if arguments(name) == 1 { FAR } else { 0 };
                let call = Call {
                    name,
                    width,
                    word,
                    a,
                    b: 0,
                };
                self.line('d', call, refused(&call, 2));
            }
        }
    }
}

/// Empty, one, half, one free, full: each once.
fn sizes(width: usize) -> Vec<usize> {
    let mut sizes = vec![0, 1, width / 2, width - 1, width];
    sizes.sort();
    sizes.dedup();
    sizes
}
