//! Both sides on the same calls: each valid word of small widths, words at random of the others, arguments in range and
//! far out of it.

use crate::calls::{arguments, some_call, takes_word, Answer, Call, Name, NAMES};
use crate::words::{every_word, Random};
use crate::{original, port};

/// Widths up to this one are compared on every valid word.
const EXHAUSTIVE: usize = 6;
/// So many words of each larger width.
const AT_RANDOM: usize = 30_000;
/// So many calls, at each width below 15, on words that the Rust itself left.
const ON_ITS_OWN: usize = 100_000;
/// Arguments far out of range, where a sum or a shift could overflow.
const FAR: [usize; 8] = [15, 16, 17, 64, 1 << 32, 1 << 60, usize::MAX - 1, usize::MAX];

/// What was seen of one call.
#[derive(Default, Clone)]
struct Seen {
    equal: u64,
    refused: u64,
    overflowed: u64,
    strayed: u64,
    unequal: u64,
    first_stray: Option<(Call, u64)>,
    first_overflow: Option<Call>,
    stray_widths: Vec<usize>,
}

pub struct Comparison {
    seen: Vec<Seen>,
    asserts: bool,
}

impl Comparison {
    pub fn new() -> Self {
        Self {
            seen: vec![Seen::default(); NAMES.len()],
            asserts: cfg!(debug_assertions),
        }
    }

    fn compare(&mut self, call: Call) {
        let ours = port::answer(&call);
        let seen = &mut self.seen[call.name as usize];
        if ours.number != 0 {
            if self.asserts {
                compare_refusal(&call, &ours, seen);
            }
            return;
        }
        match original::answer(&call) {
            Ok(theirs) if theirs == ours => seen.equal += 1,
            theirs => mismatch(&call, &ours, &theirs, seen),
        }
        let whole = original::whole_value(&call);
        if whole != ours.first {
            seen.strayed += 1;
            if !seen.stray_widths.contains(&call.width) {
                seen.stray_widths.push(call.width);
            }
            if seen
                .first_stray
                .is_none_or(|(c, _)| (call.width, call.word) < (c.width, c.word))
            {
                seen.first_stray = Some((call, whole));
            }
        }
    }

    /// Every call on this word with every argument of the list, or every pair of them.
    fn compare_all(&mut self, width: usize, word: u64, values: &[usize]) {
        for name in NAMES.into_iter().filter(|&name| takes_word(name)) {
            let firsts = if arguments(name) > 0 { values } else { &[0] };
            let seconds = if arguments(name) > 1 { values } else { &[0] };
            for &a in firsts {
                seconds.iter().for_each(|&b| {
                    self.compare(Call {
                        name,
                        width,
                        word,
                        a,
                        b,
                    })
                });
            }
        }
    }

    pub fn run(&mut self) {
        for width in 1..=15 {
            let values: Vec<usize> = (0..width + 2).chain(FAR).collect();
            let made = |name, a| Call {
                name,
                width,
                word: 0,
                a,
                b: 0,
            };
            self.compare(made(Name::Empty, 0));
            values
                .iter()
                .for_each(|&n| self.compare(made(Name::MakeSorted, n)));
            if width <= EXHAUSTIVE {
                every_word(width, &mut |word| self.compare_all(width, word, &values));
            } else {
                self.run_at_random(width, &values);
            }
            self.run_on_its_own(width);
        }
    }

    /// The Rust goes on with its own words, stray nibbles and all, and the port is given the same. At width 15 nothing strays.
    fn run_on_its_own(&mut self, width: usize) {
        let mut random = Random(200 + width as u64);
        let mut word = random.word(width, width / 2);
        for _ in 0..ON_ITS_OWN {
            let call = some_call(&mut random, width, word);
            self.compare(call);
            if port::answer(&call).number == 0 {
                word = original::word_after(&call);
            }
        }
    }

    /// A few arguments for each word, most of them in range.
    fn run_at_random(&mut self, width: usize, values: &[usize]) {
        let mut random = Random(width as u64);
        for _ in 0..AT_RANDOM {
            let size = random.below(width + 1);
            let word = random.word(width, size);
            let mut some: Vec<usize> = (0..3).map(|_| random.below(width)).collect();
            some.push(values[random.below(values.len())]);
            self.compare_all(width, word, &some);
        }
    }

    /// Prints what was seen, and answers whether the two sides agree.
    pub fn report(&self) -> bool {
        let build = if self.asserts {
            "debug assertions and overflow checks on"
        } else {
            "release, no assertions"
        };
        println!("Rust build: {build}");
        println!(
            "{:<24} {:>10} {:>10} {:>10} {:>10} {:>10}",
            "call", "equal", "refused", "overflow", "strayed", "unequal"
        );
        let mut all = Seen::default();
        for (name, seen) in NAMES.iter().zip(&self.seen) {
            print_line(&format!("{name:?}"), seen);
            all.equal += seen.equal;
            all.refused += seen.refused;
            all.overflowed += seen.overflowed;
            all.strayed += seen.strayed;
            all.unequal += seen.unequal;
        }
        print_line("all", &all);
        self.report_firsts();
        all.unequal == 0
    }
}

impl Comparison {
    /// The smallest inputs at which the Rust leaves stray bits or overflows.
    fn report_firsts(&self) {
        for seen in &self.seen {
            if let Some((call, whole)) = seen.first_stray {
                let ours = port::answer(&call).first;
                println!("first stray of {call:x?}: the Rust {whole:#x}, the port {ours:#x}");
                println!("  strayed at widths {:?}", seen.stray_widths);
            }
            if let Some(call) = seen.first_overflow {
                println!("first overflow: {call:x?}");
            }
        }
    }
}

fn print_line(name: &str, s: &Seen) {
    println!(
        "{name:<24} {:>10} {:>10} {:>10} {:>10} {:>10}",
        s.equal, s.refused, s.overflowed, s.strayed, s.unequal
    );
}

/// Where the port refuses, the Rust panics, and its words stand for the same number.
fn compare_refusal(call: &Call, ours: &Answer, seen: &mut Seen) {
    match original::answer(call) {
        Err(said) if said.contains("overflow") && ours.number == 4 => {
            seen.overflowed += 1;
            seen.first_overflow = seen.first_overflow.or(Some(*call));
        }
        Err(said) if original::number_of(&said) == ours.number => seen.refused += 1,
        theirs => mismatch(call, ours, &theirs, seen),
    }
}

fn mismatch(call: &Call, ours: &Answer, theirs: &Result<Answer, String>, seen: &mut Seen) {
    seen.unequal += 1;
    if seen.unequal <= 3 {
        println!("UNEQUAL {call:x?}: port {ours:x?}, Rust {theirs:x?}");
    }
}
