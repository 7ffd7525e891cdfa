// Writes a sample of what the Rust's Key answers, for the program replay_key to compare with. One record of 64 bytes for each
// call; README.md says what is in it. The crate `key` is the Rust's key.rs, built unchanged and with debug assertions.
use key::Key;
use std::cmp::Ordering;
use std::io::Write;
use std::panic::{catch_unwind, AssertUnwindSafe};

// A key as the sample names it: length, kind (0: one byte throughout, else stirred from a seed), byte or seed, and one byte changed.
#[derive(Clone, Copy)]
struct Named {
    len: u16,
    kind: u8,
    seed: u8,
    at: u16,
    value: u8,
}

impl Named {
    fn bytes(self) -> Vec<u8> {
        let mut x = u64::from(self.seed);
        let mut out = Vec::new();
        for _ in 0..self.len {
            x = (x % 65537 * 75 + 74) % 65537;
            out.push(if self.kind == 0 { self.seed } else { (x % 256) as u8 });
        }
        if self.at < self.len {
            out[self.at as usize] = self.value;
        }
        out
    }

    fn write(self, out: &mut Vec<u8>) {
        out.extend(self.len.to_be_bytes());
        out.extend([self.kind, self.seed]);
        out.extend(self.at.to_be_bytes());
        out.push(self.value);
    }
}

// A number and three values: 0 and what was answered, or the refusal for a panic and what is handed back.
type Said = (u8, u64, u64, u64);

fn place(o: Ordering) -> u64 {
    match o {
        Ordering::Less => 0,
        Ordering::Equal => 1,
        Ordering::Greater => 2,
    }
}

fn numbers(k: &Key) -> (u64, u64, u64) {
    (k.ikey(), k.shift_count() as u64, k.suffix_start() as u64)
}

fn part(s: &[u8]) -> Said {
    let mut x: u64 = 1;
    for b in s {
        x = (x % 65521 * 31 + u64::from(*b) + 1) % 65521;
    }
    (0, s.len() as u64, x, 0)
}

// A move, or 8 and the numbers as they were where the Rust panics.
fn moved(k: Key, f: impl FnOnce(&mut Key)) -> Said {
    let (a, b, c) = numbers(&k);
    match catch_unwind(AssertUnwindSafe(|| {
        let mut m = k;
        f(&mut m);
        numbers(&m)
    })) {
        Ok((a, b, c)) => (0, a, b, c),
        Err(_) => (8, a, b, c),
    }
}

// Two keys with the Rust's own calls: compare at a layer, then shift both.
fn layers(a: &[u8], b: &[u8]) -> Ordering {
    let (mut x, mut y) = (Key::new(a), Key::new(b));
    loop {
        let o = x.compare(y.ikey(), y.current_len());
        if o != Ordering::Equal || !x.has_suffix() || !y.has_suffix() {
            return o;
        }
        x.shift();
        y.shift();
    }
}

fn answer(op: u8, a: &[u8], b: &[u8], layer: u8, x: u64, y: u64) -> Said {
    let one = |v: u64| (0, v, 0, 0);
    if op == 0 {
        return one(Key::read_ikey(a, x as usize));
    }
    if op == 19 {
        return one(place(Key::compare_ikey(x, y)));
    }
    if op == 20 {
        return match catch_unwind(|| layers(a, b)) {
            Ok(o) => {
                assert!(o == a.cmp(b), "the layers and the bytes disagree");
                one(place(o))
            }
            Err(_) => (7, 0, 0, 0),
        };
    }
    // a key that is too long panics at once: refusal 7, and its numbers are zeros
    let Ok(mut k) = catch_unwind(|| if layer % 2 == 0 { Key::new(a) } else { Key::from_suffix(a) }) else {
        return (7, 0, 0, 0);
    };
    for _ in 0..layer {
        k.shift();
    }
    match op {
        1 => moved(k, |_| ()),
        2 => one(k.len() as u64),
        3 => one(k.ikey()),
        4 => one(k.shift_count() as u64),
        5 => one(k.suffix_start() as u64),
        6 => one(k.current_len() as u64),
        7 => one(k.suffix_len() as u64),
        8 => one(k.is_empty().into()),
        9 => one(k.is_shifted().into()),
        10 => one(k.has_suffix().into()),
        11 => moved(k, |m| m.shift()),
        12 => moved(k, |m| m.shift_by(x as usize)),
        13 => moved(k, |m| m.unshift()),
        14 => moved(k, |m| m.unshift_all()),
        15 => part(k.suffix()),
        16 => part(k.full_data()),
        17 => one(place(k.compare(x, y as usize))),
        _ => one(place(k.suffix().cmp(b))),
    }
}

struct Sample {
    out: Vec<u8>,
    state: u64,
}

impl Sample {
    // xorshift
    fn next(&mut self, below: u64) -> u64 {
        self.state ^= self.state << 13;
        self.state ^= self.state >> 7;
        self.state ^= self.state << 17;
        (self.state >> 11) % below
    }

    fn pick<T: Copy>(&mut self, of: &[T]) -> T {
        of[self.next(of.len() as u64) as usize]
    }

    fn key(&mut self) -> Named {
        let len = if self.next(3) == 0 { self.next(259) as u16 } else { self.pick(&[0, 1, 2, 7, 8, 9, 15, 16, 17, 24, 25, 255, 256, 257]) };
        let seed = self.next(256) as u8;
        Named {
            len,
            kind: self.next(2) as u8,
            seed: self.pick(&[0, 0, 0x61, 0xff, seed]),
            at: if len == 0 || self.next(3) == 0 { 999 } else { self.pick(&[0, len - 1, len / 2, len / 8 * 8]) },
            value: self.pick(&[0, 1, 0xff, seed]),
        }
    }

    // a key close to another: the same bytes further, shorter, or with one byte changed
    fn near(&mut self, a: Named) -> Named {
        let len = match self.next(5) {
            0 => a.len + 1,
            1 => a.len.saturating_sub(1),
            2 => a.len / 8 * 8,
            3 => a.len + 8,
            _ => a.len,
        };
        let at = if self.next(2) == 0 { a.at } else { self.next(u64::from(len) + 1) as u16 };
        Named { len, at, value: self.pick(&[0, a.value, 0xff]), ..a }
    }

    fn record(&mut self, op: u8, a: Named, b: Named, layer: u8, x: u64, y: u64) {
        let (number, p, q, r) = answer(op, &a.bytes(), &b.bytes(), layer, x, y);
        let at = self.out.len();
        self.out.push(op);
        a.write(&mut self.out);
        b.write(&mut self.out);
        self.out.push(layer);
        self.out.extend(x.to_be_bytes());
        self.out.extend(y.to_be_bytes());
        self.out.push(number);
        self.out.extend([0; 7]);
        for v in [p, q, r] {
            self.out.extend(v.to_be_bytes());
        }
        assert_eq!(self.out.len(), at + 64);
    }

    fn args(&mut self, op: u8, a: Named, b: Named, layer: u8) -> (u64, u64) {
        let (len, from) = (u64::from(a.len), 8 * u64::from(layer));
        match op {
            0 => (self.pick(&[0, 1, 7, 8, len, len.saturating_sub(1), len.saturating_sub(8), len + 1, u64::MAX, u64::MAX - 7, 1 << 63]), 0),
            12 => (self.pick(&[0, 8, 16, 4, 9, 248, 256, len.saturating_sub(from), len.saturating_sub(from + 1) / 8 * 8, u64::MAX]), 0),
            17 => {
                let ikey = Key::read_ikey(&b.bytes(), from as usize);
                let mine = Key::read_ikey(&a.bytes(), from as usize);
                (self.pick(&[ikey, mine, mine, 0, u64::MAX]), self.pick(&[0, 1, 7, 8, 9, 10, 255, u64::MAX, len.saturating_sub(from)]))
            }
            19 => {
                let v = self.next(u64::MAX);
                (self.pick(&[v, 0, u64::MAX]), self.pick(&[v, v + 1, 0, u64::MAX]))
            }
            _ => (0, 0),
        }
    }
}

fn main() {
    std::panic::set_hook(Box::new(|_| ()));
    let count: usize = std::env::args().nth(1).map_or(4200, |n| n.parse().unwrap());
    let seed: u64 = std::env::args().nth(2).map_or(1, |n| n.parse().unwrap());
    let mut s = Sample { out: Vec::new(), state: seed.wrapping_mul(0x9e37_79b9_7f4a_7c15) | 1 };
    let whole = Named { len: 256, kind: 1, seed: 7, at: 255, value: 9 };
    // every layer of a key of 256 bytes, every call that takes a key; 31 shifts pass, and the 32nd does not
    for layer in 0..32 {
        for op in 2..19 {
            let (x, y) = s.args(op, whole, whole, layer);
            s.record(op, whole, Named { len: 248, ..whole }, layer, x, y);
        }
    }
    for i in s.out.len() / 64..count {
        let op = (i % 21) as u8;
        let a = s.key();
        let b = if s.next(4) == 0 { s.key() } else { s.near(a) };
        let layers = if a.len <= 256 && a.len > 8 { u64::from(a.len - 1) / 8 + 1 } else { 1 };
        let layer = if op < 2 || op > 18 { 0 } else { s.next(layers) as u8 };
        let (x, y) = s.args(op, a, b, layer);
        s.record(op, a, b, layer, x, y);
    }
    std::io::stdout().write_all(&s.out).unwrap();
}
