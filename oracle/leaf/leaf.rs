//! A leaf, its cells and a key, as a line of the list spells them out.
use crate::key::Key;

/// How many bytes of a key or a cell a line spells out; the others are zero.
pub const SPELLED: usize = 28;

pub const LONGER: u64 = 9;
pub const LINK: u64 = 10;

#[derive(Clone, Copy)]
pub struct Entry {
    pub ikey: u64,
    pub class: u64,
    pub at: u64,
}

/// A cell: its length + 1, or 0 for a free one, and the first bytes of its key.
#[derive(Clone, Copy)]
pub struct Cell {
    pub length_word: u64,
    pub start: [u8; SPELLED],
}

#[derive(Clone)]
pub struct Leaf {
    pub word: u64,
    pub entries: [Entry; 15],
    pub cells: [Cell; 15],
    pub words_lent: usize,
    pub bytes_lent: usize,
}

#[derive(Clone)]
pub struct Asked {
    pub bytes: Vec<u8>,
    pub ikey: u64,
    pub shift_count: u64,
    pub suffix_start: u64,
}

/// What an entry in order is made of: a key stored whole, or a link with an ikey.
#[derive(Clone)]
pub enum Kept {
    Whole(Vec<u8>),
    Link(u64),
}

pub struct Random(pub u64);

impl Random {
    pub fn below(&mut self, n: usize) -> usize {
        self.0 ^= self.0 << 13;
        self.0 ^= self.0 >> 7;
        self.0 ^= self.0 << 17;
        ((self.0 >> 11) % n as u64) as usize
    }

    /// 0 to 14 in some order.
    pub fn order(&mut self) -> [usize; 15] {
        let mut order: [usize; 15] = std::array::from_fn(|i| i);
        for i in (1..15).rev() {
            order.swap(i, self.below(i + 1));
        }
        order
    }
}

impl Asked {
    /// The key's numbers at a layer, by the Rust.
    pub fn at(bytes: &[u8], layer: usize) -> Self {
        let mut key = Key::new(bytes);
        for _ in 0..layer {
            key.shift();
        }
        Self {
            bytes: bytes.to_vec(),
            ikey: key.ikey(),
            shift_count: key.shift_count() as u64,
            suffix_start: key.suffix_start() as u64,
        }
    }
}

pub fn spelled(bytes: &[u8]) -> [u8; SPELLED] {
    assert!(bytes.iter().skip(SPELLED).all(|&b| b == 0));
    std::array::from_fn(|i| bytes.get(i).copied().unwrap_or(0))
}

impl Cell {
    pub fn key(&self) -> Vec<u8> {
        let mut key = self.start.to_vec();
        key.resize((self.length_word.max(1) - 1) as usize, 0);
        key
    }
}

fn ikey_and_class(kept: &Kept, layer: usize) -> (u64, u64) {
    match kept {
        Kept::Whole(bytes) => {
            let rest = bytes.len().saturating_sub(8 * layer) as u64;
            (Key::read_ikey(bytes, 8 * layer), rest.min(LONGER))
        }
        Kept::Link(ikey) => (*ikey, LINK),
    }
}

/// A leaf of these entries at a layer: sorted, in slots and cells in some order. Slots not in use hold what no entry may be.
pub fn leaf(kept: &[Kept], layer: usize, random: &mut Random) -> Leaf {
    let mut sorted = kept.to_vec();
    sorted.sort_by_key(|k| {
        let (ikey, class) = ikey_and_class(k, layer);
        (ikey, class.min(LONGER))
    });
    let (slots, cells) = (random.order(), random.order());
    let free = Cell { length_word: 0, start: [0; SPELLED] };
    let junk = Entry { ikey: 0x6100_0000_0000_0000, class: 0x5d, at: 0x3e7 };
    let mut made = Leaf { word: kept.len() as u64, entries: [junk; 15], cells: [free; 15], words_lent: 30, bytes_lent: 3840 };
    for (i, &slot) in slots.iter().enumerate() {
        made.word |= (slot as u64) << (4 * i + 4);
    }
    for (i, k) in sorted.iter().enumerate() {
        let (ikey, class) = ikey_and_class(k, layer);
        let at = match k {
            Kept::Whole(bytes) => {
                made.cells[cells[i]] = Cell { length_word: bytes.len() as u64 + 1, start: spelled(bytes) };
                cells[i] as u64
            }
            Kept::Link(_) => 200 + i as u64,
        };
        made.entries[slots[i]] = Entry { ikey, class, at };
    }
    made
}
