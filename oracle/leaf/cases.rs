//! The leaves and keys of the list: the same in every run.
use crate::generic::record::record;
use crate::leaf::{leaf, Asked, Kept, Leaf, Random, LINK, LONGER, SPELLED};

/// The bytes above a layer that its keys share.
const ABOVE: &[u8] = b"plot 07;frame 3:";

fn whole(layer: usize, bytes: &[u8]) -> Kept {
    Kept::Whole([&ABOVE[..8 * layer], bytes].concat())
}

fn link(bytes: &[u8; 8]) -> Kept {
    Kept::Link(u64::from_be_bytes(*bytes))
}

/// Keys that differ only in zero bytes at their end: lengths `from` to 8, with one ikey.
fn tails(layer: usize, start: &[u8], from: usize) -> Vec<Kept> {
    (from..=8)
        .map(|n| {
            let mut bytes = start.to_vec();
            bytes.resize(n, 0);
            whole(layer, &bytes)
        })
        .collect()
}

/// What leaves of each size hold at a layer, before slots and cells are dealt out.
fn contents(layer: usize) -> Vec<Vec<Kept>> {
    let mixed = vec![
        whole(layer, b"a"),
        whole(layer, b"a\0"),
        whole(layer, b"abcdefghij"),
        link(b"hillside"),
        whole(layer, b"hillside"),
        whole(layer, b"oak"),
        whole(layer, &[0xfe; 9]),
    ];
    let mut one_ikey = tails(layer, b"", usize::from(layer > 0));
    one_ikey.push(whole(layer, b"\0\0\0\0\0\0\0\0\x01"));
    one_ikey.extend(tails(layer, b"a", 1).into_iter().take(2 + usize::from(layer > 0)));
    one_ikey.extend([link(b"a\0\0\0\0\0\0\0"), link(b"\xff\xff\xff\xff\xff\xff\xff\xff")]);
    let mut full = tails(layer, b"a", 1);
    full.push(whole(layer, b"a\0\0\0\0\0\0\0\0"));
    full.extend([link(b"\0\0\0\0\0\0\0\0"), whole(layer, b"b"), link(b"bbbbbbbb"), whole(layer, b"c\0")]);
    full.extend([whole(layer, b"cameraEE"), whole(layer, b"cameraEE1")]);
    vec![
        vec![],
        vec![whole(layer, b"a\0")],
        vec![whole(layer, b"abcdefghij")],
        vec![link(b"abcdefgh")],
        mixed,
        one_ikey,
        full,
    ]
}

/// Keys at and around an entry of a leaf: its own bytes, cut, longer, with a zero byte more, with another end.
fn around(kept: &Kept, layer: usize) -> Vec<Vec<u8>> {
    let bytes = match kept {
        Kept::Whole(bytes) => bytes.clone(),
        Kept::Link(ikey) => [&ABOVE[..8 * layer], &ikey.to_be_bytes()].concat(),
    };
    let mut keys = vec![bytes.clone()];
    for more in [&b"\0"[..], b"k", b"\0\0"] {
        keys.push([&bytes[..], more].concat());
    }
    if bytes.len() > 8 * layer + 1 {
        keys.push(bytes[..bytes.len() - 1].to_vec());
    }
    if bytes.len() > 8 * layer {
        let mut other = bytes;
        *other.last_mut().unwrap() ^= 1;
        keys.push(other);
    }
    keys
}

/// The keys that a leaf is asked for: those at its entries, one that is greatest, and so many of the others that there are `most`.
fn drawn(kept: &[Kept], layer: usize, most: usize, random: &mut Random) -> Vec<Vec<u8>> {
    let mut own = vec![[&ABOVE[..8 * layer], &[0xff; 10]].concat()];
    let mut others = Vec::new();
    for k in kept {
        let keys = around(k, layer);
        own.push(keys[0].clone());
        if let Kept::Link(_) = k {
            own.push(keys[2].clone());
        }
        others.extend(keys);
    }
    for bytes in [&b"a"[..], b"a\0", b"\0", b"hillside/", b"abcdefghik"] {
        others.push([&ABOVE[..8 * layer], bytes].concat());
    }
    if layer == 0 {
        others.push(vec![]);
    }
    own.sort_unstable();
    own.dedup();
    others.retain(|k| !own.contains(k) && k.len() <= SPELLED && (layer == 0 || k.len() > 8 * layer));
    others.sort_unstable();
    others.dedup();
    while own.len() < most && !others.is_empty() {
        own.push(others.swap_remove(random.below(others.len())));
    }
    own
}

/// A leaf of each kind at a layer, asked for keys around its entries and for a few others.
fn searches(layer: usize, most: usize, random: &mut Random) {
    for kept in contents(layer) {
        let made = leaf(&kept, layer, random);
        let most = if kept.len() > 1 { most } else { 8 };
        for key in drawn(&kept, layer, most, random) {
            record(&made, &Asked::at(&key, layer));
        }
    }
}

/// Keys of 256 bytes, at the first and at the last layer; an entry whose cell ends before the suffix starts.
fn edges(random: &mut Random) {
    let longest = [&b"abcdefgh"[..], &[0; 248]].concat();
    let made = leaf(&[Kept::Whole(longest.clone()), whole(0, b"abc")], 0, random);
    for length in [256, 255, 9, 8] {
        record(&made, &Asked::at(&longest[..length], 0));
    }
    let last = leaf(&[Kept::Whole(longest.clone()), Kept::Whole(longest[..255].to_vec())], 31, random);
    for length in [256, 255, 254] {
        record(&last, &Asked::at(&longest[..length], 31));
    }
    let mut early = leaf(&[whole(0, b"abcdefghij")], 0, random);
    let at = early.entries[(early.word >> 4) as usize % 16].at as usize;
    early.cells[at].length_word = 6;
    record(&early, &Asked::at(b"abcdefghij", 0));
}

fn in_use(made: &Leaf, i: usize) -> usize {
    (made.word >> (4 * i + 4)) as usize % 16
}

/// Leaves that refusal 3 is for, each with one thing wrong.
fn bad_leaves(made: &Leaf) -> Vec<Leaf> {
    let change = |f: &dyn Fn(&mut Leaf)| {
        let mut bad = made.clone();
        f(&mut bad);
        bad
    };
    let (first, second) = (in_use(made, 0), in_use(made, 1));
    let cell = made.entries[first].at as usize;
    vec![
        change(&|l| l.word ^= 1 << 60),
        change(&|l| l.word = 0xf),
        change(&|l| l.word |= 0xf0),
        change(&|l| l.entries[first].class = LINK + 1),
        change(&|l| l.entries[first].at = 15),
        change(&|l| l.entries[first].at = 0xffff),
        change(&|l| l.cells[cell].length_word = 0),
        change(&|l| l.cells[cell].length_word = 258),
        change(&|l| l.entries[second] = l.entries[first]),
        change(&|l| l.entries.swap(first, second)),
        change(&|l| {
            l.entries[first].class = LINK;
            l.entries[second].ikey = l.entries[first].ikey;
            l.entries[second].class = LONGER;
        }),
    ]
}

/// Keys that refusal 7 is for.
fn bad_keys() -> Vec<Asked> {
    let good = Asked::at(b"plot 07;frame", 1);
    vec![
        Asked { bytes: vec![0; 257], ikey: 0, shift_count: 0, suffix_start: 8 },
        Asked { ikey: good.ikey + 1, ..good.clone() },
        Asked { suffix_start: 16, ..good.clone() },
        Asked { shift_count: 2, ikey: 0, ..good.clone() },
        Asked { shift_count: 0, ..good.clone() },
        Asked { shift_count: 1 << 61, ..good.clone() },
        Asked { shift_count: u64::MAX, suffix_start: u64::MAX, ..good },
    ]
}

/// Refusals, alone and two at a time; and what is wrong only in a slot not in use, which is none.
fn refusals(random: &mut Random) {
    let kept = [whole(0, b"a"), whole(0, b"a\0"), link(b"hillside"), whole(0, b"abcdefghij")];
    let made = leaf(&kept, 0, random);
    let key = Asked::at(b"abcdefghij", 0);
    let lent = [(29, 3840), (0, 0), (30, 3839), (30, 4096), (28, 3840), (1, 256)];
    for bad in bad_leaves(&made) {
        record(&bad, &key);
        record(&bad, &bad_keys()[1]);
        record(&Leaf { words_lent: 29, ..bad }, &key);
    }
    for bad in bad_keys() {
        record(&made, &bad);
        record(&Leaf { bytes_lent: 256, ..made.clone() }, &bad);
    }
    for (words_lent, bytes_lent) in lent {
        record(&Leaf { words_lent, bytes_lent, ..made.clone() }, &key);
    }
    record(&Leaf { words_lent: 32, bytes_lent: 4096, ..made.clone() }, &key);
    record(&made, &key);
}

pub fn run() {
    let mut random = Random(0x9e37_79b9_7f4a_7c15);
    searches(0, 36, &mut random);
    searches(1, 26, &mut random);
    searches(2, 22, &mut random);
    edges(&mut random);
    refusals(&mut random);
}
