//! Puts searches to the Rust and prints a line for each. README.md says what stands in it. It lies beside `search.rs`, whose
//! calls are for its neighbours only.
use super::{InsertSearchResultGeneric as Outcome, MassTreeGeneric};
use crate::judgement::{refusal, slots};
use crate::key::Key;
use crate::leaf::{spelled, Asked, Leaf, LINK, LONGER};
use crate::leaf15::{LeafNode15, KSUF_KEYLENX, LAYER_KEYLENX};
use crate::permuter::Permuter;
use crate::policy::Plain;
use std::marker::PhantomData;

fn hex(bytes: &[u8]) -> String {
    bytes.iter().map(|b| format!("{b:02x}")).collect()
}

fn print(leaf: &Leaf, asked: &Asked, kind: char, said: [u64; 3]) {
    let [number, outcome, value] = said;
    let mut parts = vec![
        format!("{kind} {number:02x} {outcome:02x} {value:016x} {:016x}", leaf.word),
        format!("{:016x} {:016x} {:016x}", asked.ikey, asked.shift_count, asked.suffix_start),
        format!("{:04x} {:04x}", leaf.words_lent, leaf.bytes_lent),
        format!("{:04x} {}", asked.bytes.len(), hex(&spelled(&asked.bytes))),
    ];
    parts.extend(leaf.entries.iter().map(|e| format!("{:016x} {:02x} {:04x}", e.ikey, e.class, e.at)));
    parts.extend(leaf.cells.iter().map(|c| format!("{:04x} {}", c.length_word, hex(&c.start))));
    let line = parts.join(" ");
    assert_eq!(line.len(), 1469);
    println!("{line}");
}

/// The leaf as the Rust's search asks for it. A suffix is what the cell holds from the key's suffix start on.
fn theirs(leaf: &Leaf, start: usize) -> LeafNode15<Plain> {
    let used = slots(leaf.word);
    LeafNode15 {
        ikeys: leaf.entries.map(|e| e.ikey),
        lengths: leaf.entries.map(|e| match e.class {
            LONGER => KSUF_KEYLENX,
            LINK => LAYER_KEYLENX,
            class => class as u8,
        }),
        suffixes: std::array::from_fn(|slot| {
            let e = leaf.entries[slot];
            (used.contains(&slot) && e.class == LONGER)
                .then(|| leaf.cells[e.at as usize].key().get(start..).unwrap_or(&[]).to_vec())
        }),
        policy: PhantomData,
    }
}

fn search(leaf: &Leaf, asked: &Asked) -> Outcome {
    let mut key = Key::new(&asked.bytes);
    for _ in 0..asked.shift_count {
        key.shift();
    }
    let tree = MassTreeGeneric::<Plain, Plain>(PhantomData);
    let (node, word) = (theirs(leaf, key.suffix_start()), Permuter::<15>::from_value(leaf.word));
    let found = tree.search_for_insert_generic(&node, &key, &word);
    if !key.has_suffix() {
        assert_eq!(found, tree.search_for_insert_single_layer(&node, &key, &word));
    }
    found
}

/// One search: by document 01 alone where it is refused, else by the Rust. `d` and `r` stand for these.
pub fn record(leaf: &Leaf, asked: &Asked) {
    let number = refusal(leaf, asked);
    if number != 0 {
        return print(leaf, asked, 'd', [number, 0, leaf.word]);
    }
    let (outcome, value) = match search(leaf, asked) {
        Outcome::Found { slot } => (0, slot),
        Outcome::Conflict { slot } => (1, slot),
        Outcome::Layer { slot } => (2, slot),
        Outcome::NotFound { logical_pos } => (3, logical_pos),
    };
    print(leaf, asked, 'r', [0, outcome, value as u64]);
}
