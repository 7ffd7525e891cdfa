//! Puts calls to the Rust and prints a line for each: what was asked, and what it answered.
//!
//! A line has 70 numbers of 16 hex digits: call, number, p, ikey, child, value; then the node (n, 15 ikeys, 16 children),
//! then the node that is handed back.

use crate::internode::InternodeNode;
use crate::leaf_trait::TreeInternode;
use crate::scalar::Scalar;
use std::panic::{catch_unwind, set_hook, AssertUnwindSafe};
use std::sync::Mutex;

static SAID: Mutex<String> = Mutex::new(String::new());

#[derive(Clone, Copy, PartialEq)]
struct Node {
    n: u64,
    ikeys: [u64; 15],
    children: [u64; 16],
}

const FIND: u64 = 0;
const COMPARE: u64 = 1;
const CHILD: u64 = 2;
const INSERT: u64 = 3;
const SPLIT_LEFT: u64 = 4;
const SPLIT_RIGHT: u64 = 5;

fn theirs(node: &Node) -> Box<InternodeNode> {
    let made = InternodeNode::new(0);
    made.set_nkeys(u8::try_from(node.n).expect("n"));
    for (i, &k) in node.ikeys.iter().enumerate() {
        made.set_ikey(i, k);
    }
    for (i, &c) in node.children.iter().enumerate() {
        made.set_child(i, c as usize as *mut u8);
    }
    made
}

fn read(node: &InternodeNode) -> Node {
    Node {
        n: node.nkeys() as u64,
        ikeys: std::array::from_fn(|i| node.ikey(i)),
        children: std::array::from_fn(|i| node.child(i) as usize as u64),
    }
}

/// The places not in use set to zero, as the port's split leaves them; the Rust leaves what stood there.
fn cleared(mut node: Node) -> Node {
    let n = node.n as usize;
    node.ikeys[n..].fill(0);
    node.children[n + 1..].fill(0);
    node
}

/// Document 01's refusals that the Rust does not have: 3 for the node, 9 for an insertion that breaks the order.
fn in_order(node: &Node) -> bool {
    node.n <= 15 && node.ikeys[..node.n as usize].windows(2).all(|w| w[0] < w[1])
}

fn breaks_order(node: &Node, p: u64, ikey: u64) -> bool {
    let (n, p) = (node.n as usize, p as usize);
    (p > 0 && node.ikeys[p - 1] >= ikey) || (p < n && node.ikeys[p] <= ikey)
}

struct Asked {
    call: u64,
    p: u64,
    ikey: u64,
    child: u64,
    node: Node,
}

fn print(asked: &Asked, number: u64, value: u64, back: &Node) {
    let mut fields = vec![asked.call, number, asked.p, asked.ikey, asked.child, value];
    for node in [&asked.node, back] {
        fields.push(node.n);
        fields.extend(node.ikeys);
        fields.extend(node.children);
    }
    let words: Vec<String> = fields.iter().map(|f| format!("{f:016x}")).collect();
    println!("{}", words.join(" "));
}

fn value_of(asked: &Asked, node: &InternodeNode) -> u64 {
    match asked.call {
        FIND => node.find_insert_position(asked.ikey) as u64,
        COMPARE => (node.compare_key(asked.ikey, asked.p as usize) as i8 + 1) as u64,
        CHILD => node.child(Scalar::upper_bound_internode_scalar(asked.ikey, node)) as usize as u64,
        _ => {
            node.insert_key_and_child(asked.p as usize, asked.ikey, asked.child as usize as *mut u8);
            0
        }
    }
}

/// One call. The Rust does not look at the order of a node, nor, in `compare_key`, whether p is below n.
fn record(asked: &Asked) {
    let node = &asked.node;
    if !in_order(node) {
        return print(asked, 3, 0, node);
    }
    if asked.call == COMPARE && asked.p >= node.n {
        return print(asked, 4, 0, node);
    }
    let theirs = theirs(node);
    match catch_unwind(AssertUnwindSafe(|| value_of(asked, &theirs))) {
        Ok(_) if asked.call == INSERT && breaks_order(node, asked.p, asked.ikey) => print(asked, 9, 0, node),
        Ok(value) => print(asked, 0, value, &read(&theirs)),
        Err(_) => {
            let said = SAID.lock().unwrap().clone();
            let full = said.contains("node is full");
            assert!(full || said.contains("out of bounds"), "{said}");
            // it looks at the fullness first; document 01 gives the lower number
            let number = if full && asked.p <= node.n { 5 } else { 4 };
            print(asked, number, 0, node);
        }
    }
}

fn record_split(node: &Node, p: u64, ikey: u64, child: u64) {
    let left = theirs(node);
    let mut right = InternodeNode::new(0);
    let pointer = &raw mut *right;
    let (up, _) = left.split_into(&mut right, pointer, p as usize, ikey, child as usize as *mut u8);
    for (call, half) in [(SPLIT_LEFT, &left), (SPLIT_RIGHT, &right)] {
        print(&Asked { call, p, ikey, child, node: *node }, 0, up, &cleared(read(half)));
    }
}

/// n ikeys from `first` on, `step` apart; places not in use hold numbers that must stay.
fn node(n: u64, first: u64, step: u64) -> Node {
    Node {
        n,
        ikeys: std::array::from_fn(|i| {
            let i = i as u64;
            if i < n { first.wrapping_add(i.wrapping_mul(step)) } else { 0xdead_0000 + i }
        }),
        children: std::array::from_fn(|i| 0x100 + 7 * i as u64),
    }
}

pub fn run() {
    set_hook(Box::new(|info| {
        *SAID.lock().unwrap() = info.payload_as_str().unwrap_or("").to_string();
    }));
    let top = u64::MAX;
    let nodes = [
        node(0, 0, 0),
        node(1, 0, 1),
        node(1, top, 1),
        node(3, 10, 10),
        node(4, 5, 1 << 60),
        node(7, 2, 2),
        node(8, 0, 1),
        node(14, 100, 100),
        node(15, top - 14 * 3, 3),
        node(15, 16, 16),
    ];
    let ask = |call, node: &Node, p, ikey, child| record(&Asked { call, p, ikey, child, node: *node });
    for x in &nodes {
        let n = x.n as usize;
        let mut targets = vec![0, top];
        for &k in [x.ikeys.first(), x.ikeys.get(n / 2), x.ikeys.get(n.max(1) - 1)].into_iter().flatten() {
            targets.extend([k.wrapping_sub(1), k, k.wrapping_add(1)]);
        }
        targets.sort_unstable();
        targets.dedup();
        for &t in &targets {
            ask(FIND, x, 0, t, 0);
            ask(CHILD, x, 0, t, 0);
        }
        for p in [0, x.n / 2, x.n.wrapping_sub(1), x.n, 15, 1 << 60, top] {
            ask(COMPARE, x, p, x.ikeys[n / 2], 0);
            if p <= x.n {
                let here = if p < x.n { x.ikeys[p as usize] } else { top };
                ask(INSERT, x, p, here, 0x77);
                ask(INSERT, x, p, here.wrapping_sub(1), 0x77);
            } else {
                ask(INSERT, x, p, 1, 0x77);
            }
        }
    }
    for p in 0..=15u64 {
        let x = node(15, 16, 16);
        record_split(&x, p, 16 * p + 8, 0x99);
    }
    // nodes that are not in order
    let mut bad = vec![node(3, 10, 0), node(2, top, 1), node(15, 5, 0)];
    let mut late = node(15, 16, 16);
    late.ikeys[14] = late.ikeys[13];
    bad.push(late);
    let mut many = node(15, 16, 16);
    many.n = 16;
    bad.push(many);
    many.n = top;
    bad.push(many);
    for x in &bad {
        for call in [FIND, COMPARE, CHILD, INSERT] {
            ask(call, x, 20, 12, 0x77);
            ask(call, x, 1, 12, 0x77);
        }
    }
}
