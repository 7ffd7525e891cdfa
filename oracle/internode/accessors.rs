//! The reads and writes of single fields that the Rust keeps in a module which is not in its text: each names one place.
use super::{InternodeNode, READ_ORD, RELAXED, WIDTH, WRITE_ORD};
use crate::nodeversion::NodeVersion;

impl InternodeNode {
    pub fn version(&self) -> &NodeVersion {
        &self.version
    }
    pub fn height(&self) -> u32 {
        u32::from(self.height)
    }
    pub fn children_are_leaves(&self) -> bool {
        self.height == 0
    }
    pub fn nkeys(&self) -> usize {
        self.nkeys.load(READ_ORD) as usize
    }
    pub fn nkeys_relaxed(&self) -> usize {
        self.nkeys.load(RELAXED) as usize
    }
    pub fn size(&self) -> usize {
        self.nkeys()
    }
    pub fn set_nkeys(&self, n: u8) {
        self.nkeys.store(n, WRITE_ORD);
    }
    pub fn inc_nkeys(&self) {
        self.set_nkeys(self.nkeys.load(RELAXED) + 1);
    }
    pub fn is_full(&self) -> bool {
        self.nkeys() >= WIDTH
    }
    pub fn ikey(&self, i: usize) -> u64 {
        self.ikey0[i].load(READ_ORD)
    }
    pub fn set_ikey(&self, i: usize, ikey: u64) {
        self.ikey0[i].store(ikey, WRITE_ORD);
    }
    pub fn set_ikey_relaxed(&self, i: usize, ikey: u64) {
        self.ikey0[i].store(ikey, RELAXED);
    }
    pub unsafe fn child_unguarded(&self, i: usize) -> *mut u8 {
        self.child[i].load(READ_ORD)
    }
    pub fn set_child(&self, i: usize, child: *mut u8) {
        self.child[i].store(child, WRITE_ORD);
    }
    pub fn assign(&self, p: usize, ikey: u64, right_child: *mut u8) {
        self.set_ikey(p, ikey);
        self.set_child(p + 1, right_child);
    }
}
