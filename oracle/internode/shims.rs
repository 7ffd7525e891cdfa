//! What the Rust's `internode.rs` and `ksearch/scalar.rs` name from other files of their crate: enough to compile them alone.

pub mod nodeversion {
    pub struct NodeVersion;

    impl NodeVersion {
        pub fn new(_leaf: bool) -> Self {
            Self
        }
        pub fn new_for_split(_source: &Self) -> Self {
            Self
        }
        pub fn mark_root(&self) {}
        pub fn is_root(&self) -> bool {
            false
        }
    }
}

pub mod leaf_trait {
    use super::nodeversion::NodeVersion;
    use std::cmp::Ordering;

    pub trait TreeInternode: Sized {
        const WIDTH: usize;
        fn version(&self) -> &NodeVersion;
        fn height(&self) -> u32;
        fn children_are_leaves(&self) -> bool;
        fn nkeys(&self) -> usize;
        fn nkeys_relaxed(&self) -> usize;
        fn set_nkeys(&self, n: u8);
        fn inc_nkeys(&self);
        fn is_full(&self) -> bool;
        fn ikey(&self, i: usize) -> u64;
        fn ikey_relaxed(&self, i: usize) -> u64;
        fn ikey_ptr(&self) -> *const u64;
        fn set_ikey(&self, i: usize, key: u64);
        fn compare_key(&self, ikey: u64, p: usize) -> Ordering;
        fn find_insert_position(&self, ikey: u64) -> usize;
        fn child(&self, i: usize) -> *mut u8;
        fn set_child(&self, i: usize, child: *mut u8);
        fn assign(&self, p: usize, ikey: u64, child: *mut u8);
        fn insert_key_and_child(&self, p: usize, ikey: u64, child: *mut u8);
        fn parent(&self) -> *mut u8;
        fn set_parent(&self, parent: *mut u8);
        fn is_root(&self) -> bool;
        fn shift_from(&self, to: usize, source: &Self, from: usize, count: usize);
        fn split_into(
            &self,
            right: &mut Self,
            right_pointer: *mut Self,
            p: usize,
            ikey: u64,
            child: *mut u8,
        ) -> (u64, bool);
    }
}

pub mod policy {
    pub trait LeafPolicy {}
}

pub mod leaf15 {
    pub const WIDTH_15: usize = 15;
}

pub struct LeafNode15<P>(std::marker::PhantomData<P>);

impl<P> LeafNode15<P> {
    pub fn ikey(&self, _i: usize) -> u64 {
        0
    }
}
