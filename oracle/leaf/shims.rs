//! What the Rust's `search.rs`, `key.rs` and `permuter.rs` name from other files of their crate: enough to compile them alone.
//! The leaf is ours: fifteen ikeys, length bytes and suffixes, and nothing that is written at the same time by others.

pub mod suffix {
    pub trait PermutationProvider {
        fn size(&self) -> usize;
        fn get(&self, i: usize) -> usize;
    }
}

pub mod leaf_trait {
    use super::policy::LeafPolicy;

    pub trait TreePermutation: Sized {
        type Raw;
        const WIDTH: usize;
        fn empty() -> Self;
        fn make_sorted(n: usize) -> Self;
        fn from_value(raw: Self::Raw) -> Self;
        fn value(&self) -> Self::Raw;
        fn size(&self) -> usize;
        fn get(&self, i: usize) -> usize;
        fn back(&self) -> usize;
        fn back_at_offset(&self, offset: usize) -> usize;
        fn insert_from_back(&mut self, i: usize) -> usize;
        fn insert_from_back_immutable(&self, i: usize) -> (Self, usize);
        fn swap_free_slots(&mut self, pos_i: usize, pos_j: usize);
        fn set_size(&mut self, n: usize);
        fn remove(&mut self, i: usize);
    }

    pub trait TreeLeafNode<P: LeafPolicy> {
        type Perm: TreePermutation;
        const WIDTH: usize;
    }
}

pub mod policy {
    pub trait LeafPolicy {}

    pub trait TreeAllocator<P: LeafPolicy> {}

    /// The one policy and allocator there is here.
    pub struct Plain;

    impl LeafPolicy for Plain {}
    impl TreeAllocator<Plain> for Plain {}
}

pub mod leaf15 {
    use super::leaf_trait::TreeLeafNode;
    use super::policy::LeafPolicy;
    use crate::permuter::Permuter;
    use std::marker::PhantomData;

    /// The length byte of an entry that is longer and stored whole, and the least one of a link.
    pub const KSUF_KEYLENX: u8 = 64;
    pub const LAYER_KEYLENX: u8 = 128;

    pub struct LeafNode15<P> {
        pub ikeys: [u64; 15],
        pub lengths: [u8; 15],
        pub suffixes: [Option<Vec<u8>>; 15],
        pub policy: PhantomData<P>,
    }

    impl<P: LeafPolicy> TreeLeafNode<P> for LeafNode15<P> {
        type Perm = Permuter<15>;
        const WIDTH: usize = 15;
    }

    impl<P> LeafNode15<P> {
        pub fn ikey_relaxed(&self, slot: usize) -> u64 {
            self.ikeys[slot]
        }
        pub fn keylenx_relaxed(&self, slot: usize) -> u8 {
            self.lengths[slot]
        }
        /// Every entry has a value or a link, as in the port.
        pub fn is_value_empty_relaxed(&self, _slot: usize) -> bool {
            false
        }
        pub fn ksuf(&self, slot: usize) -> Option<&[u8]> {
            self.suffixes[slot].as_deref()
        }
    }
}

pub mod tree {
    use std::marker::PhantomData;

    pub struct MassTreeGeneric<P, A>(pub PhantomData<(P, A)>);

    #[derive(Clone, Copy, Debug, PartialEq, Eq)]
    pub enum InsertSearchResultGeneric {
        Found { slot: usize },
        Conflict { slot: usize },
        Layer { slot: usize },
        NotFound { logical_pos: usize },
    }
}
