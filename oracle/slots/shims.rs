//! The two traits that the Rust's `permuter.rs` implements and that other files of its crate declare. Nothing here is
//! used: they only let that file compile alone.

#![allow(dead_code)]

pub mod leaf_trait {
    pub trait TreePermutation: Sized {
        type Raw;
        const WIDTH: usize;
        fn empty() -> Self;
        fn make_sorted(n: usize) -> Self;
        fn from_value(raw: Self::Raw) -> Self;
        fn value(&self) -> Self::Raw;
        fn size(&self) -> usize;
        fn get(&self, i: usize) -> usize;
        fn back(&self) -> usize;
        fn back_at_offset(&self, offset: usize) -> usize;
        fn insert_from_back(&mut self, i: usize) -> usize;
        fn insert_from_back_immutable(&self, i: usize) -> (Self, usize);
        fn swap_free_slots(&mut self, pos_i: usize, pos_j: usize);
        fn set_size(&mut self, n: usize);
        fn remove(&mut self, i: usize);
    }
}

pub mod suffix {
    pub trait PermutationProvider {
        fn size(&self) -> usize;
        fn get(&self, i: usize) -> usize;
    }
}
