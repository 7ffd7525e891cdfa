//! The guard that the Rust's `internode.rs` names for its parent pointer. Nothing here is called.
use std::sync::atomic::{AtomicPtr, Ordering};

pub trait Guard {
    fn protect<T>(&self, pointer: &AtomicPtr<T>, order: Ordering) -> *mut T;
}
