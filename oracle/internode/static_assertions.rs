//! The one macro that the Rust's `internode.rs` takes from this crate.
#[macro_export]
macro_rules! const_assert_eq {
    ($a:expr, $b:expr $(,)?) => {
        const _: () = assert!($a == $b);
    };
}
