// Calls read_ikey on a whole ikey so many times: `ours` of this repository, `rust` of key.rs, or `none` for the loop alone.
use std::hint::black_box;

unsafe extern "C" {
    fn cherchivola_read_ikey(bytes: *const u8, len: usize, offset: usize) -> u64;
}

#[inline(never)]
extern "C" fn rust_read_ikey(bytes: *const u8, len: usize, offset: usize) -> u64 {
    key::Key::read_ikey(unsafe { std::slice::from_raw_parts(bytes, len) }, offset)
}

#[inline(never)]
extern "C" fn none(_: *const u8, _: usize, _: usize) -> u64 {
    0
}

fn main() {
    let which = std::env::args().nth(1).unwrap();
    let count: u64 = std::env::args().nth(2).unwrap().parse().unwrap();
    let bytes = [7u8; 24];
    let f: unsafe extern "C" fn(*const u8, usize, usize) -> u64 = match which.as_str() {
        "ours" => cherchivola_read_ikey,
        "rust" => rust_read_ikey,
        _ => none,
    };
    for _ in 0..count {
        black_box(unsafe { black_box(f)(black_box(bytes.as_ptr()), 24, black_box(8)) });
    }
}
