#!/bin/sh
# bench.sh FOLDER: instructions for a call of read_ikey on a whole ikey, beside the Rust's in FOLDER/key.rs. Needs `rt` and valgrind.
set -eu
folder=$1
here=$(cd "$(dirname "$0")" && pwd)
root=$(cd "$here/../.." && pwd)
work=$(mktemp -d)
trap 'rm -rf "$work"' EXIT
(cd "$root/crates/firmware" && rt lib >/dev/null)
rustc --edition 2024 -O -A warnings --crate-type lib --crate-name key -o "$work/libkey.rlib" "$folder/key.rs"
rustc --edition 2024 -O --extern key="$work/libkey.rlib" -L "$root/crates/firmware/out" -l static=firmware -o "$work/bench" "$here/bench.rs"
counted() {
    valgrind --tool=callgrind --callgrind-out-file=/dev/null "$work/bench" "$1" "$2" 2>&1 | awk '/Collected/ { print $4 }'
}
for which in none ours rust; do
    few=$(counted "$which" 1000)
    many=$(counted "$which" 11000)
    echo "$which: $(((many - few) / 10000)) instructions a turn of the loop"
done
