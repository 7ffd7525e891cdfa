# What it takes to build a C program with the archive and to run it: read in by examples/run and tests/c/run, which set `top`, the root of
# this repository, and `out`, a folder for what is built.
#
# compile and compile_cpp: Debian's compilers for x86-64. run_program: runs what they made, on another machine by Debian's qemu-user.
# find_archive: sets `archive`, and builds it first, unless LIBRARY names a folder that has it.

say() { printf '%s\n' "$*"; }
give_up() { printf '%s\n' "$*" >&2; exit 2; }

if [ "$(uname -m)" = x86_64 ]; then
    cc=gcc cxx=g++ libc=libc6-dev emulator=
else
    cc=x86_64-linux-gnu-gcc cxx=x86_64-linux-gnu-g++ libc=libc6-dev-amd64-cross emulator=qemu-x86_64
fi
warnings="-Wall -Wextra -pedantic -Werror"

# The Debian package of a compiler or of the emulator.
package() {
    case $1 in
    x86_64-linux-gnu-g*) echo "${1#x86_64-linux-gnu-}-x86-64-linux-gnu" ;;
    qemu-*) echo qemu-user ;;
    *) echo "$1" ;;
    esac
}

need() { command -v "$1" >/dev/null || give_up "$1 is not there: it is in Debian's package $(package "$1")"; }
need "$cc"
[ -z "$emulator" ] || need "$emulator"

compile() { # SOURCE PROGRAM
    # shellcheck disable=SC2086
    "$cc" -std=c11 -O2 $warnings -static -I "$top/include" "$1" "$archive" -o "$2" ||
        give_up "$1 was not built; where it is the C library that is missing, that is in Debian's package $libc"
}

compile_cpp() { # SOURCE OBJECT
    # shellcheck disable=SC2086
    "$cxx" -std=c++11 $warnings -I "$top/include" -c "$1" -o "$2"
}

run_program() { ${emulator:+"$emulator"} "$@"; }

find_archive() {
    mkdir -p "$out"
    if [ -z "${LIBRARY:-}" ]; then
        rt=$(command -v rt) || give_up "rt is not on the path; it comes with the Rattle kit"
        say "building the archive: rt lib in crates/firmware. It proves what is not proved yet, on a fresh clone for many minutes"
        (cd "$top/crates/firmware" && "$rt" lib) >"$out/lib.log" 2>&1 || {
            tail "$out/lib.log" >&2
            give_up "that FAILED; all that was said is in $out/lib.log"
        }
        LIBRARY=$top/crates/firmware/out
    fi
    archive=$LIBRARY/libfirmware.a
    [ -f "$archive" ] || give_up "there is no $archive"
}
