#!/bin/sh
# check.sh LIBDIR: tests the crate with the library in the folder LIBDIR: the archive and the shared library, the examples in the
# documentation, and those of examples/rust. It needs cargo and no network, and writes to the folder out alone. Without cargo it is
# skipped with a line.
set -eu
[ $# = 1 ] || { sed -n '2,/^[^#]/s/^# \{0,1\}//p' "$0" >&2; exit 2; }
command -v cargo >/dev/null 2>&1 || { echo "Rust: skipped, there is no cargo"; exit 0; }
libdir=$(cd "$1" 2>/dev/null && pwd) || { echo "Rust: there is no folder $1"; exit 1; }
for file in liblarboardyuzu.a liblarboardyuzu.so; do
    [ -f "$libdir/$file" ] || { echo "Rust: there is no $libdir/$file"; exit 1; }
done
here=$(cd "$(dirname "$0")" && pwd)
examples=$here/../../examples
out=$here/out
mkdir -p "$out"
cd "$here"
export LARBOARDYUZU_LIB_DIR="$libdir" RUSTFLAGS="-D warnings" RUSTDOCFLAGS="-D warnings" CARGO_TARGET_DIR="$out/target"
export LD_LIBRARY_PATH="$libdir${LD_LIBRARY_PATH:+:$LD_LIBRARY_PATH}"

runs() { # WHAT COMMAND..: runs it, and shows what it printed if it fails
    what=$1
    shift
    "$@" >"$out/log" 2>&1 || { cat "$out/log"; echo "Rust: $what: it fails"; exit 1; }
    echo "Rust: $what: ok"
}

compares() { # EXAMPLE: runs it over standard input, and compares what it prints with its file
    cargo run -q --offline --locked --example "$1" >"$out/printed" || { echo "Rust: $1.rs fails"; exit 1; }
    cmp "$out/printed" "$examples/rust/expected/$1" || { echo "Rust: $1.rs prints"; cat "$out/printed"; exit 1; }
    echo "Rust: $1.rs: ok"
}

export LARBOARDYUZU_LINK=shared
runs "tests, shared library" cargo test -q --offline --locked --tests
export LARBOARDYUZU_LINK=static
runs "tests and documentation, archive" cargo test -q --offline --locked
compares down </dev/null
# a program without std, whose memory the library takes from a block of its own
cargo run -q --offline --locked --manifest-path "$examples/rust/firmware/Cargo.toml" >"$out/printed" || { echo "Rust: firmware fails"; exit 1; }
cmp "$out/printed" "$examples/rust/expected/firmware" || { echo "Rust: firmware prints"; cat "$out/printed"; exit 1; }
if command -v nm >/dev/null 2>&1 && nm -u "$CARGO_TARGET_DIR/debug/firmware" | grep -wE 'malloc|realloc|free'; then
    echo "Rust: firmware asks for memory of the C library"
    exit 1
fi
echo "Rust: firmware: ok"
if command -v pkg-config >/dev/null 2>&1; then
    version=$(sed -n 's/^version = "\(.*\)"/\1/p' Cargo.toml)
    printf 'libdir=%s\nName: larboardyuzu\nDescription: the library\nVersion: %s\n' "$libdir" "$version" >"$out/larboardyuzu.pc"
    runs "as pkg-config finds it" env -u LARBOARDYUZU_LIB_DIR -u LARBOARDYUZU_LINK PKG_CONFIG_PATH="$out" cargo build -q --offline --locked
    ! env -u LARBOARDYUZU_LIB_DIR -u PKG_CONFIG_PATH PKG_CONFIG_LIBDIR="$here/src" cargo build -q --offline --locked 2>"$out/log" \
        || { echo "Rust: it is built without a library"; exit 1; }
    grep -q "set LARBOARDYUZU_LIB_DIR" "$out/log" || { cat "$out/log"; echo "Rust: it doesn't say which library it lacks"; exit 1; }
else
    echo "Rust: pkg-config: skipped, there is none"
fi
# a recording, a data increment, and half a packet
{ cat "$examples/mixed.ump"; printf '\040\260\140\001\100\220'; } | compares blocks
