#!/usr/bin/env bash
# arm64.sh all: what `make arm64` runs: builds the library for 64-bit ARM, proved for that target, in out/arm64, over the libraries below it;
# then, with a compiler for it and qemu-user, its examples and tests, and a program without a C library. Without the
# kit it takes the proved archive that lies in out/arm64 already. A part whose tool is missing is skipped with a line. With CODE=strict-align
# in the environment it builds the archive whose accesses are all aligned, in out/arm64-strict-align, and runs only a program without an
# operating system, on a processor that checks alignment.
set -euo pipefail
[ $# != 0 ] || { sed -n '2,/^[^#]/s/^# \{0,1\}//p' "$0" >&2; exit 2; }
here=$(cd "$(dirname "$0")" && pwd)
top=$(dirname "$here")
CODE=${CODE:-}
out=$here/out/arm64${CODE:+-$CODE}
CC=${CC_ARM64:-aarch64-linux-gnu-gcc}
proved=$out/liblarboardyuzu_c.a
mkdir -p "$out"

if ! command -v rt >/dev/null && [ ! -f "$proved" ]; then
    echo "arm64: skipped, there is neither the kit nor $proved"
    exit 0
fi
"$here/archive.sh" aarch64-unknown-linux-gnu "$proved" "$CODE"
command -v "$CC" >/dev/null || { echo "arm64: $proved is built; not linked, there is no $CC"; exit 0; }

ar=${CC%gcc}ar
include=(-I"$top/include" -I"$top/examples/c")
strict=(-Wall -Wextra -Wpedantic -Wconversion -Wshadow -Werror)
rm -rf "$out/objects" "$out/liblarboardyuzu.a"
mkdir -p "$out/objects"
if command -v python3 >/dev/null; then
    python3 "$here/debug_info.py" "$top/include/larboardyuzu.h"
fi >"$out/objects/debug_info.s"
"$CC" -c "$out/objects/debug_info.s" -o "$out/objects/debug_info.o"
CC="$CC" "$here/one_object.sh" "$out/objects" "$proved" "$out/objects/debug_info.o"
"$CC" -std=c11 -O2 -fPIC "${strict[@]}" "${include[@]}" -c "$here/heap.c" -o "$out/objects/heap.o"
"$ar" rcs "$out/liblarboardyuzu.a" "$out/objects/hidden.o" "$out/objects/heap.o"

if [ -n "$CODE" ]; then
    if command -v qemu-system-aarch64 >/dev/null; then
        "$here/bare_arm64.sh" "$out/liblarboardyuzu.a" "$out/bare-arm64" aligned
    else
        echo "arm64: not run without an operating system, there is no qemu-system-aarch64"
    fi
    echo "arm64, $CODE: ok"
    exit 0
fi

build() { # NAME SOURCE..: a program that holds its C library
    local name=$1
    shift
    "$CC" -std=c11 -O2 "${strict[@]}" "${include[@]}" "$@" "$out/liblarboardyuzu.a" -static -o "$out/$name"
}
for name in down block up endpoint daemon; do
    build "$name" "$top/examples/c/$name.c"
done
build fixed_block "$top/examples/c/fixed_block.c" "$top/examples/c/own_heap.c"
build program "$here"/tests/program/*.c
for name in translators readers endpoint pure starved; do
    build "test-$name" "$here/tests/$name.c"
done
for name in blocks resets; do
    build "test-$name" "$here/tests/$name.c" "$here/tests/subjects.c"
done
"$CC" -std=gnu11 -O2 -ffreestanding -fno-builtin -fno-stack-protector -Wall -Wextra -Werror "${include[@]}" -static -nostdlib \
    "$here/tests/bare.c" "$here/tests/no_libc.c" "$top/examples/c/own_heap.c" "$out/liblarboardyuzu.a" -o "$out/bare"
echo "arm64: linked"
if command -v qemu-system-aarch64 >/dev/null; then
    "$here/bare_arm64.sh" "$out/liblarboardyuzu.a" "$out/bare-arm64"
    if command -v python3 >/dev/null; then
        python3 "$here/board.py" check "$out/liblarboardyuzu.a" "$out/board"
    fi
else
    echo "arm64: not run without an operating system, there is no qemu-system-aarch64"
fi

command -v qemu-aarch64 >/dev/null || { echo "arm64: not run, there is no qemu-aarch64"; exit 0; }
for name in down block up endpoint fixed_block; do
    qemu-aarch64 "$out/$name" | cmp - "$top/examples/c/expected/$name"
done
for name in test-translators test-readers test-endpoint test-pure test-blocks test-resets test-starved bare; do
    qemu-aarch64 "$out/$name"
done
if command -v python3 >/dev/null; then
    python3 "$here/tests/daemon.py" "$top/examples/endpoint.toml" qemu-aarch64 "$out/daemon"
    CC="$CC -static" python3 "$here/costs.py" check "$out/liblarboardyuzu.a" "$out/costs" qemu-aarch64
fi
program=${PROGRAM:-$top/crates/midi_tool/out/midi_tool}
if [ -x "$program" ]; then
    printf '#!/bin/sh\nexec qemu-aarch64 %s "$@"\n' "$out/program" >"$out/program.sh"
    chmod +x "$out/program.sh"
    python3 "$here/tests/compare.py" "$program" "$out/program.sh" --seconds 0 --room "$out" --no-python
else
    echo "arm64: not compared, there is no program at $program"
fi
echo "arm64: ok"
