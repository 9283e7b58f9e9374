#!/usr/bin/env bash
# check.sh all: what `make check` runs: the interface, the examples, the tests, what is installed, other languages, and the comparison with the
# program. A part whose tool is missing is skipped with a line; anything else that fails ends it.
set -euo pipefail
[ $# != 0 ] || { sed -n '2,/^[^#]/s/^# \{0,1\}//p' "$0" >&2; exit 2; }
here=$(cd "$(dirname "$0")" && pwd)
top=$(dirname "$here")
out=$here/out/check
lib=$here/out/liblarboardyuzu.a
CC=${CC:-cc} CXX=${CXX:-c++} RANDOM_SECONDS=${RANDOM_SECONDS:-4} PROGRAM=${PROGRAM:-$top/crates/midi_tool/out/midi_tool}
read -ra strict <<<"${STRICT:--Wall -Wextra -Wpedantic -Wconversion -Wshadow -Werror}"
flags=(-O2 -g "${strict[@]}" "-I$top/include" "-I$top/examples/c")
rm -rf "$out"
mkdir -p "$out"

has() { # NAME: whether there is such a tool
    command -v "$1" >/dev/null 2>&1
}

compares() { # WHAT FILE COMMAND..: runs it, and compares what it prints with the file
    what=$1 file=$2
    shift 2
    "$@" >"$out/printed" || { echo "$what: it ends with $?"; exit 1; }
    cmp "$out/printed" "$file" || { echo "$what: it prints"; cat "$out/printed"; exit 1; }
    echo "$what: ok"
}

# ---- The header: the exports of the crate, and that it stands alone in each language.
CRATES=${CRATES:-$top/crates}
if ! has python3; then
    echo "interface: skipped, there is no python3"
elif [ ! -d "$CRATES/larboardyuzu_c" ]; then
    echo "interface: skipped, there is no crate larboardyuzu_c"
else
    CC="$CC" python3 "$here/interface.py" "$top/include/larboardyuzu.h" "$CRATES"
fi
if has python3; then
    python3 "$top/bindings/compare.py" "$top/include/larboardyuzu.h"
fi
if has python3; then
    CC="$CC" python3 "$here/abi.py" check "$top/include/larboardyuzu.h" "$here/abi-0.3.txt"
    if has abidw; then
        abidw "$here/out/liblarboardyuzu.so" --out-file "$out/library.abi"
        [ "$(grep -c "class-decl name='larboardyuzu_" "$out/library.abi")" = "$(grep -c '^struct ' "$here/abi-0.3.txt")" ] \
            || { echo "abi: abidw doesn't see each struct"; exit 1; }
    fi
fi
for header in larboardyuzu.h larboardyuzu_heap.h; do
    for language in c11 c99; do
        "$CC" -std=$language "${strict[@]}" -fsyntax-only -x c "$top/include/$header"
    done
done
echo "headers: ok"

# ---- The archive: what it asks for and gives, that it hides each name, and that it has no data that can be written. (.data.rel.ro holds
# addresses of constants, which a loader writes before the program starts, and nobody afterwards.)
if has nm && has readelf; then
    asked=$(nm -u "$lib" | awk '$1 == "U" { print $2 }' | sort -u \
        | grep -vxE 'memcpy|memmove|memset|malloc|realloc|free|larboardyuzu_heap_(alloc|realloc|dealloc)|_GLOBAL_OFFSET_TABLE_' || true)
    given=$(nm -g --defined-only "$lib" | awk 'NF == 3 { print $3 }' | sort -u | grep -vE '^larboardyuzu_[a-z0-9_]+$' || true)
    [ -z "$asked$given" ] || { echo "archive: it asks for $asked and gives $given" | tr '\n' ' '; echo; exit 1; }
    shown=$(readelf -sW "$lib" | awk '($5 == "GLOBAL" || $5 == "WEAK") && $7 != "UND" && $6 != "HIDDEN" { print $8 }')
    [ -z "$shown" ] || { echo "archive: it doesn't hide $shown" | tr '\n' ' '; echo; exit 1; }
    written=$(readelf -SW "$lib" | sed 's/^ *\[ *[0-9]*\] *//' \
        | awk 'NF > 8 && $(NF - 3) ~ /W/ && $1 !~ /^\.data\.rel\.ro/ && $(NF - 5) !~ /^0+$/ { print $1 }')
    [ -z "$written" ] || { echo "archive: $written can be written" | tr '\n' ' '; echo; exit 1; }
    echo "archive: ok"
else
    echo "archive: skipped, there is no nm or readelf"
fi

# ---- The examples in C, as C11 and as C++17.
expected=$top/examples/c/expected
for name in down block up endpoint; do
    "$CC" -std=c11 "${flags[@]}" "$top/examples/c/$name.c" "$lib" -o "$out/$name"
    compares "$name.c" "$expected/$name" "$out/$name"
done
"$CC" -std=c11 "${flags[@]}" "$top/examples/c/fixed_block.c" "$top/examples/c/own_heap.c" "$lib" -o "$out/fixed_block"
compares fixed_block.c "$expected/fixed_block" "$out/fixed_block"
"$CC" -std=c11 "${flags[@]}" "$top/examples/c/panel.c" "$lib" -o "$out/panel"
compares panel.c "$expected/panel" "$out/panel" "$top/examples/endpoint.toml"
for name in device daemon; do
    "$CC" -std=c11 "${flags[@]}" "$top/examples/c/$name.c" "$lib" -o "$out/$name"
done
if has python3; then
    python3 "$here/tests/device.py" "$out/device" "$top/examples/endpoint.toml"
    python3 "$here/tests/daemon.py" "$top/examples/endpoint.toml" "$out/daemon"
else
    echo "device.c, daemon.c: skipped, there is no python3"
fi
if has "$CXX"; then
    for name in down block up endpoint; do
        "$CXX" -std=c++17 "${flags[@]}" -x c++ "$top/examples/c/$name.c" -x none "$lib" -o "$out/$name-cxx"
        compares "$name.c in C++" "$expected/$name" "$out/$name-cxx"
    done
else
    echo "C++: skipped, there is no compiler $CXX"
fi

# ---- The tests: statuses, block calls, resets, requests that are refused, calls of the heap, threads, and what handles cost.
tests=(translators readers endpoint pure starved blocks resets)
set_sources() { # NAME: the sources of a test
    sources=("$here/tests/$1.c")
    case $1 in blocks | resets | memory) sources+=("$here/tests/subjects.c") ;; esac
}
for name in "${tests[@]}"; do
    set_sources "$name"
    "$CC" -std=c11 "${flags[@]}" "${sources[@]}" "$lib" -o "$out/test-$name"
    "$out/test-$name"
done
set_sources memory
"$CC" -std=c11 "${flags[@]}" "${sources[@]}" "$lib" -Wl,--wrap=malloc,--wrap=realloc,--wrap=free -o "$out/memory"
"$out/memory"
"$CC" -std=c11 "${flags[@]}" "$here/tests/own_heap.c" "$top/examples/c/own_heap.c" "$lib" -o "$out/own_heap"
"$out/own_heap"
"$CC" -std=c11 "${flags[@]}" -pthread "$here/tests/threads.c" "$lib" -o "$out/threads"
"$out/threads"
if has python3; then
    CC="$CC" python3 "$here/costs.py" check "$lib" "$out/costs"
else
    echo "costs: skipped, there is no python3"
fi

# ---- A plugin beside another version of the library.
CC="$CC" "$here/plugin.sh" "$lib" "$out/plugin"

# ---- A program with no C library, and programs without an operating system.
"$CC" -std=gnu11 -O2 -ffreestanding -fno-builtin -fno-stack-protector -Wall -Wextra -Werror "-I$top/include" "-I$top/examples/c" -static -nostdlib \
    "$here/tests/bare.c" "$here/tests/no_libc.c" "$top/examples/c/own_heap.c" "$lib" -o "$out/bare"
"$out/bare"
if [ "$(uname -m)" != x86_64 ]; then
    echo "x86-64, without an operating system: skipped, this is another processor"
elif has qemu-system-x86_64; then
    CC="$CC" "$here/bare_x86_64.sh" "$lib" "$out/bare-x86-64"
else
    echo "x86-64, without an operating system: skipped, there is no qemu-system-x86_64"
fi

# ---- The same under sanitizers and valgrind.
if echo 'int main(void){return 0;}' | "$CC" -fsanitize=address,undefined -x c - -o "$out/sanitized" 2>/dev/null; then
    for name in "${tests[@]}"; do
        set_sources "$name"
        "$CC" -std=c11 "${flags[@]}" -fsanitize=address,undefined -fno-sanitize-recover=all "${sources[@]}" "$lib" -o "$out/sanitized"
        "$out/sanitized" >/dev/null
    done
    echo "sanitizers: ok"
else
    echo "sanitizers: skipped, $CC has none"
fi
if has valgrind; then
    for name in "${tests[@]}"; do
        valgrind -q --error-exitcode=1 --leak-check=full "$out/test-$name" >/dev/null
    done
    echo "valgrind: ok"
else
    echo "valgrind: skipped, there is none"
fi

# ---- Installed, as others find it.
if has pkg-config; then
    make -s -C "$here" install DESTDIR="$out/installed" PREFIX=/usr >/dev/null
    found=$(PKG_CONFIG_SYSROOT_DIR="$out/installed" PKG_CONFIG_ALLOW_SYSTEM_CFLAGS=1 PKG_CONFIG_ALLOW_SYSTEM_LIBS=1 \
        PKG_CONFIG_PATH="$out/installed/usr/lib/pkgconfig" pkg-config --cflags --libs larboardyuzu)
    # pkg-config writes a space in a folder with a backslash, as a shell reads it
    eval "found=($found)"
    "$CC" -std=c11 "$top/examples/c/down.c" "${found[@]}" -o "$out/installed-down"
    "$CC" -std=c11 "$here/tests/version.c" "${found[@]}" -o "$out/version"
    PKG_CONFIG_PATH="$out/installed/usr/lib/pkgconfig" pkg-config --modversion larboardyuzu >"$out/modversion"
    compares version "$out/modversion" env LD_LIBRARY_PATH="$out/installed/usr/lib" "$out/version"
    compares installed "$expected/down" env LD_LIBRARY_PATH="$out/installed/usr/lib" "$out/installed-down"
else
    echo "installed: skipped, there is no pkg-config"
fi
builds_by_cmake() { # FOLDER WORDS..: lets CMake build in this folder of $out, and shows what it says if it fails
    local folder=$out/$1
    shift
    if ! { cmake -B "$folder" "$@" && cmake --build "$folder"; } >"$out/cmake.log" 2>&1; then
        cat "$out/cmake.log"
        exit 1
    fi
}
if has cmake; then
    make -s -C "$here" install DESTDIR="$out/installed" PREFIX=/usr LIBDIR=/usr/lib/own >/dev/null
    for kind in shared static; do
        builds_by_cmake "cmake-$kind" -S "$here/tests/cmake-installed" -DKIND=$kind -DCMAKE_PREFIX_PATH="$out/installed/usr" \
            -Dlarboardyuzu_DIR="$out/installed/usr/lib/own/cmake/larboardyuzu"
        compares "CMake, find_package, $kind" "$expected/down" "$out/cmake-$kind/down"
    done
    builds_by_cmake cmake -S "$here/tests/cmake" -DLARBOARDYUZU_PROVED="$lib"
    compares CMake "$expected/down" "$out/cmake/down"
else
    echo "CMake: skipped, there is no cmake"
fi

# ---- From other languages, each by its own check.
for check in examples/cpp bindings/rust bindings/python; do
    "$top/$check/check.sh" "$here/out"
done

# ---- The same answers as the program.
"$CC" -std=c11 "${flags[@]}" "$here"/tests/program/*.c "$lib" -o "$out/program"
if ! has python3; then
    echo "program: not compared, there is no python3"
elif [ ! -x "$PROGRAM" ]; then
    echo "program: not compared, there is none at $PROGRAM"
else
    LARBOARDYUZU_LIBRARY="$here/out/liblarboardyuzu.so" python3 "$here/tests/compare.py" "$PROGRAM" "$out/program" \
        --seconds "$RANDOM_SECONDS" --room "$out"
fi
