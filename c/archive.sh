#!/usr/bin/env bash
# archive.sh here|TARGET FILE [CODE]: makes the proved archive of crates/larboardyuzu_c anew if its sources or the kit changed; with more words,
# the archive FILE of the same crate, proved for another TARGET. An archive that is newer than all of them is left as it is, without asking the kit.
#
# CODE is strict-align (each access is aligned) or no-red-zone (x86-64: nothing below the stack pointer is used). The kit has no flag for
# either, so its toolchain is taken with a clang in front that gets one more flag; the kit's files stay as they are.
#
# rt lib proves each library below anew that has no stamp, as none has after rt ci in a fresh clone. If none has one, this builds the
# crate alone over the libraries that are there, with the words with which rt itself would call the compiler. What a build proves is kept in the
# crate's out/, as rt lib keeps it, so that the archive for another target isn't proved from nothing again.
set -euo pipefail
[ $# != 0 ] || { sed -n '2,/^[^#]/s/^# \{0,1\}//p' "$0" >&2; exit 2; }
name=larboardyuzu_c
folder=$(cd "$(dirname "${BASH_SOURCE[0]}")/../crates/$name" && pwd)
archive=$folder/out/lib$name.a
target=${2:+$1} file=${2:-$archive}
case ${3:-} in
    '') flag= ;;
    strict-align) flag='-Xclang -target-feature -Xclang +strict-align' ;;
    no-red-zone) flag='-mllvm -force-attribute=noredzone' ;;
    *) echo "archive: there is no code $3" >&2; exit 2 ;;
esac
cd "$folder"

if ! command -v rt >/dev/null; then
    [ -f "$file" ] && exit 0
    echo "archive: there is neither the kit nor $file (docs/c-library.md)" >&2
    exit 1
fi
kit=$(dirname "$(dirname "$(readlink -f "$(command -v rt)")")")

is_new() { # FILE: whether it is newer than each source and the kit
    [ -f "$1" ] && [ "$1" -nt "$kit/KIT-ID" ] && python3 - "$folder/../../tools" "$1" <<'END'
import sys

sys.dont_write_bytecode = True
sys.path.insert(0, sys.argv[1])
import built

sys.exit(built.Built("", sys.argv[2], "larboardyuzu_c", ["crates.txt"], [], "").newer_source() is not None)
END
}

if is_new "$file"; then
    exit 0
fi
keeps=False
if compgen -G "../*/out/rlib/stamp" >/dev/null || ! compgen -G "../*/out/rlib" >/dev/null; then
    rt lib
    touch "$archive" # (rt leaves one that is as it would make it)
    keeps=True
    [ -n "$target" ] || exit 0
fi
mapfile -t words < <(python3 - "$kit/bin" $keeps <<'END'
import contextlib
import os
import sys

sys.path.insert(0, sys.argv[1])
sys.dont_write_bytecode = True
import rtlib

with contextlib.redirect_stdout(sys.stderr):
    crate = rtlib.Crate(os.getcwd(), rtlib.root_above(os.getcwd()), {})
    words = crate.words(["--jobs", str(os.cpu_count())], keeps=sys.argv[2] == "True")
print(*words, *rtlib.KEPT, sep="\n")
END
)
mkdir -p "$(dirname "$file")"
[ -z "$target" ] || words+=(--target "$target")
case ${target:-x86_64} in x86_64*) words+=(--backend llvm) ;; esac
toolchain=$kit/toolchain
if [ -n "$flag" ]; then
    room=$(mktemp -d)
    trap 'rm -rf "$room"' EXIT
    toolchain=$room/toolchain
    mkdir -p "$toolchain/bin"
    ln -s "$kit/toolchain/lib" "$toolchain/lib"
    for tool in "$kit"/toolchain/bin/*; do
        [ "${tool##*/}" = clang ] || ln -s "$tool" "$toolchain/bin/"
    done
    printf '#!/bin/sh\nexec "%s/toolchain/bin/clang" "$@" %s\n' "$kit" "$flag" >"$toolchain/bin/clang"
    chmod +x "$toolchain/bin/clang"
fi
"$kit/bin/rattle" build "${words[@]}" --toolchain "$toolchain" -o "$file"
