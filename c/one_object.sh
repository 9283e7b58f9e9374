#!/bin/sh
# one_object.sh ROOM FILE..: links the objects and archives FILE.. to two objects in the folder ROOM, with the compiler CC. In both, only the
# names larboardyuzu_* are global, and the kit's three functions of the heap have the names of larboardyuzu_heap.h.
#
# The names are visible in visible.o, of which a shared library is made, and hidden in hidden.o, of which an archive is made: a plugin or a
# shared library that links the archive doesn't export them, so that another version in the same process neither takes its calls nor gives it
# its memory.
set -eu
[ $# -ge 2 ] || { sed -n '2,/^[^#]/s/^# \{0,1\}//p' "$0" >&2; exit 2; }
room=$1
shift
CC=${CC:-cc}
tool() { # NAME: the compiler's own, or the one on the path
    found=$($CC -print-prog-name="$1")
    command -v "$found" >/dev/null 2>&1 && echo "$found" || echo "$1"
}
objcopy=$(tool objcopy) nm=$(tool nm)
links() { # TARGET FILE..: to one object, with each function in its own section as before
    target=$1
    shift
    $CC -r -nostdlib -Wl,--build-id=none -Wl,--whole-archive "$@" -Wl,--no-whole-archive -o "$target"
}
mkdir -p "$room"
links "$room/visible.o" "$@"
"$objcopy" --redefine-sym rattle_alloc=larboardyuzu_heap_alloc --redefine-sym rattle_realloc=larboardyuzu_heap_realloc \
    --redefine-sym rattle_dealloc=larboardyuzu_heap_dealloc --wildcard --keep-global-symbol='larboardyuzu_*' "$room/visible.o"
# A name that one object hides is hidden in what they are linked to.
"$nm" -g "$room/visible.o" | sed -n 's/^.* \(larboardyuzu_[a-z0-9_]*\)$/.hidden \1\n.globl \1/p' >"$room/hidden.s"
echo '.section .note.GNU-stack,"",%progbits' >>"$room/hidden.s"
$CC -c "$room/hidden.s" -o "$room/names.o"
links "$room/hidden.o" "$room/visible.o" "$room/names.o"
