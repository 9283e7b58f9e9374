#!/bin/sh
# plugin.sh LIBRARY ROOM: a plugin that is linked with the archive LIBRARY, in a host that is linked with another version of the library and has
# heap functions of its own: the plugin exports no name of the library and gets its own version. What is built goes to the folder ROOM.
set -eu
[ $# = 2 ] || { sed -n '2,/^[^#]/s/^# \{0,1\}//p' "$0" >&2; exit 2; }
here=$(cd "$(dirname "$0")" && pwd)
lib=$1 room=$2
CC=${CC:-cc}
compile() {
    $CC -std=gnu11 -O2 -Wall -Wextra -Wpedantic -Wconversion -Wshadow -Werror "-I$here/../include" "$@"
}
mkdir -p "$room"
compile -shared -fPIC "$here/tests/plugin/other.c" -Wl,-soname,libother.so -o "$room/libother.so"
compile -shared -fPIC -Wl,-z,defs "$here/tests/plugin/plugin.c" "$lib" -o "$room/plugin.so"
compile -rdynamic "$here/tests/plugin/host.c" "$here/tests/plugin/kit_heap.c" "$room/libother.so" -Wl,-rpath,"$room" -ldl -o "$room/host"
if command -v nm >/dev/null 2>&1; then
    shown=$(nm -D --defined-only "$room/plugin.so" | grep -E 'larboardyuzu_|rattle' || true)
    [ -z "$shown" ] || { echo "plugin: it exports $shown" | tr '\n' ' '; echo; exit 1; }
fi
"$room/host" "$room/plugin.so"
# A program with another library of the kit, whose heap functions have the kit's names.
compile "$here/../examples/c/down.c" "$here/tests/plugin/kit_heap.c" "$lib" -o "$room/beside"
"$room/beside" | cmp - "$here/../examples/c/expected/down" || { echo "plugin: beside another library of the kit it fails"; exit 1; }
echo "plugin: ok"
