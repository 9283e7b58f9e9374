#!/bin/sh
# check.sh LIBDIR: compiles larboardyuzu.hpp and the examples of this folder with the archive in the folder LIBDIR, as C++17 and C++20 with all
# warnings as errors, and runs them: also under the sanitizers. It needs a C++ compiler (CXX) and no network, and writes nothing to the tree.
# Without a compiler it is skipped with a line.
set -eu
[ $# = 1 ] || { sed -n '2,/^[^#]/s/^# \{0,1\}//p' "$0" >&2; exit 2; }
CXX=${CXX:-c++}
command -v "$CXX" >/dev/null 2>&1 || { echo "C++: skipped, there is no compiler $CXX"; exit 0; }
libdir=$(cd "$1" 2>/dev/null && pwd) || { echo "C++: there is no folder $1"; exit 1; }
lib=$libdir/liblarboardyuzu.a
[ -f "$lib" ] || { echo "C++: there is no $lib"; exit 1; }
here=$(cd "$(dirname "$0")" && pwd)
top=$here/../..
out=$(mktemp -d)
trap 'rm -rf "$out"' EXIT
STRICT=${STRICT:--Wall -Wextra -Wpedantic -Wconversion -Wshadow -Werror}
# compile WORDS..: with the flags, of which STRICT has several in one
# shellcheck disable=SC2086
compile() { set -- -O2 -g $STRICT "-I$top/include" "$@" && "$CXX" "$@"; }
wraps=-Wl,--wrap=malloc,--wrap=realloc,--wrap=free

compile -std=c++17 -fno-exceptions -fno-rtti -fsyntax-only -x c++ "$top/include/larboardyuzu.hpp"
compile -std=c++17 -fno-exceptions "$here/down.cpp" "$lib" -o "$out/down"
"$out/down" >"$out/printed" || { echo "C++: down.cpp fails"; exit 1; }
cmp "$out/printed" "$here/expected/down" || { echo "C++: down.cpp prints"; cat "$out/printed"; exit 1; }
echo "C++: down.cpp: ok"
for standard in c++17 c++20; do
    if ! echo 'int main() {}' | "$CXX" -std=$standard -x c++ - -o "$out/empty" 2>/dev/null; then
        echo "C++: $standard: skipped, $CXX doesn't have it"
        continue
    fi
    compile -std=$standard "$here/views.cpp" "$lib" -o "$out/views"
    "$out/views" >"$out/printed" || { echo "C++: views.cpp fails"; exit 1; }
    cmp "$out/printed" "$here/expected/views" || { echo "C++: views.cpp prints"; cat "$out/printed"; exit 1; }
    echo "C++: views.cpp, $standard: ok"
    compile -std=$standard "$here/tests/members.cpp" "$lib" -o "$out/members"
    "$out/members" "$top/examples/endpoint.toml"
    compile -std=$standard -pthread "$here/host/host_test.cpp" "$lib" $wraps -o "$out/host"
    "$out/host"
done
if echo 'int main() {}' | "$CXX" -fsanitize=address,undefined -x c++ - -o "$out/empty" 2>/dev/null; then
    compile -std=c++17 -fsanitize=address,undefined -fno-sanitize-recover=all "$here/tests/members.cpp" "$lib" -o "$out/members"
    "$out/members" "$top/examples/endpoint.toml" >"$out/printed"
    compile -std=c++17 -DUNCOUNTED -pthread -fsanitize=thread,undefined -fno-sanitize-recover=all "$here/host/host_test.cpp" "$lib" -o "$out/host"
    "$out/host" 200 >"$out/printed"
    echo "C++: sanitizers: ok"
else
    echo "C++: sanitizers: skipped, $CXX has none"
fi
