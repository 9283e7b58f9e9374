#!/bin/sh
# check.sh LIBDIR: tests the package with the shared library in the folder LIBDIR, as it lies there and as a wheel, and runs the examples of
# examples/python. It needs python3 and no network, and writes nothing to the tree. Without python3 it is skipped with a line; so are the types
# without mypy, and the installation without pip.
set -eu
[ $# = 1 ] || { sed -n '2,/^[^#]/s/^# \{0,1\}//p' "$0" >&2; exit 2; }
command -v python3 >/dev/null 2>&1 || { echo "Python: skipped, there is no python3"; exit 0; }
python3 -c 'import sys; sys.exit(sys.version_info < (3, 9))' || { echo "Python: skipped, python3 is older than 3.9"; exit 0; }
libdir=$(cd "$1" 2>/dev/null && pwd) || { echo "Python: there is no folder $1"; exit 1; }
[ -f "$libdir/liblarboardyuzu.so" ] || { echo "Python: there is no $libdir/liblarboardyuzu.so"; exit 1; }
here=$(cd "$(dirname "$0")" && pwd)
examples=$here/../../examples
room=$(mktemp -d)
trap 'rm -rf "$room"' EXIT
export LARBOARDYUZU_LIBRARY="$libdir/liblarboardyuzu.so" PYTHONPATH="$here" PYTHONDONTWRITEBYTECODE=1

says() { # WHAT WORDS..: as runs, and shows the last line
    runs "$@"
    tail -n 1 "$room/log"
}

runs() { # WHAT WORDS..: runs python3 with these words, and shows what it printed if it fails
    what=$1
    shift
    python3 -B -W error "$@" >"$room/log" 2>&1 || { cat "$room/log"; echo "Python: $what: it fails"; exit 1; }
    echo "Python: $what: ok"
}

compares() { # EXAMPLE: runs it over standard input, and compares what it prints with its file
    python3 -B -W error "$examples/python/$1.py" >"$room/printed" || { echo "Python: $1.py fails"; exit 1; }
    cmp "$room/printed" "$examples/python/expected/$1" || { echo "Python: $1.py prints"; cat "$room/printed"; exit 1; }
    echo "Python: $1.py: ok"
}

runs tests -m unittest discover -s "$here/tests"
# the library as the loader finds it, by its name with the version of its binary interface
LARBOARDYUZU_LIBRARY='' LD_LIBRARY_PATH="$libdir" runs "by the name of the library" -c 'import larboardyuzu'
says "speed" "$here/tests/speed.py"
# the wheel with the library in it, which needs nothing else; the same files make the same wheel
"$here/wheels.py" "$room" "$libdir/liblarboardyuzu.so" >"$room/name" || { cat "$room/name"; echo "Python: there is no wheel"; exit 1; }
wheel=$(cat "$room/name")
mkdir "$room/again" "$room/installed"
"$here/wheels.py" "$room/again" "$libdir/liblarboardyuzu.so" >/dev/null
cmp "$room/$wheel" "$room/again/$wheel" || { echo "Python: two wheels of the same files differ"; exit 1; }
runs "unpacking $wheel" -m zipfile -e "$room/$wheel" "$room/installed"
[ -f "$room/installed/larboardyuzu/py.typed" ] || { echo "Python: the wheel has no py.typed"; exit 1; }
LARBOARDYUZU_LIBRARY='' PYTHONPATH="$room/installed" runs "the wheel" -m unittest discover -s "$here/tests"
LARBOARDYUZU_LIBRARY='' PYTHONPATH="$room/installed" says "speed of the wheel" "$here/tests/speed.py"
# as pip makes and installs it, with no index to ask
if python3 -m pip --version >/dev/null 2>&1; then
    runs "pip install, a wheel" -W ignore -m pip install -q --no-index --no-cache-dir --disable-pip-version-check --target "$room/pip" "$room/$wheel"
    cp -R "$here" "$room/source"
    runs "pip install, a folder" -W ignore -m pip install -q --no-index --no-cache-dir --disable-pip-version-check --target "$room/of-source" "$room/source"
    PYTHONPATH="$room/of-source" runs "what pip installed" -m unittest discover -s "$here/tests" -p "test_pure.py"
else
    echo "Python: pip install: skipped, there is no pip"
fi
if python3 -m mypy --version >/dev/null 2>&1; then
    (cd "$here" && runs "types" -W ignore -m mypy --cache-dir="$room/mypy" -p larboardyuzu)
else
    echo "Python: types: skipped, there is no mypy"
fi
compares translations </dev/null
# a recording, a data increment, and half a packet
for name in blocks recording; do
    { cat "$examples/mixed.ump"; printf '\040\260\140\001\100\220'; } | compares $name
done
