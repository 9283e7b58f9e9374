#!/bin/sh
# gate.sh all|codes: the parts of the gate that build and try the library for C, after the proofs: all of it, or the archives that make CODE=..
# builds (no red zone, aligned accesses). Without the tools that build C a part is skipped with a line.
set -eu
[ $# != 0 ] || { sed -n '2,/^[^#]/s/^# \{0,1\}//p' "$0" >&2; exit 2; }
here=$(cd "$(dirname "$0")" && pwd)
CC_ARM64=${CC_ARM64:-aarch64-linux-gnu-gcc}
for tool in make cc ar objcopy; do
    command -v $tool >/dev/null 2>&1 || { echo "library for C: skipped, there is no $tool"; exit 0; }
done

# The archive without a red zone, on the processor for which it is.
no_red_zone() {
    if [ "$(uname -m)" != x86_64 ] || ! command -v qemu-system-x86_64 >/dev/null 2>&1; then
        echo "no-red-zone: skipped, there is no qemu-system-x86_64, or this is another processor"
    elif ! command -v rt >/dev/null 2>&1 && [ ! -f "$here/out/no-red-zone/liblarboardyuzu_c.a" ]; then
        echo "no-red-zone: skipped, there is neither the kit nor the archive"
    else
        make -s -C "$here" CODE=no-red-zone
        "$here/bare_x86_64.sh" "$here/out/no-red-zone/liblarboardyuzu.a" "$here/out/no-red-zone/bare" no-red-zone
    fi
}

case $1 in
    all) make -s -C "$here" check ;;
    codes) no_red_zone ;;
    *) echo "gate.sh: there is no part $1" >&2; exit 2 ;;
esac
if ! command -v "$CC_ARM64" >/dev/null 2>&1; then
    echo "arm64: skipped, there is no $CC_ARM64"
elif [ "$1" = codes ]; then
    make -s -C "$here" arm64 CODE=strict-align
else
    make -s -C "$here" arm64
fi
echo "library for C, $1: ok"
