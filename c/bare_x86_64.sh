#!/bin/sh
# bare_x86_64.sh LIBRARY ROOM [no-red-zone]: runs programs with the archive LIBRARY on a 64-bit x86 without an operating system: the board `pc` of
# qemu-system-x86_64. They are tests/bare.c, and tests/interrupts.c with a handler that has a stack of its own, which must find nothing wrong,
# and with one on the stack of what it interrupts, whose count is printed. With the word no-red-zone the second must find nothing wrong either,
# so LIBRARY has to be built for that. What is built goes to the folder ROOM.
set -eu
[ $# -ge 2 ] || { sed -n '2,/^[^#]/s/^# \{0,1\}//p' "$0" >&2; exit 2; }
here=$(cd "$(dirname "$0")" && pwd)
top=$(dirname "$here")
lib=$1 room=$2
mkdir -p "$room"

# runs NAME FLAG.. -- SOURCE..: builds it, and prints what it says
runs() {
    name=$1 flags=
    shift
    while [ "$1" != -- ]; do
        flags="$flags $1"
        shift
    done
    shift
    # shellcheck disable=SC2086
    "${CC:-cc}" -std=gnu11 -O2 -ffreestanding -fno-builtin -fno-stack-protector -fno-pie -no-pie -mno-red-zone -fcf-protection=none \
        -Wall -Wextra -Werror -DNO_SYSTEM -DHEAP_SIZE=2097152 $flags -I"$top/include" -I"$top/examples/c" -static -nostdlib -Wl,-T,"$here/tests/bare_x86_64.ld" \
        -Wl,--build-id=none "$here/tests/start_x86_64.c" "$here/tests/no_libc.c" "$top/examples/c/own_heap.c" "$@" "$lib" -o "$room/$name.elf"
    timeout "${SECONDS_OF_A_RUN:-1200}" qemu-system-x86_64 -M pc -cpu Nehalem -m 32M -nic none -display none -serial none -monitor none \
        -no-reboot -debugcon stdio -device isa-debug-exit,iobase=0xf4,iosize=4 -kernel "$room/$name.elf" </dev/null 2>/dev/null || true
}

# wants WHAT TEXT SAID: the program has to say this
wants() {
    [ "$3" = "$2" ] || { echo "x86-64, without an operating system, $1: $3"; exit 1; }
    echo "x86-64, without an operating system, $1: ok"
}

good="interrupts: 2 rounds, 0 wrong, and 0 in the handler"
wants "a note" "bare: the note is the same" "$(runs bare -- "$here/tests/bare.c")"
wants "interrupts on a stack of their own" "$good" "$(runs interrupts-own -DSTEPS -DOWN_STACK -- "$here/tests/interrupts.c")"
said=$(runs interrupts-same -DSTEPS -- "$here/tests/interrupts.c" | tail -n 1)
if [ "${3:-}" = no-red-zone ]; then
    wants "interrupts on the stack that they interrupt" "$good" "$said"
else
    echo "x86-64, without an operating system, interrupts on the stack that they interrupt, for comparison: $said"
fi
