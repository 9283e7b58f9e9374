#!/bin/sh
# bare_arm64.sh LIBRARY ROOM [aligned]: runs programs with the archive LIBRARY on a 64-bit ARM without an operating system: the board `virt` of
# qemu-system-aarch64, with its MMU on and no network card. They are tests/bare.c, and tests/interrupts.c with a handler that keeps the vector
# registers, which must find nothing wrong, and with one that doesn't, whose count is printed. With the word aligned the processor checks the
# alignment of each access (SCTLR_EL1.A), so LIBRARY has to be built for that. What is built goes to the folder ROOM. It needs a compiler for
# the target (CC_ARM64).
set -eu
[ $# -ge 2 ] || { sed -n '2,/^[^#]/s/^# \{0,1\}//p' "$0" >&2; exit 2; }
here=$(cd "$(dirname "$0")" && pwd)
top=$(dirname "$here")
lib=$1 room=$2 checks=''
[ "${3:-}" != aligned ] || checks=-DCHECKS_ALIGNMENT
mkdir -p "$room"

# runs NAME FLAG.. -- SOURCE..: builds it, and prints what it says
runs() {
    name=$1 flags=$checks
    shift
    while [ "$1" != -- ]; do
        flags="$flags $1"
        shift
    done
    shift
    # shellcheck disable=SC2086
    "${CC_ARM64:-aarch64-linux-gnu-gcc}" -std=gnu11 -O2 -ffreestanding -fno-builtin -fno-stack-protector -fno-pie -no-pie -mstrict-align \
        -Wall -Wextra -Werror -DNO_SYSTEM -DHEAP_SIZE=2097152 $flags -I"$top/include" -I"$top/examples/c" -static -nostdlib -Wl,-T,"$here/tests/bare_arm64.ld" \
        -Wl,--build-id=none "$here/tests/start_arm64.c" "$here/tests/no_libc.c" "$top/examples/c/own_heap.c" "$@" "$lib" -o "$room/$name.elf"
    timeout "${SECONDS_OF_A_RUN:-1200}" qemu-system-aarch64 -M virt -cpu cortex-a53 -m 16M -nic none -nographic -no-reboot \
        -kernel "$room/$name.elf" </dev/null 2>&1 || true
}

# wants WHAT TEXT SAID: the program has to say this
wants() {
    [ "$3" = "$2" ] || { echo "arm64, without an operating system, $1: $3"; exit 1; }
    echo "arm64, without an operating system, $1: ok"
}

wants "${3:-a note}" "bare: the note is the same" "$(runs bare -- "$here/tests/bare.c")"
[ -z "$checks" ] || exit 0
wants "interrupts that keep the vector registers" "interrupts: 2 rounds, 0 wrong, and 0 in the handler" \
    "$(runs interrupts -DKEEPS_VECTORS -- "$here/tests/steps_arm64.c" "$here/tests/interrupts.c")"
said=$(runs interrupts-bad -- "$here/tests/steps_arm64.c" "$here/tests/interrupts.c" | tail -n 1)
echo "arm64, without an operating system, a handler that doesn't keep them, for comparison: $said"
