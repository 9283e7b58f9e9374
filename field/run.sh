#!/usr/bin/env bash
# run.sh PROGRAM [TEST..]: tries the program against Linux's USB MIDI 2.0 host and gadget, in a virtual machine.
#
# The tests are setups, live, usb and unplug; all of them, unless some are named. Everything is made in out/field: Debian's kernel with the
# modules that Debian leaves out, a small machine, and what the tests left: 750 MB. The exit code is 0 if all is as it should be. It needs
# Debian 12 with its security updates; as root it installs the tools that are missing. The machine runs without KVM.
set -euo pipefail
here=$(cd "$(dirname "${BASH_SOURCE[0]}")" && pwd)

usage() {
  sed -n '2,/^set/{/^#/s/^# \{0,1\}//p}' "$0" >&2
  exit 2
}

if [ $# = 0 ] || [ ! -f "$1" ] || [ ! -x "$1" ]; then
  usage
fi
program=$(readlink -f "$1")
shift
tests=("$@")
[ $# -gt 0 ] || tests=(setups live usb unplug)
for test in "${tests[@]}"; do
  case $test in setups | live | usb | unplug) ;; *) usage ;; esac
done
work=$here/../out/field
mkdir -p "$work"
cd "$work"

say() { echo "field: $* (after $SECONDS s)"; }

get_tools() {
  local packages=(gcc libc6-dev make python3 qemu-system-x86) tool
  for tool in gcc make python3 qemu-system-x86_64; do
    command -v $tool > /dev/null && continue
    say "there is no $tool: apt-get install ${packages[*]}"
    [ "$(id -u)" = 0 ] || exit 1
    apt-get -qq install -y --no-install-recommends "${packages[@]}" > tools.log 2>&1
    return
  done
}

build_peer() {
  mkdir -p kernel/include
  cp kernel/source/include/uapi/sound/asound.h kernel/include
  gcc -std=gnu11 -O1 -static -Wall -Wextra -Ikernel/include -o kernel/peer "$here/guest/peer.c"
}

boot() {
  rm -f disk && truncate -s 128M disk
  timeout 1800 qemu-system-x86_64 -M q35 -accel tcg -cpu max -smp 2 -m 1024 -nographic -no-reboot -monitor none -serial file:console \
    -kernel "kernel/root/boot/vmlinuz-$version" -initrd machine.cpio -drive file=disk,format=raw,if=virtio \
    -append "console=ttyS0 quiet log_buf_len=4M panic=5 tests=\"${tests[*]}\"" < /dev/null > qemu.log 2>&1
  rm -rf results && mkdir results && tar -xf disk -C results
}

get_tools
say "the kernel and its modules"
version=$("$here/kernel.sh" kernel)
say "the machine, with Linux $version"
build_peer
rm -rf inputs
python3 "$here/inputs.py" inputs "$program"
python3 "$here/machine.py" kernel inputs "$program" machine
say "the tests: ${tests[*]}"
boot
say "what they found"
status=0
python3 "$here/check.py" inputs results "$program" "${tests[@]}" || status=$?
say "done"
exit $status
