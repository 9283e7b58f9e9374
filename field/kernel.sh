#!/usr/bin/env bash
# kernel.sh FOLDER: gets Debian's kernel and its sources into FOLDER, and builds the modules that MIDI 2.0 needs and Debian leaves out.
#
# What is there already is kept, so a second run takes no time. The kernel itself is Debian's, unchanged; the modules are compiled from
# Debian's source of the same version, with MIDI 2.0 switched on. It needs Debian 12 with its security updates, gcc and make. If they have
# another version by now, name it: KERNEL=6.12.117+deb12.
set -euo pipefail
if [ $# != 1 ]; then
  sed -n '2,/^set/{/^#/s/^# \{0,1\}//p}' "$0" >&2
  exit 2
fi
mkdir -p "$1/packages"
cd "$1"
release=${KERNEL:-6.12.117+deb12}
version=$release-amd64
headers=$PWD/root/usr/src/linux-headers-$version
common=$PWD/root/usr/src/linux-headers-$release-common
switches="-DCONFIG_SND_UMP_MODULE=1 -DCONFIG_SND_UMP_LEGACY_RAWMIDI=1 -DCONFIG_SND_USB_AUDIO_MIDI_V2=1 -DCONFIG_SND_SEQ_UMP=1 \
-DCONFIG_SND_SEQ_UMP_CLIENT_MODULE=1"

get_packages() {
  local source=linux-source-${release%.*}=${release%%+*}-1~deb12u1 package
  [ "$(id -u)" != 0 ] || apt-get -qq update
  (cd packages && apt-get -q download "linux-image-$version-unsigned" "linux-headers-$version" "linux-headers-$release-common" \
    "linux-kbuild-$release" "$source" busybox-static cpio alsa-utils libasound2 libasound2-data)
  for package in packages/*.deb; do
    dpkg -x "$package" root
  done
}

unpack_sources() {
  local tree=linux-source-${release%.*}
  mkdir -p source
  tar -xf "root/usr/src/$tree.tar.xz" -C source --strip-components=1 --wildcards "$tree/drivers/usb/gadget/*" "$tree/sound/usb/*" \
    "$tree/sound/core/*" "$tree/include/uapi/sound/*"
}

# objects FOLDER NAME [SOURCE..]: the line of a module NAME of these sources in the Kbuild file of a folder.
objects() {
  local folder=$1 name=$2
  shift 2
  echo "obj-m += $name.o" >> "modules/$folder/Kbuild"
  echo "$name-y := ${*/%/.o}" >> "modules/$folder/Kbuild"
}

write_kbuild() {
  rm -rf modules && mkdir -p modules/core modules/seq modules/usb modules/gadget
  cp source/sound/core/{rawmidi,rawmidi_compat,ump,ump_convert}.c modules/core
  cp source/sound/core/seq/*.[ch] modules/seq
  cp source/sound/usb/*.[ch] modules/usb
  cp source/drivers/usb/gadget/*.h source/drivers/usb/gadget/function/{f_midi,f_midi2}.c \
    source/drivers/usb/gadget/function/{u_midi,u_midi2}.h modules/gadget
  echo 'obj-m += core/ seq/ usb/ gadget/' > modules/Kbuild
  for folder in core seq usb gadget; do
    echo "ccflags-y += $switches" > "modules/$folder/Kbuild"
  done
  objects core snd-rawmidi rawmidi
  objects core snd-ump ump ump_convert
  objects seq snd-seq seq seq_{lock,clientmgr,memory,queue,fifo,prioq,timer,system,ports,info,ump_convert}
  objects seq snd-seq-midi seq_midi
  objects seq snd-seq-midi-event seq_midi_event
  objects seq snd-seq-ump-client seq_ump_client
  objects usb snd-usb-audio card clock endpoint format helper implicit mixer mixer_{quirks,scarlett,scarlett2,us16x08,s1810c} pcm power proc \
    quirks stream validate midi2 media
  objects usb snd-usbmidi-lib midi
  objects gadget usb_f_midi2 f_midi2
  objects gadget usb_f_midi f_midi
}

build_modules() {
  write_kbuild
  echo "include $common/Makefile" > "$headers/Makefile"
  make -s -C "$headers" M="$PWD/modules" -j"${JOBS:-2}" CONFIG_DEBUG_INFO_BTF_MODULES= modules
}

[ -e "root/boot/vmlinuz-$version" ] || get_packages > packages.log 2>&1
[ -e source/sound/core/ump.c ] || unpack_sources
[ -e modules/usb/snd-usb-audio.ko ] || build_modules > modules.log 2>&1
echo "$version"
