# shellcheck shell=dash disable=SC2016,SC2086,SC2231
# tests.sh TEST..: the tests inside the virtual machine: setups, live, usb or unplug. /inputs has what inputs.py wrote, /program is the
# program, and everything that happens is left in /results for check.py.
if [ $# = 0 ]; then
  sed -n '2,3s/^# //p' "$0" >&2
  exit 2
fi
port=/sys/bus/usb/devices/1-0:1.0/usb1-port1
gadget=/sys/kernel/config/usb_gadget/g
mkdir -p /work

say() { echo "field: $*" > /dev/console; }
# card DRIVER: the number of its sound card.
card() { awk -v driver="$1" '$0 ~ driver { print $1; exit }' /proc/asound/cards; }
device() { echo /dev/snd/umpC"$(card f_midi)"D0; }
host() { echo /dev/snd/umpC"$(card USB-Audio)"D0; }
is_connected() { [ -n "$(card USB-Audio)" ]; }
is_away() { ! is_connected; }
# wait_for COMMAND: waits till it succeeds, for at most half a minute.
wait_for() {
  for _ in $(seq 600); do
    "$@" && return
    sleep 0.05
  done
  say "waited in vain: $*"
}

# The cable is pulled at the host's port, since dummy_hcd answers nothing more after soft_connect.
connect() { echo 0 > $port/disable && wait_for is_connected && sleep 0.3; }
disconnect() { echo 1 > $port/disable && wait_for is_away; }

# make_gadget FUNCTION COMMANDS: a gadget that these commands configure, bound with the cable out.
make_gadget() {
  mkdir $gadget $gadget/strings/0x409 $gadget/configs/c.1 $gadget/functions/"$1".0
  echo 0x1d6b > $gadget/idVendor
  echo 0x0104 > $gadget/idProduct
  echo Maker > $gadget/strings/0x409/manufacturer
  echo Product > $gadget/strings/0x409/product
  cd $gadget/functions/"$1".0 && eval "$2"
  cd /
  ln -s $gadget/functions/"$1".0 $gadget/configs/c.1/
  echo 1 > $port/disable
  echo dummy_udc.0 > $gadget/UDC
}

remove_gadget() {
  echo > $gadget/UDC
  echo 0 > $port/disable
  wait_for is_away
  rm $gadget/configs/c.1/"$1".0
  for block in $gadget/functions/"$1".0/ep.*/block.*; do
    case $block in *block.0 | *\**) ;; *) rmdir "$block" ;; esac
  done
  rmdir $gadget/functions/"$1".0 $gadget/configs/c.1 $gadget/strings/0x409 $gadget
}

# start NAME FROM TO WORDS..: the program in the background, with its listing, from one file and to another.
start() {
  name=$1 from=$2 to=$3
  shift 3
  peer foreground /program "$@" < "$from" > "$to" 2> $results/"$name".listing &
  program=$!
  sleep 0.5
}
start_endpoint() { start "$1" "$(device)" "$(device)" endpoint "$2" --little; }
# The exit code of the program, after Ctrl-C or by itself.
ended() { wait $program; echo $? > $results/"$1".code; }
stop() { kill -INT $program; ended "$1"; }
# ends NAME: it ends by itself, or else is said to go on.
ends() {
  sleep 0.5
  if kill -0 $program 2> /dev/null; then
    echo 'goes on' > $results/"$1".state
    kill -INT $program
  fi
  ended "$1"
}
# hear FILE TO: cat in the background.
hear() { cat "$1" > "$2" & listener=$!; sleep 0.5; }
deafen() { sleep 2; kill $listener; wait $listener; }

# look FOLDER: all that the host's kernel says of the device.
look() {
  mkdir -p "$1"
  peer info "$(host)" > "$1"/info 2>&1
  cat /proc/asound/card"$(card USB-Audio)"/midi* > "$1"/proc
  cat /proc/asound/seq/clients > "$1"/sequencer
}

# Each setup, by our endpoint and by the kernel's own gadget: what the host knows, and the replies to questions by hand.
one_setup() {
  results=/results/setups/$1/$2
  mkdir -p $results
  say "setup $1, $2"
  make_gadget midi2 ". /inputs/$1.gadget; echo $([ "$2" = kernel ] && echo 1 || echo 0) > process_ump" 2> $results/made
  dmesg -c > /dev/null
  [ "$2" = kernel ] || start_endpoint endpoint /inputs/"$1".toml
  connect
  dmesg -c > $results/log
  look $results
  peer ask "$(host)" < /inputs/"$1".questions > $results/answers
  look $results/after
  [ "$2" = kernel ] || stop endpoint
  remove_gadget midi2
}
test_setups() {
  for setup in /inputs/*.toml; do
    one_setup "$(basename "$setup" .toml)" ours
    one_setup "$(basename "$setup" .toml)" kernel
  done
}

is_in_files() {
  cmp -s /work/live/group-00.midi1 "$1".00 && cmp -s /work/live/group-01.midi1 "$1".01 && cmp -s /work/live/group-05.midi1 "$1".05
}
# Packets one by one, the file open: how many looks it takes until the bytes are there.
one_by_one() {
  mkdir -p /work/live
  start one "$(device)" /dev/null translate down --little --folder /work/live
  exec 3> "$(host)"
  for packet in /inputs/one.*.packet; do
    cat "$packet" >&3
    looks=0
    while ! is_in_files "${packet%.packet}" && [ $looks -lt 100 ]; do
      looks=$((looks + 1))
      sleep 0.01
    done
    echo $looks
  done > $results/looks
  exec 3>&-
  stop one
}
# play NAME COMMAND: the music of the host, translated live on the device's side.
play() {
  mkdir -p $results/"$1"
  start "$1" "$(device)" /dev/null translate down --little --folder $results/"$1"
  eval "$2"
  sleep 2
  stop "$1"
}
# The device's MIDI 1.0 ports, into which the kernel translates the same packets: the ports of groups 0, 1 and 5.
hear_ports() {
  file=/dev/snd/midiC$(card f_midi)D1
  exec 4< $file 5< $file 6< $file 7< $file 8< $file 9< $file
  cat <&4 > $results/kernel.00 & first=$!
  cat <&5 > $results/kernel.01 & second=$!
  cat <&9 > $results/kernel.05 & third=$!
}
deafen_ports() { kill $first $second $third; exec 4<&- 5<&- 6<&- 7<&- 8<&- 9<&-; }
# A host or device that plays MIDI 1.0 bytes as packets.
play_up() {
  hear "$(host)" $results/up.packets
  /program translate up --little < /inputs/cable0.bytes > "$(device)" 2> $results/up.listing
  echo $? > $results/up.code
  deafen
}
test_live() {
  results=/results/live
  mkdir -p $results
  say live
  make_gadget midi2 '. /inputs/one.gadget; echo 0 > static_block; echo 16 > ep.0/block.0/num_groups'
  connect
  one_by_one
  hear_ports
  play slowly 'peer slow "$(host)" 500 < /inputs/music.packets'
  deafen_ports
  play by-cat 'cat /inputs/music.packets > "$(host)"'
  play_up
  remove_gadget midi2
}

# MIDI 1.0 over USB, two cables: the device plays, and its events are captured on the bus.
usb_split() {
  peer capture $bus $results/bus &
  capture=$!
  exec 3< "$legacy_host" 4< "$legacy_host"
  cat <&3 > $results/host.00 & first=$!
  cat <&4 > $results/host.01 & second=$!
  sleep 0.5
  exec 5> "$legacy_device" 6> "$legacy_device"
  cat /inputs/cable0.bytes >&5 & one=$!
  cat /inputs/cable1.bytes >&6 & two=$!
  wait $one $two
  sleep 2
  exec 3<&- 4<&- 5>&- 6>&-
  kill $first $second $capture
  wait $capture
  mkdir -p $results/split
  /program usb split --folder $results/split < $results/bus.in 2> $results/split.listing
  echo $? > $results/split.code
}
# amidi records what the device plays, and plays a stream.
with_amidi() {
  amidi -p hw:"$(card USB-Audio)",0,0 -r $results/amidi.recorded -c -a -t 4 > /dev/null 2>&1 &
  recorder=$!
  sleep 2.5
  cat /inputs/cable0.bytes > "$legacy_device"
  wait $recorder
  hear "$legacy_device" $results/amidi.played
  amidi -p hw:"$(card USB-Audio)",0,0 -s /inputs/cable0.bytes
  deafen
}
# The events of usb pack go to the bulk endpoint, after the kernel's driver has let go of the device.
usb_pack() {
  /program usb pack < /inputs/cable0.bytes > $results/packed.events 2> $results/pack.listing
  echo $? > $results/pack.code
  node=/dev/bus/usb/$(printf %03d/%03d "$(cat /sys/bus/usb/devices/1-1/busnum)" "$(cat /sys/bus/usb/devices/1-1/devnum)")
  endpoint=0x$(cat /sys/bus/usb/devices/1-1:1.1/ep_0?/bEndpointAddress | head -1)
  for interface in 1-1:1.0 1-1:1.1; do
    echo $interface > /sys/bus/usb/drivers/snd-usb-audio/unbind 2> /dev/null
  done
  hear "$legacy_device" $results/pack.played
  peer bulk "$node" 1 "$endpoint" < $results/packed.events
  deafen
}
test_usb() {
  results=/results/usb
  mkdir -p $results
  say usb
  make_gadget midi 'echo 2 > in_ports; echo 2 > out_ports; echo 512 > buflen'
  connect
  bus=/dev/usbmon$(cat /sys/bus/usb/devices/1-1/busnum)
  legacy_device=/dev/snd/midiC$(card f_midi)D0 legacy_host=/dev/snd/midiC$(card USB-Audio)D0
  usb_split
  with_amidi
  usb_pack
  remove_gadget midi
}

# The cable is pulled and put in again while the endpoint reads; then the whole gadget goes.
unplug_device() {
  start_endpoint replug /inputs/one.toml
  connect
  look $results/before
  disconnect
  sleep 1
  kill -0 $program && echo 'goes on' > $results/replug.state
  connect
  look $results/replugged
  stop replug
  start_endpoint unbound /inputs/one.toml
  echo > $gadget/UDC
  ends unbound
  echo dummy_udc.0 > $gadget/UDC
  wait_for is_connected
}
# unplug_host NAME FROM TO WORDS..: a command at the host, under which the device goes.
unplug_host() {
  start "$@"
  disconnect
  ends "$1"
  connect
}
unplug_writer() {
  mkfifo /work/pipe
  start host-writes /work/pipe "$(host)" translate up --little
  exec 3> /work/pipe
  printf '\220\074\144' >&3
  sleep 0.5
  disconnect
  printf '\220\074\144' >&3
  exec 3>&-
  ends host-writes
  connect
}
# A late start, a missing --little, a second reader, a writer whom nobody hears.
in_vain() {
  disconnect
  connect
  start_endpoint late /inputs/one.toml
  look $results/late
  stop late
  disconnect
  start big "$(device)" "$(device)" endpoint /inputs/one.toml
  connect
  look $results/big
  stop big
  disconnect
  start_endpoint first /inputs/one.toml
  connect
  first=$program
  start second "$(device)" /dev/null show --little
  kill -0 $program && echo 'goes on' > $results/second.state
  kill $program
  program=$first
  stop first
  disconnect
  (while cat /inputs/cable0.bytes; do :; done) 2> /dev/null > /work/pipe &
  start unheard /work/pipe "$(device)" translate up --little
  sleep 1
  kill -0 $program && echo 'goes on' > $results/unheard.state
  stop unheard
  connect
}
# MIDI-CI over the wire; then the music, and a question.
midi_ci() {
  disconnect
  start_endpoint ci /inputs/one.toml
  connect
  hear "$(host)" $results/ci.replies
  peer slow "$(host)" 1000 < /inputs/ci.packets
  deafen
  peer slow "$(host)" 200 < /inputs/music.packets
  sleep 1
  echo 1 F0000101 00000001 | peer ask "$(host)" > $results/ci.answer
  stop ci
}
test_unplug() {
  results=/results/unplug
  mkdir -p $results
  say unplug
  make_gadget midi2 '. /inputs/one.gadget; echo 0 > process_ump'
  unplug_device
  unplug_host host-show "$(host)" /dev/null show --little
  unplug_host host-down "$(host)" /dev/null translate down --little --folder /work
  unplug_host host-endpoint "$(host)" /dev/null endpoint /inputs/one.toml --little
  unplug_host host-sysex8 "$(host)" /dev/null sysex8 --little --folder /work
  unplug_host host-up /dev/snd/midiC"$(card USB-Audio)"D1 /dev/null translate up
  unplug_writer
  in_vain
  midi_ci
  remove_gadget midi2
}

for test in "$@"; do
  "test_$test"
done
