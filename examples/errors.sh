# shellcheck shell=bash
# An input for each row of docs/errors.md, and for each rule of docs/setup.md. In bash, at the top of the repository or of a release:
# `. examples/errors.sh`. Then
#
#   shows code 3              ends with this exit code
#   shows refused HighBit     is refused for this reason
#   shows rule 14             is a setup that breaks this rule
#   shows cause 'a clip file' ends with exit code 0, and yet the output is wrong, for this cause
#
# Each case is a line to copy. tools/check.py runs all of them, and compares the last line and the exit code with the row, or of a cause each
# line that is printed.

# shellcheck source=examples/helpers.sh
. examples/helpers.sh

# Runs an endpoint with this setup, and no input.
run_setup() { ./larboardyuzu endpoint in.toml < /dev/null; }

# The setup examples/endpoint.toml with a change that sed makes.
edited() { sed "$1" examples/endpoint.toml > in.toml && run_setup; }

# The same setup with a second block or profile, which is the first one with a change.
twice() { sed -n "/^\[\[$1/,/^\(muids\|on\)/{$2;p}" examples/endpoint.toml | cat examples/endpoint.toml - > in.toml && run_setup; }

# The first line that a command prints, on either stream, and the exit code of the command.
first() {
  local code=0
  "$@" > out/said 2>&1 || code=$?
  head -n 1 out/said
  return $code
}

shows() {
  mkdir -p out
  hex 40903C00 C9240000 > in.ump
  case "$1 ${2-}" in
    'code 0') ./larboardyuzu show < in.ump ;;
    'code 1') hex 20903C80 > in.bad && ./larboardyuzu show < in.bad ;;
    'code 2') ./larboardyuzu show < . ;;
    'code 3') ./larboardyuzu translate down --folder nowhere < in.ump ;;
    'code 4') ./larboardyuzu show < in.ump > /dev/full ;;
    'code 5') hex 00000000 > in.bad && ./larboardyuzu translate down --folder out < in.bad 2> /dev/full ;;
    'code 6') ./larboardyuzu endpoint nowhere.toml < /dev/null ;;
    'code 7') ./larboardyuzu show in.ump ;;
    'code 8') edited 's/"Main"/Main/' ;;
    'code 9') edited 's/^hint.*/hint = 4/' ;;
    'code 10') (ulimit -v 16000 && ./larboardyuzu translate down --folder out < in.ump) ;;
    # The next two are for a checkout, and end in the script: a program that can't be built, and a machine without the kit.
    'code 126') D=$(mktemp -d) && mkdir -p "$D/crates/midi_tool" && cp larboardyuzu crates.txt "$D" && ln -s /bin/false "$D/rt" &&
      PATH=$D:$PATH "$D/larboardyuzu" show ;;
    'code 127') D=$(mktemp -d) && cp larboardyuzu crates.txt "$D" && PATH=/usr/bin:/bin "$D/larboardyuzu" show ;;

    'refused Truncated') hex 40903C00 > in.bad && ./larboardyuzu show < in.bad ;;
    # It feeds 4 GiB, which takes a while.
    'refused InputTooLong') ./larboardyuzu sysex8 --folder out < <(yes $'\xD0AAAAAAAAAAAAAA') ;;
    'refused BadCount') hex 30070000 00000000 > in.bad && ./larboardyuzu show < in.bad ;;
    'refused HighBit') hex 20903C80 > in.bad && ./larboardyuzu show < in.bad ;;
    'refused DataIncrement') hex B06000 > in.bad && ./larboardyuzu translate up < in.bad ;;
    'refused DataDecrement') hex 20B06100 > in.bad && ./larboardyuzu translate down --folder out < in.bad ;;
    'refused ExclusiveTooLong') hex F001020304050607F7 > in.bad && ./larboardyuzu translate up --room 6 < in.bad ;;
    'refused BadEvent') hex 030000 > in.bad && ./larboardyuzu rehearse examples/endpoint.toml < in.bad ;;
    'refused TooManyMessages') for _ in {1..1025}; do hex 000000; done > in.bad
      ./larboardyuzu rehearse examples/endpoint.toml < in.bad ;;
    'refused NotClip') ./larboardyuzu clip < in.ump ;;
    'refused NoResolution') hex 534D4632434C4950 F0200000 00000000 00000000 00000000 > in.bad && ./larboardyuzu clip < in.bad ;;
    'refused AfterEnd') hex 534D4632434C4950 00300060 F0200000 00000000 00000000 00000000 F0210000 00000000 00000000 00000000 00400000 \
      > in.bad && ./larboardyuzu clip < in.bad ;;
    'refused NoEnd') hex 534D4632434C4950 > in.bad && ./larboardyuzu clip < in.bad ;;

    'cause a Standard MIDI File') hex 4D546864 00000006 > in.bad && first ./larboardyuzu translate up < <(cat in.bad) ;;
    'cause a clip file') first ./larboardyuzu show < <(cat examples/note.midi2) &&
      first ./larboardyuzu translate down --folder out < <(cat examples/note.midi2) ;;
    'cause hexadecimal text') printf 40903C00 > in.bad && first ./larboardyuzu translate up < in.bad && first ./larboardyuzu show < in.bad ;;
    'cause packets') first ./larboardyuzu show --bytes < in.ump ;;
    'cause words with the least significant byte first') hex 003C9040 000024C9 > in.bad && first ./larboardyuzu show < in.bad ;;
    'cause a misspelt [[block]] or [[profile]]') edited 's/^..profile..$/[[profiles]]/' 2>&1 | tail -n 1 ;;
    'cause the input is empty') ./larboardyuzu translate up < /dev/null ;;

    'rule 0') printf '#%.0s' {1..65537} > in.toml && run_setup ;;
    'rule 1') edited 's/^.endpoint.$/[device]/' ;;
    'rule 2') edited 's/^name = "Demo.*/name = ""/' ;;
    'rule 3') edited 's/^id = "SN.*/id = "Größe"/' ;;
    'rule 4') edited 's/^manu.*/manufacturer = 125/' ;;
    'rule 5') edited 's/^family.*/family = 16384/' ;;
    'rule 6') edited 's/^model.*/model = -1/' ;;
    'rule 7') edited 's/^revision.*/revision = "1.0"/' ;;
    'rule 8') edited 's/^\(midi[12]\) = true/\1 = false/' ;;
    'rule 9') edited 's/^midi2 = true/midi2 = false/' ;;
    'rule 10') edited 's/^static.*/static = 1/' ;;
    'rule 11') edited 's/^..block..$/[block]/' ;;
    'rule 12') edited 's/^active.*/active = 1/' ;;
    'rule 13') edited 's/^name = "Main"/name = ""/' ;;
    'rule 14') edited 's/^hint.*/hint = 4/' ;;
    'rule 15') edited 's/^midi1 = 0/midi1 = true/' ;;
    'rule 16') edited 's/^direction.*/direction = 0/' ;;
    'rule 17') edited 's/^first.*/first = 16/' ;;
    'rule 18') edited 's/^count.*/count = 17/' ;;
    'rule 19') edited 's/^ci.*/ci = 3/' ;;
    'rule 20') edited 's/^sysex8.*/sysex8 = 256/' ;;
    'rule 21') edited 's/^muids.*/muids = []/' ;;
    'rule 22') twice block 's/19088743, 300/5/' ;;
    'rule 23') twice block 's/first = 0/first = 1/' ;;
    'rule 24') edited 's/^..profile..$/[profile]/' ;;
    'rule 25') edited 's/^block = 0/block = 1/' ;;
    'rule 26') edited 's/^place.*/place = "port"/' ;;
    'rule 27') edited 's/^group = 0/group = 1/' ;;
    'rule 28') edited 's/^channel.*/channel = 16/' ;;
    'rule 29') edited 's/^id = .126.*/id = [126, 0, 1]/' ;;
    'rule 30') edited 's/^on.*/on = "no"/' ;;
    'rule 31') twice profile '' ;;
    *) echo "shows: no such row: $*" >&2 && return 2 ;;
  esac
}
