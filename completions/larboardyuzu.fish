# Completion of larboardyuzu for fish: copy this file to ~/.config/fish/completions.

# The options that wait for a word of their own.
set -g __larboardyuzu_valued --folder --group --cable --room --streams --packets

# The command and its other words before the one that is completed: no options with what belongs to them, and no files of redirections.
function __larboardyuzu_plain
    set -l files (commandline -pc | string match -a -r -g '[<>]\s*((?:\\\\.|[^\s<>&])+)' | string unescape)
    set -l due
    for word in (commandline -opc)[2..-1]
        if set -q due[1]
            set -e due
        else if set -l at (contains -i -- $word $files)
            set -e files[$at]
        else if contains -- $word $__larboardyuzu_valued
            set due $word
        else if not string match -q -- '-*' $word
            echo $word
        end
    end
end

# Whether the command and its other words match one of these, as a whole.
function __larboardyuzu_is --argument-names commands
    string match -q -r -- "^($commands)\$" "$(__larboardyuzu_plain | string join ' ')"
end

# Whether these commands are asked for, and neither this option nor the other one was given. An option that was given last still counts
# while it waits for its word.
function __larboardyuzu_takes --argument-names commands option other
    set -l given (commandline -opc)
    if contains -- $option $__larboardyuzu_valued
        set -e given[-1]
    end
    not contains -- $option $given
    and not contains -- "$other" $given
    and __larboardyuzu_is $commands
end

# Adds an option: its name, the commands that have it, what it says, and more words for `complete`.
function __larboardyuzu_option --argument-names option commands does
    complete -c larboardyuzu -n "__larboardyuzu_takes '$commands' --$option" -l $option -d $does $argv[4..-1]
end

complete -c larboardyuzu -f
complete -c larboardyuzu -n "__larboardyuzu_is ''" -l help -s h -d 'print help'
complete -c larboardyuzu -n "__larboardyuzu_is ''" -l version -s V -d 'print the version'
complete -c larboardyuzu -n "__larboardyuzu_is ''" -a help -d 'what the commands do'
for word in '' help
    complete -c larboardyuzu -n "__larboardyuzu_is '$word'" -a translate -d 'between MIDI 2.0 packets and MIDI 1.0 bytes'
    complete -c larboardyuzu -n "__larboardyuzu_is '$word'" -a show -d 'what a recording holds, as text'
    complete -c larboardyuzu -n "__larboardyuzu_is '$word'" -a endpoint -d 'a MIDI 2.0 endpoint that answers'
    complete -c larboardyuzu -n "__larboardyuzu_is '$word'" -a usb -d 'USB-MIDI 1.0 events'
    complete -c larboardyuzu -n "__larboardyuzu_is '$word'" -a sysex8 -d '8-bit exclusives out of packets'
    complete -c larboardyuzu -n "__larboardyuzu_is '$word'" -a rehearse -d 'a MIDI-CI initiator against a responder'
    complete -c larboardyuzu -n "__larboardyuzu_is '$word'" -a clip -d 'the events of a MIDI clip file'
    complete -c larboardyuzu -n "__larboardyuzu_is '$word'" -a selftest -d 'is this program the one that was tested?'
end
complete -c larboardyuzu -n '__larboardyuzu_is translate' -a 'down up back' -d direction
complete -c larboardyuzu -n '__larboardyuzu_is usb' -a 'split pack' -d direction
complete -c larboardyuzu -n '__larboardyuzu_is "endpoint|rehearse"' -F

__larboardyuzu_option folder 'translate( down)?|usb( split)?|sysex8' 'the folder for the files of the groups' \
    -x -a '(__fish_complete_directories (commandline -ct))'
__larboardyuzu_option compact 'translate( down)?' 'leave out what the receiver already knows'
__larboardyuzu_option group 'translate( up| back)?' 'the group of the packets' -x -a '(seq 0 15)'
__larboardyuzu_option paired 'translate( down| up| back)?' 'treat controllers n and n + 32 as one 14-bit controller'
__larboardyuzu_option cable 'usb( pack)?' 'the cable of the events' -x -a '(seq 0 15)'
__larboardyuzu_option state show 'add each value that a receiver has after the input'
__larboardyuzu_option streams sysex8 'how many 8-bit exclusives may be open at once' -x
__larboardyuzu_option room 'translate( down| up| back)?|usb( pack)?|show|endpoint( .*)?|sysex8' 'the most bytes an exclusive may have' -x
__larboardyuzu_option packets 'selftest( .*)?' 'how many packets are generated' -x
__larboardyuzu_option little 'translate( down| up)?|endpoint( .*)?|sysex8' 'words have their least significant byte first'
# (a stream of bytes has no words)
complete -c larboardyuzu -n '__larboardyuzu_takes show --little --bytes' -l little -d 'words have their least significant byte first'
complete -c larboardyuzu -n '__larboardyuzu_takes show --bytes --little' -l bytes -d 'the input is a MIDI 1.0 stream'
