# shellcheck shell=bash disable=SC2046
# Completion of larboardyuzu for bash: source this file, or copy it to ~/.local/share/bash-completion/completions/larboardyuzu.

# Sorts the words before the one that is completed: `given` gets the options, `plain` the command and its other words, and `due` the option
# or the redirection that still waits for its own word. A redirection and its file are no words of the command.
_larboardyuzu_sort() {
  local word
  for word in "${COMP_WORDS[@]:1:COMP_CWORD-1}"; do
    if [ -n "$due" ]; then
      due=
    else
      case $word in
        # (bash cuts 2> into two words)
        [\<\>]*) due=$word; [ "${plain[*]: -1}" != 2 ] || unset 'plain[-1]' ;;
        --folder | --group | --cable | --room | --streams | --packets) due=$word; given+=("$word") ;;
        -*) given+=("$word") ;;
        *) plain+=("$word") ;;
      esac
    fi
  done
}

# The options that the command of these words takes; those of all its directions if none is given yet.
_larboardyuzu_options() {
  case "$*" in
    'translate down'*) echo --folder --compact --paired --little --room ;;
    'translate up'*) echo --group --paired --little --room ;;
    'translate back'*) echo --group --paired --room ;;
    translate*) echo --folder --compact --group --paired --little --room ;;
    'usb split'*) echo --folder ;;
    'usb pack'*) echo --cable --room ;;
    usb*) echo --folder --cable --room ;;
    show*)
      # (a stream of bytes has no words)
      case " ${given[*]} " in
        *' --bytes '* | *' --little '*) echo --state --room ;;
        *) echo --bytes --state --little --room ;;
      esac
      ;;
    endpoint*) echo --little --room ;;
    sysex8*) echo --folder --streams --little --room ;;
    selftest*) echo --packets ;;
    '') echo --help --version ;;
  esac
}

# What may follow these words, and is no option.
_larboardyuzu_words() {
  case "$*" in
    '' | help) echo translate show endpoint usb sysex8 rehearse clip selftest ;;
    translate) echo down up back ;;
    usb) echo split pack ;;
  esac
}

# Offers those of these words that begin as the word that is completed, and weren't given.
_larboardyuzu_offer() {
  local it
  for it; do
    [[ $it != "$word"* || " ${given[*]} " = *" $it "* ]] || COMPREPLY+=("$it")
  done
}

_larboardyuzu() {
  local word=${COMP_WORDS[COMP_CWORD]} due='' given=() plain=()
  COMPREPLY=()
  _larboardyuzu_sort
  [[ $word != [\<\>]* ]] || due=$word
  case $due in
    # The file names are bash's own.
    [\<\>]*) compopt -o bashdefault -o default; return ;;
    --folder) compopt -o dirnames; return ;;
    --group | --cable) _larboardyuzu_offer {0..15}; return ;;
    --room | --streams | --packets) return ;;
  esac
  case "${plain[*]}:$word" in
    *:-*) _larboardyuzu_offer $(_larboardyuzu_options "${plain[@]}") ;;
    endpoint:* | rehearse:*) compopt -o bashdefault -o default ;;
    # A number is due.
    selftest:*) ;;
    :*) _larboardyuzu_offer $(_larboardyuzu_words) help --help --version ;;
    *)
      _larboardyuzu_offer $(_larboardyuzu_words "${plain[@]}")
      [ ${#COMPREPLY[@]} != 0 ] || _larboardyuzu_offer $(_larboardyuzu_options "${plain[@]}")
      ;;
  esac
}

complete -F _larboardyuzu larboardyuzu ./larboardyuzu
