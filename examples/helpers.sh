# shellcheck shell=bash disable=SC2059
# What the pages use beside the program, for bash and zsh: `. examples/helpers.sh`.

# The blocks of the pages have comments, which zsh takes for words at a terminal unless it is told.
if [ -n "${ZSH_VERSION-}" ]; then setopt interactive_comments; fi
if [ -z "${ZSH_VERSION-}${BASH_VERSION-}" ]; then echo 'helpers.sh: for bash and zsh; in this shell hex writes wrong bytes' >&2; fi

# Whether the words after the first are hexadecimal digits in groups, each of a multiple of as many as the first says.
are_groups() {
  local size=$1
  shift
  ! printf '%s\n' "$*" | grep -Eqvx "[[:space:]]*([0-9A-Fa-f]{$size}[[:space:]]*)*"
}

# Hexadecimal digits to bytes. If they aren't whole bytes, it says so and writes nothing.
hex() {
  are_groups 2 "$@" || { echo "hex: not whole bytes: $*" >&2 && return 1; }
  printf "$(printf '%s' "$*" | tr -d '[:space:]' | sed 's/../\\x&/g')"
}

# The words of packets to bytes, least significant byte first.
little() {
  are_groups 8 "$@" || { echo "little: not whole words: $*" >&2 && return 1; }
  hex "$(printf '%s' "$*" | tr -d '[:space:]' | sed -E 's/(..)(..)(..)(..)/\4\3\2\1/g')"
}

# Bytes to hexadecimal.
bytes() { od -An -v -tx1 -w40 "$@" | tr a-f A-F; }

# The words of packets to hexadecimal; with --endian=little least significant byte first.
words() { od -An -v -tx4 -w16 --endian=big "$@" | tr a-f A-F; }

# Runs an endpoint with a setup and without input, so that nothing is printed but what the endpoint is, or why the setup is refused. If it is
# refused for one block or profile, the next line says which, counted from 0, and where it begins.
check_setup() {
  local said code=0 rule kind line number=0
  said=$(./larboardyuzu endpoint "$1" < /dev/null 2>&1) || code=$?
  printf '%s\n' "$said"
  rule=${said#setup field }
  case "$code $rule" in
    '9 1'[2-9] | '9 2'[0-3]) kind=block ;;
    '9 2'[5-9] | '9 3'[01]) kind=profile ;;
    *) return $code ;;
  esac
  # The setup up to each block or profile in turn: the first one with which it is refused for the same reason is the one.
  grep -n "^[[:space:]]*\[\[$kind\]\]" "$1" | cut -d: -f1 | while read -r line; do
    said=$(awk -v kind=$kind -v last=$number '
      /^[ \t]*\[+[a-z]/ { skip = index($0, "[[profile]]") && kind == "block" || index($0, "[[" kind "]]") && at++ > last } !skip' "$1" |
      { ./larboardyuzu endpoint /dev/fd/3 3<&0 < /dev/null 2>&1 || true; })
    if [ "$said" = "setup field $rule" ]; then
      echo "$kind $number, which begins at line $line" && break
    fi
    number=$((number + 1))
  done
  return $code
}
