#!/bin/sh
# install.sh install|uninstall [program] [library]: puts these parts below PREFIX, or removes what it put there. If neither is named it
# takes the program, and the library for C if it is built. `make install` calls it in a checkout; a release has it too.
#
# The program comes with its help, man page, completions, pages, examples and bindings; the library with its headers and the files by which
# pkg-config and CMake find it. Over an older version it first removes the files of that version, except shared libraries, which programs may
# still use; uninstall removes those too.
#
#   PREFIX      /usr/local; BINDIR, LIBEXECDIR, LIBDIR, INCLUDEDIR and DATADIR (share) are below it, MANDIR and DOCDIR below DATADIR
#   BASHDIR, ZSHDIR, FISHDIR   the folders for the completions, below DATADIR
#   DESTDIR     goes before all of these, for one who packs the files: nothing
#   LIST        the list of what is installed, by which a later version removes it: LIBEXECDIR/larboardyuzu/installed, or `none`
#   PROGRAM, LIBRARY           the program, and the folder of the library, where they aren't those of this checkout or release
set -eu
if [ $# = 0 ]; then
  sed -n '2,/^[^#]/s/^# \{0,1\}//p' "$0" >&2
  exit 2
fi
cd "$(dirname "$0")/.."
version=$(cat VERSION)
if [ -e crates.txt ]; then
  : "${PROGRAM:=crates/midi_tool/out/midi_tool}" "${LIBRARY:=c/out}"
else
  : "${PROGRAM:=libexec/larboardyuzu}" "${LIBRARY:=lib}"
fi
: "${DESTDIR=}" "${PREFIX:=/usr/local}"
: "${BINDIR:=$PREFIX/bin}" "${LIBEXECDIR:=$PREFIX/libexec}" "${LIBDIR:=$PREFIX/lib}" "${INCLUDEDIR:=$PREFIX/include}"
: "${DATADIR:=$PREFIX/share}"
: "${MANDIR:=$DATADIR/man}" "${DOCDIR:=$DATADIR/doc/larboardyuzu}"
: "${BASHDIR:=$DATADIR/bash-completion/completions}" "${ZSHDIR:=$DATADIR/zsh/site-functions}"
: "${FISHDIR:=$DATADIR/fish/vendor_completions.d}"
# The script finds its help and the program in its own folder, as in a release.
own=$LIBEXECDIR/larboardyuzu
: "${LIST:=$own/installed}"

fail() { printf 'install: %s\n' "$*" >&2; exit 1; }

# A relative folder would be taken from the folder of this release, and ~ in quotes for a name.
folder=''
for name in PREFIX BINDIR LIBEXECDIR LIBDIR INCLUDEDIR DATADIR MANDIR DOCDIR BASHDIR ZSHDIR FISHDIR; do
  eval "folder=\$$name"
  case $folder in /*) ;; *) fail "$name=$folder has to begin with /" ;; esac
done

# note TARGET: puts a file on the list.
note() { printf '%s %s\n' "$part" "$1" >>"$new"; }

# The files that version 0.2.0 or 0.3.0, which left no list, may have installed for a part, and this version doesn't.
before() {
  case $1 in
    program)
      for name in docs/ends.md docs/rules.md examples/c/down.cpp examples/c/expected/down_cpp examples/python/expected \
        examples/python/larboardyuzu.py NOTICES.txt RELEASE.txt; do
        printf '%s\n' "$DOCDIR/$name"
      done
      ;;
    library) printf '%s\n' "$LIBDIR/liblarboardyuzu.so.0.2" "$LIBDIR/liblarboardyuzu.so.0.2.0" ;;
  esac
}

# The files of a part that an older version has put here.
older() {
  if [ -f "$DESTDIR$LIST" ]; then sed -n "s/^$1 //p" "$DESTDIR$LIST"; fi
  before "$1"
}

is_there() { [ -e "$1" ] || [ -L "$1" ]; }

# Removes what an older version has put here of a part: when this one is installed all but shared libraries, which programs may still use.
remove_older() {
  older "$1" | while read -r file; do
    case $action:$file in install:*/liblarboardyuzu.so.*) continue ;; esac
    # (where 0.2.0 had a file there may be a folder now)
    if [ -L "$DESTDIR$file" ] || [ ! -d "$DESTDIR$file" ]; then rm -f "$DESTDIR$file"; fi
  done
  drop_folder "$own"
  drop_folder "$DOCDIR"
}

# Writes the list anew, without this part or with what is there of it now.
write_list() {
  [ "$LIST" != none ] || return 0
  {
    [ ! -f "$DESTDIR$LIST" ] || grep -v "^$part " "$DESTDIR$LIST" || :
    if [ "$action" = install ]; then
      older "$part" | while read -r file; do ! is_there "$DESTDIR$file" || printf '%s %s\n' "$part" "$file"; done
      cat "$new"
    fi
  } | sort -u >"$text"
  if [ -s "$text" ]; then
    install -d -m 755 "$DESTDIR${LIST%/*}"
    install -m 644 "$text" "$DESTDIR$LIST"
  else
    rm -f "$DESTDIR$LIST"
  fi
  drop_folder "$own"
}

# put MODE FILE TARGET: the file gets this mode, whatever the umask is.
put() {
  if [ "$action" = install ]; then
    install -d -m 755 "$DESTDIR${3%/*}"
    [ ! -d "$DESTDIR$3" ] || fail "$DESTDIR$3 is a folder, and a file belongs there"
    install -m "$1" "$2" "$DESTDIR$3"
    note "$3"
  else
    rm -f "$DESTDIR$3"
  fi
}

# link TO TARGET
link() {
  if [ "$action" = install ]; then
    install -d -m 755 "$DESTDIR${2%/*}"
    ln -sfn "$1" "$DESTDIR$2"
    note "$2"
  else
    rm -f "$DESTDIR$2"
  fi
}

# The folders that are this program's alone go when they are empty.
drop_folder() {
  [ ! -d "$DESTDIR$1" ] || find "$DESTDIR$1" -depth -type d -empty -delete
}

# (a checkout has neither notices nor what a release says of itself)
pages() {
  find . -maxdepth 1 \( -name NOTICES.txt -o -name RELEASE.txt -o -name '*.spdx.json' \) -printf '%f\n'
  find README.md CONTRIBUTING.md CHANGELOG.md docs examples bindings tools/draw_muids.py tools/editors.md tools/talk.py \
    tools/when-a-proof-fails.md -type f \
    ! -path '*/__pycache__/*' ! -path '*/out/*' ! -name '*.midi1' ! -name '*~' ! -name '.*' | sort
}

# What is built has to be there before anything older goes.
check_part() {
  case $action:$1 in
    install:program) [ -x "$PROGRAM" ] || fail "there is no program $PROGRAM" ;;
    install:library) [ -f "$LIBRARY/liblarboardyuzu.a" ] || fail "there is no library for C in $LIBRARY" ;;
  esac
}

program() {
  put 755 "$PROGRAM" "$own/libexec/larboardyuzu"
  put 755 larboardyuzu "$own/larboardyuzu"
  put 644 VERSION "$own/VERSION"
  for file in docs/help/*.txt; do put 644 "$file" "$own/$file"; done
  link "$(realpath -ms --relative-to="$BINDIR" "$own")/larboardyuzu" "$BINDIR/larboardyuzu"
  put 644 docs/larboardyuzu.1 "$MANDIR/man1/larboardyuzu.1"
  put 644 completions/larboardyuzu.bash "$BASHDIR/larboardyuzu"
  put 644 completions/_larboardyuzu "$ZSHDIR/_larboardyuzu"
  put 644 completions/larboardyuzu.fish "$FISHDIR/larboardyuzu.fish"
  pages | while read -r file; do put 644 "$file" "$DOCDIR/$file"; done
  drop_folder "$DOCDIR"
}

# The pkg-config file, with folders that follow its prefix if they lie below it.
describe() {
  described=c/larboardyuzu.pc.in
  [ -e "$described" ] || described=lib/pkgconfig/larboardyuzu.pc
  sed -e "s|^prefix=.*|prefix=$PREFIX|" -e "s|^libdir=.*|libdir=$(below_prefix "$LIBDIR")|" \
    -e "s|^includedir=.*|includedir=$(below_prefix "$INCLUDEDIR")|" -e "s|@VERSION@|$version|" "$described"
}

# A file of CMake, which finds the headers from its own folder.
describe_cmake() {
  described=c/$1.in
  [ -e "$described" ] || described=lib/cmake/larboardyuzu/$1
  sed -e "s|^set(larboardyuzu_to_include .*|set(larboardyuzu_to_include \"$(realpath -ms --relative-to="$cmake" "$INCLUDEDIR")\")|" \
    -e "s|@VERSION@|$version|" "$described"
}

# shellcheck disable=SC2016 # (pkg-config replaces ${prefix})
below_prefix() {
  case $1 in "$PREFIX"/*) printf '${prefix}%s\n' "${1#"$PREFIX"}" ;; *) printf '%s\n' "$1" ;; esac
}

library() {
  shared=liblarboardyuzu.so.$version
  for file in include/*; do put 644 "$file" "$INCLUDEDIR/${file##*/}"; done
  put 644 "$LIBRARY/liblarboardyuzu.a" "$LIBDIR/liblarboardyuzu.a"
  # (for 64-bit ARM there is the archive alone)
  if [ "$action" = uninstall ] || [ -f "$LIBRARY/$shared" ]; then
    put 644 "$LIBRARY/$shared" "$LIBDIR/$shared"
    link "$shared" "$LIBDIR/${shared%.*}"
    link "${shared%.*}" "$LIBDIR/liblarboardyuzu.so"
  fi
  [ "$action" = uninstall ] || describe >"$text"
  put 644 "$text" "$LIBDIR/pkgconfig/larboardyuzu.pc"
  cmake=$LIBDIR/cmake/larboardyuzu
  for file in larboardyuzuConfig.cmake larboardyuzuConfigVersion.cmake; do
    [ "$action" = uninstall ] || describe_cmake $file >"$text"
    put 644 "$text" "$cmake/$file"
  done
  drop_folder "$cmake"
}

action=$1
case $action in install | uninstall) shift ;; *) fail "$action is neither install nor uninstall" ;; esac
if [ $# = 0 ]; then
  set -- program
  if [ "$action" = uninstall ] || [ -f "$LIBRARY/liblarboardyuzu.a" ]; then
    set -- program library
  else
    echo "install: without the library for C, which isn't in $LIBRARY"
  fi
fi
text=$(mktemp) new=$(mktemp)
trap 'rm -f "$text" "$new"' EXIT
for part; do
  case $part in program | library) ;; *) fail "there is no part $part" ;; esac
  : >"$new"
  check_part "$part"
  remove_older "$part"
  "$part"
  write_list
done
