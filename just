#!/bin/sh
# Runs the program with the caller's words in the caller's folder: the shipped one (dist/just) where it was made from these
# sources, else one that is built here. Which of them it is, is decided once and remembered until a source changes: in
# crates/just/out, or, in a checkout that can't be written to, in the caller's cache folder.
self=$0
[ ! -L "$self" ] || self=$(readlink -f "$self")
case $self in */*) top=${self%/*} ;; *) top=. ;; esac

# runs the remembered program, where it is newer than all that it was chosen for
# call: remembered FILE WORD..
remembered() {
  choice=$1
  shift
  [ -s "$choice" ] || return 0
  read -r program < "$choice"
  [ -x "$top/$program" ] || return 0
  [ -z "$(LC_ALL=C find "$top/crates.txt" "$top/dist" "$top"/crates/just*/src -newer "$choice" -print -quit)" ] || return 0
  exec "$top/$program" "$@"
}

remembered "$top/crates/just/out/choice" "$@"
out=$top/crates/just/out
mkdir -p "$out" 2>/dev/null
if ! { [ -d "$out" ] && [ -w "$out" ]; }; then
  place=$(cd "$top" && pwd -P) || exit 1
  out=${XDG_CACHE_HOME:-${HOME:-/nonexistent}/.cache}/pomelosail$place
  remembered "$out/choice" "$@"
  mkdir -p "$out" 2>/dev/null
fi
# The choice is as old as the look at the sources, so that one that changes meanwhile is seen at the next call.
new=$out/choice.$$
(: > "$new") 2>/dev/null
digest=$("$top/dist/digest") || exit 1
program=dist/just
if [ "$digest" != "$(cat "$top/dist/just.sources" 2>/dev/null)" ]; then
  program=crates/just/out/just
  if [ ! -x "$top/$program" ] || [ "$digest" != "$(cat "$top/crates/just/out/just.sources" 2>/dev/null)" ]; then
    rm -f "$out/choice" "$new"
    "$top/dist/build" || exit 1
    (: > "$new") 2>/dev/null
  fi
fi
if [ -e "$new" ]; then
  touch -r "$new" "$new.time"
  printf '%s\n' "$program" > "$new"
  touch -r "$new.time" "$new"
  rm -f "$new.time"
  mv "$new" "$out/choice"
fi
exec "$top/$program" "$@"
