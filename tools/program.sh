# Sourced by the commands at the top: `program CRATE NAME` gives the path of the program of a crate that is of the sources as they stand. It
# is what was built here, or else the release of the name, if it is of these sources; or else it is built first. Which one it was is kept in
# the user's cache, so that sums are made again only where a file has changed since.
. "${BASH_SOURCE[0]%/*}/sources.sh"

program() {
  local kept='' path=''
  if [ -n "${XDG_CACHE_HOME:-${HOME:-}}" ]; then
    kept=${XDG_CACHE_HOME:-$HOME/.cache}/sqlr/programs/${root//\//%}.$1
  fi
  if ! { [ -n "$kept" ] && read -r path < "$kept" && is_as_it_was "$kept" "$path"; } 2>/dev/null; then
    local begun=''
    [ -n "$kept" ] && mkdir -p "${kept%/*}" 2>/dev/null && begun=$(mktemp "$kept.XXXXXX" 2>/dev/null)
    path=$(program_by_sums "$1" "$2") || { rm -f "$begun"; return 2; }
    [ -n "$begun" ] && keep "$kept" "$begun" "$path" 2>/dev/null
  fi
  echo "$path"
}

# Whether a program is there, and neither it nor anything that a program is made of has changed since a file was written.
is_as_it_was() {
  [ -x "$2" ] && [ -z "$(find "$root"/crates/*/{src,specs,proofs} "$root"/crates.txt "$2" -cnewer "$1" -print -quit)" ]
}

# Keeps the path of a program in a file, as of the time when another was made, which is before the sums were.
keep() {
  echo "$3" > "$2.path" && touch -r "$2" "$2.path" && mv "$2.path" "$1"
  rm -f "$2" "$2.path"
}

program_by_sums() {
  local built=$root/crates/$1/out/$1 release=$root/release/$2 sum
  sum=$(sources "$1")
  if [ -x "$built" ] && [ "$(cat "$built.sources" 2>/dev/null)" = "$sum" ]; then
    echo "$built"
  elif [ -x "$release" ] && [ "$(cat "$release.sources" 2>/dev/null)" = "$sum" ]; then
    echo "$release"
  else
    python3 "$root/tools/build.py" "$1" >&2 || return 2
    echo "$sum" > "$built.sources"
    echo "$built"
  fi
}
