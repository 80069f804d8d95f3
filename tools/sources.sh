# Sourced by the commands at the top: `sources NAME` gives the sum of all that a program of crates/ is built of, which are the sources
# of its crate and of those below it, and their lines of crates.txt.
root=$(cd "${BASH_SOURCE[0]%/*}/.." && pwd)

# The lines of crates.txt of a crate and of those below it.
crates_below() {
  awk -v top="$1" '
    function visit(name, words, count, i) {
      if (!(name in uses) || name in seen) return
      seen[name] = 1
      print name ":" uses[name]
      count = split(uses[name], words, " ")
      for (i = 1; i <= count; i++) visit(words[i])
    }
    { sub(/#.*/, "") }
    /:/ { name = $1; sub(/:.*/, "", name); uses[name] = substr($0, index($0, ":") + 1) }
    END { visit(top) }' "$root/crates.txt" | LC_ALL=C sort
}

sources() (
  cd "$root" || exit 1
  lines=$(crates_below "$1")
  {
    echo "$lines"
    for name in $(echo "$lines" | cut -d: -f1); do
      find "crates/$name/src" "crates/$name/specs" "crates/$name/proofs" -type f -print0 2>/dev/null
    done | LC_ALL=C sort -z | xargs -0 sha256sum
  } | sha256sum | cut -c1-64
)
