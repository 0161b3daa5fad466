#!/bin/sh
# What the archive libtzb_c.a is made of: the static library tzb_c_c and all crates that it depends on.
#   sh scripts/sources.sh crates    their lines of crates.txt, each after those that it depends on
#   sh scripts/sources.sh sum       one SHA-256 over these lines and over every .rt and .antt file of these crates, whatever its time
cd "$(dirname "$0")/.." || exit 2

crates() {
  awk '
    function visit(name,    list, n, i) {
      if (name in seen || !(name in line)) return
      seen[name] = 1
      n = split(line[name], list, " ")
      for (i = 1; i <= n; i++) visit(list[i])
      print name kind[name] ":" line[name]
    }
    { sub(/#.*/, "") }
    split($0, half, ":") == 2 {
      words = split(half[1], head, " ")
      line[head[1]] = half[2]
      for (i = 2; i <= words; i++) kind[head[1]] = kind[head[1]] " " head[i]
    }
    END { visit("tzb_c_c") }' crates.txt
}

sum() {
  lines=$(crates | LC_ALL=C sort) && [ -n "$lines" ] || return 2
  # (not what rt keeps in out/)
  folders=$(printf '%s\n' "$lines" | sed 's|[: ].*||' | while read -r crate; do
    for part in src specs proofs; do [ -d "crates/$crate/$part" ] && echo "crates/$crate/$part"; done
  done)
  {
    printf '%s\n' "$lines"
    # shellcheck disable=SC2086
    find $folders -type f \( -name '*.rt' -o -name '*.antt' \) -exec sha256sum {} + | LC_ALL=C sort -k2
  } | sha256sum | cut -d' ' -f1
}

case $1 in
  crates) crates ;;
  sum) sum ;;
  *) sed -n 's/^#   //p' "$0" >&2; exit 2 ;;
esac
