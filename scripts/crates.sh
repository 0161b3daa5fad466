#!/bin/sh
# Holds crates.txt, the tables of docs/ARCHITECTURE.md and the exports to the crates themselves, in a second:
#   sh scripts/crates.sh          says what differs, and fails if anything does
#   sh scripts/crates.sh named    prints what each crate names, as lines of crates.txt
# - A line of crates.txt lists the crates that its crate names, and no others. Whoever names tzb_core or replies gets answer,
#   since their enums hold its refusals.
# - The tables have the crates of crates.txt, in the same wings, in the same order.
# - What a table says that a crate may know of are crates that it names; and all others that it names stand below one of them.
# - tzb_c_c exports each public function of tzb_c, in their order, with the same parameters and the same clauses, whose words it
#   imports from the same modules.
cd "$(dirname "$0")/.." || exit 2
room=$(mktemp -d) || exit 2
trap 'rm -rf "$room"' EXIT

# The lines of crates.txt, of a static library too as NAME: DEP DEP ..
plainly() { sed 's/^\([a-z0-9_]*\) staticlib:/\1:/' crates.txt; }

listed() { plainly | sed -n 's/^\([a-z0-9_]*\):.*/\1/p'; }

# What each crate names: modules of its definitions and proofs, and the heads of its code's paths. Lines of comment do not count.
named() {
  all=" $(plainly | sed 's/#.*//' | tr -s ':\n' ' ') "
  for crate in $(listed); do
    find "crates/$crate/src" "crates/$crate/specs" "crates/$crate/proofs" -type f \( -name '*.rt' -o -name '*.antt' \) -exec cat {} + 2>/dev/null |
      sed 's/^[[:space:]]*\(--\|\/\/\).*//' |
      grep -oE 'Rattle\.[a-z0-9_]+|(^|[^a-z0-9_:])[a-z0-9_]+::' | sed 's/^Rattle\.//; s/^[^a-z0-9_]//; s/::$//' | LC_ALL=C sort -u |
      CRATE=$crate ALL=$all awk '
        index(ENVIRON["ALL"], " " $0 " ") && $0 != ENVIRON["CRATE"] { names = names " " $0; has[$0] = 1 }
        END { if ((has["tzb_core"] || has["replies"]) && !has["answer"]) names = names " answer"; print ENVIRON["CRATE"] ":" names }'
  done
}

# WING CRATE, a line each
wings() { plainly | awk '/^# / { wing = $2 } /^[a-z0-9_]+:/ { sub(/:.*/, ""); print wing, $0 }'; }
tables() { awk '/^### / { wing = $2 } /^\| `[a-z0-9_]+` \|/ { gsub(/`/, "", $2); print wing, $2 }' docs/ARCHITECTURE.md; }

# CRATE: crates of the third column
told() { awk -F'|' '/^\| `[a-z0-9_]+` \|/ { name = $2; gsub(/[` ]/, "", name); gsub(/[`,]/, " ", $4); print name ":" $4 }' docs/ARCHITECTURE.md; }

# The public functions of a crate's root, each with its clauses as a line.
functions() {
  sed 's/^pub extern "C" fn /pub fn /' "crates/$1/src/lib.rt" | awk '
    /^pub fn / { text = "" ; on = 1 }
    /^{/ && on { gsub(/ +/, " ", text); gsub(/\( /, "(", text); gsub(/, \)/, ")", text); print text; on = 0 }
    on { text = text " " $0 }'
}

# MODULE WORD for each word that its clauses import, a line each.
imported() {
  sed -n 's/^ghost use \(.*\)\.{\(.*\)};$/\1, \2/p; s/^ghost use \([^{}]*\)\.\([^.{}]*\);$/\1, \2/p' "crates/$1/src/lib.rt" |
    awk -F', ' '{ for (i = 2; i <= NF; i++) print $1, $i }' | LC_ALL=C sort
}

exports() {
  for crate in tzb_c tzb_c_c; do
    functions $crate >"$room/$crate"
    imported $crate >"$room/$crate.imported"
  done
  if [ ! -s "$room/tzb_c" ] || ! cmp -s "$room/tzb_c" "$room/tzb_c_c"; then
    echo 'tzb_c_c does not export what tzb_c has, in the same words (left: tzb_c):'
    diff "$room/tzb_c" "$room/tzb_c_c"
    return 1
  fi
  LC_ALL=C comm -13 "$room/tzb_c.imported" "$room/tzb_c_c.imported" | sed 's/^/tzb_c_c imports, and tzb_c does not: /' >"$room/imported"
  cat "$room/imported"
  [ ! -s "$room/imported" ]
}

check() {
  named >"$room/named"
  plainly | sed -n '/^[a-z0-9_]*:/p' >"$room/crates"
  told >"$room/told"
  wings >"$room/wings"
  tables >"$room/tables"
  awk '
    function line(text) { at = index(text, ":"); name = substr(text, 1, at - 1); rest = substr(text, at + 1) }
    function below(c, d,    list, n, i) { # d is c, or stands below it
      if (c == d) return 1
      n = split(deps[c], list, " ")
      for (i = 1; i <= n; i++) if (below(list[i], d)) return 1
      return 0
    }
    { line($0) }
    FILENAME ~ /named$/ { want[name] = rest; next }
    FILENAME ~ /crates$/ { deps[name] = rest; own[name] = 1; order[++count] = name; n = split(rest, a, " "); for (i = 1; i <= n; i++) known[a[i]] = 1; next }
    { may[name] = rest }
    END {
      for (k = 1; k <= count; k++) {
        c = order[k]
        n = split(want[c], a, " "); for (i = 1; i <= n; i++) if (index(" " deps[c] " ", " " a[i] " ") == 0) { print "crates.txt: " c " names " a[i] ", which its line does not list"; bad = 1 }
        n = split(deps[c], a, " "); for (i = 1; i <= n; i++) if (index(" " want[c] " ", " " a[i] " ") == 0) { print "crates.txt: " c " lists " a[i] ", which it does not name"; bad = 1 }
        if (!(c in may)) { print "docs/ARCHITECTURE.md: no row for " c; bad = 1; continue }
        m = split(may[c], b, " ")
        for (j = 1; j <= m; j++) if (b[j] != "nothing") { if (index(" " want[c] " ", " " b[j] " ") == 0) { print "docs/ARCHITECTURE.md: " c " may know of " b[j] ", and does not name it"; bad = 1 } }
        n = split(want[c], a, " ")
        for (i = 1; i <= n; i++) {
          ok = 0
          for (j = 1; j <= m; j++) if (b[j] == a[i] || (b[j] in own && below(b[j], a[i]))) ok = 1
          if (!(a[i] in own)) ok = 1 # of the kit
          if (!ok) { print "docs/ARCHITECTURE.md: " c " knows of " a[i] ", and its row does not say so"; bad = 1 }
        }
      }
      exit bad
    }' "$room/named" "$room/crates" "$room/told"
  status=$?
  if ! cmp -s "$room/wings" "$room/tables"; then
    echo 'docs/ARCHITECTURE.md: its tables are not the wings of crates.txt (left: crates.txt):'
    diff "$room/wings" "$room/tables"
    status=1
  fi
  exports || status=1
  [ $status = 0 ] && echo "crates: $(listed | wc -l | tr -d ' ') crates, each lists what it names, and the tables say so; $(wc -l <"$room/tzb_c_c") exports"
  return $status
}

case ${1:-check} in
  check) check ;;
  named) named ;;
  *) sed -n 's/^#   //p' "$0" >&2; exit 2 ;;
esac
