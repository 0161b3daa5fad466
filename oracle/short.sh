#!/bin/sh
# A short comparison with the Rust original, for the gate: the oracle's own tests, and beside them some seconds of each comparison.
#   sh oracle/short.sh ready    sets up what builds and runs x86-64 programs, where it is missing; says so where that cannot be
#   sh oracle/short.sh          compares, over the archive that stands; says so where the original's text is not there, which is no failure
cd "$(dirname "$0")/.." || exit 2
said=$(mktemp) || exit 2
trap 'rm -f "$said"' EXIT

ready() {
  DEBIAN_FRONTEND=noninteractive timeout 600 sh scripts/x86_64.sh ready </dev/null && return
  echo "comparison and agent's tests left out: Rust for x86-64, or its emulator, is not here and could not be installed"
  return 1
}

# The tests and the comparison are built and run side by side, in two folders.
compare() {
  original=${TZF_SRC:-../shared}
  if [ ! -e "$original/src--src--tzb--reader.rs.txt" ]; then
    echo "comparison left out: the original's text is not in $original"
    return
  fi
  CARGO_TARGET_DIR=oracle/target/short sh oracle/x86_64.sh run short 4 1 >"$said" 2>&1 &
  comparison=$!
  sh oracle/x86_64.sh test
  tested=$?
  wait $comparison
  compared=$?
  cat "$said"
  [ $tested = 0 ] && [ $compared = 0 ]
}

case $1 in
  '') compare ;;
  ready) ready ;;
  *) sed -n 's/^#   //p' "$0" >&2; exit 2 ;;
esac
