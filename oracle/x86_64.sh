#!/bin/sh
# Builds and runs the oracle for x86-64, the only machine that the port's archive is written for: see scripts/x86_64.sh.
#   sh oracle/x86_64.sh setup           once for each machine: installs what the build needs (as root, on Debian)
#   sh oracle/x86_64.sh run WORDS..     builds the oracle and runs it, as 'run compare 60'
#   sh oracle/x86_64.sh test            the oracle's own tests
#   sh oracle/x86_64.sh align           target/aligned: the port's archive with each function at the start of a page
set -e
folder=$(dirname "$0")
task=$1
[ $# -gt 0 ] && shift

x86_64() { exec sh "$folder/../scripts/x86_64.sh" "$@"; }

case $task in
  setup) x86_64 setup ;;
  align)
    cd "$folder/.."
    mkdir -p target/aligned
    cp target/staticlib/libtzb_c.a target/aligned/
    names=$(x86_64-linux-gnu-objdump -h target/aligned/libtzb_c.a | grep -o '\.text\.[^ ]*' | sort -u)
    for name in $names; do
      x86_64-linux-gnu-objcopy --set-section-alignment "$name=4096" target/aligned/libtzb_c.a
    done ;;
  run) x86_64 cargo run --release --quiet --offline --manifest-path "$folder/Cargo.toml" -- "$@" ;;
  test) x86_64 cargo test --release --quiet --offline --manifest-path "$folder/Cargo.toml" ;;
  *) sed -n 's/^#   //p' "$0" >&2; exit 2 ;;
esac
