#!/bin/sh
# Counts the instructions that each side runs for each row of the benchmark, once through the row's inputs, and prints the ratio
# original / port. It takes qemu's user emulation and a C compiler. The archive has to stand, as for every run of the oracle.
#   sh oracle/count.sh FILE.tzb [ROWS]    ROWS is a part of a row's name: only such rows are counted
#   sh oracle/count.sh large [ROWS]       the same of a file with large groups, which the oracle makes
[ $# -gt 0 ] || { sed -n 's/^#   //p' "$0" >&2; exit 2; }
cd "$(dirname "$0")/.." || exit 2
mkdir -p target
cc -shared -fPIC -O2 -o target/count.so oracle/count.c || exit 2
built=$(sh scripts/x86_64.sh cargo build --release --offline --manifest-path oracle/Cargo.toml --message-format json |
  sed -n 's/.*"executable":"\([^"]*\)".*/\1/p')
[ -x "$built" ] || exit 2
COUNTS=target/counts qemu-x86_64 -plugin "$PWD/target/count.so" "$built" bench "$@" >target/counted || exit 1

# the first line heads a table of times; then each row has three marks: before the port, between the two, after the original
printf '%-46s%16s%16s%8s\n' item port original ratio
sed 1d target/counted >target/counted.rows
paste -d ' ' - - - <target/counts | paste -d '|' target/counted.rows - |
  awk -F '|' '{ split($2, at, " "); p = at[2] - at[1]; o = at[3] - at[2]; printf "%-46s%16.0f%16.0f%8.2f\n", $1, p, o, o / p }'
