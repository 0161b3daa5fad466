#!/bin/sh
# Counts the instructions that each side runs for the first row of the benchmark with that name, function by function, and prints the
# twelve greatest of the port and of the original. It takes what oracle/count.sh takes.
#   sh oracle/profile.sh FILE.tzb ROW    ROW is a part of a row's name
#   sh oracle/profile.sh large ROW       the same of a file with large groups, which the oracle makes
[ $# -eq 2 ] || { sed -n 's/^#   //p' "$0" >&2; exit 2; }
cd "$(dirname "$0")/.." || exit 2
mkdir -p target
cc -shared -fPIC -O2 -o target/profile.so oracle/profile.c || exit 2
built=$(sh scripts/x86_64.sh cargo build --release --offline --manifest-path oracle/Cargo.toml --message-format json |
  sed -n 's/.*"executable":"\([^"]*\)".*/\1/p')
[ -x "$built" ] || exit 2
COUNTS=target/profile qemu-x86_64 -plugin "$PWD/target/profile.so" "$built" bench "$@" >target/counted || exit 1
sed -n 2p target/counted
# three marks a row: before the port, between the two, after the original
for side in port original; do
  [ $side = port ] && k=2 || k=3
  awk -v k=$k '$1 == "mark" { n++; next } n == k' target/profile | sort -rn |
    awk -v side=$side '{ all += $1; if (NR <= 12) line[NR] = $0 } END { printf "%s: %d\n", side, all; for (i = 1; i <= 12 && i in line; i++) { split(line[i], a, " "); printf "  %5.1f %%  %s\n", 100 * a[1] / all, substr(line[i], length(a[1]) + 2) } }'
done
