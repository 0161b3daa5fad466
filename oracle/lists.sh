#!/bin/sh
# Makes every kept list anew, and lays each where the gate replays it, with the number of its records in the line that is expected there.
#   sh oracle/lists.sh      writes target/lists, then crates/run_*/stdin and stdout, and what the program 'journal' is run on
set -e
cd "$(dirname "$0")/.."
lists=target/lists
mkdir -p $lists
sh oracle/x86_64.sh run lists $lists >$lists/said || { cat $lists/said; exit 1; }

# The number of records goes before the words that stand there already.
lay() {
  cp "$1" "crates/$2/stdin"
  words=$(cut -d' ' -f2- "crates/$2/stdout")
  echo "$3 $words" >"crates/$2/stdout"
  echo "crates/$2: $3 $words"
}

for name in varint ray open asked walked full map striped; do
  lay $lists/$name.bin run_$name "$(sed -n "s/^$name\.bin: \([0-9]*\) .*/\1/p" $lists/said)"
done
lay $lists/journal/entries.list run_entries "$(($(wc -c <$lists/journal/entries.list) / 64))"
cp $lists/journal/index.tzb crates/journal/data/index.tzb
cp $lists/journal/args $lists/journal/stdin $lists/journal/stdout crates/journal/
