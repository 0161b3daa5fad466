#!/bin/sh
# dist/: the proved archive as it is kept in the repository, so that a first use proves nothing.
#   sh scripts/dist.sh check                whether dist/ is what has just been proved and written to target/staticlib
#   sh scripts/dist.sh write                writes dist/ anew from there; proves the reader first, where that is not of the present sources
#   sh scripts/dist.sh functions ARCHIVE    what every function of an archive does, a line each, sorted (scripts/functions.awk)
# On the kind of host that wrote dist/ the bytes are compared. Another kind writes other bytes: there it is the disassembly of every function.
cd "$(dirname "$0")/.." || exit 2
name=libtzb_c.a
fresh=target/staticlib
# TZB_HOST is for tests: it stands for another kind of host.
host=${TZB_HOST:-$(uname -m)}

fail() {
  echo "$1" >&2
  exit 1
}

# A disassembler for x86-64.
disassembler() {
  for tool in x86_64-linux-gnu-objdump objdump; do
    "$tool" -i 2>/dev/null | grep -q '^elf64-x86-64$' && echo "$tool" && return
  done
  return 1
}

functions() { # DISASSEMBLER ARCHIVE ROOM
  "$1" -w -h -t -r -s "$2" >"$3/parts" && "$1" -w -d -r --no-show-raw-insn "$2" >"$3/code" &&
    LC_ALL=C awk -f scripts/functions.awk "$3/parts" part=code "$3/code" >"$3/functions" && [ -s "$3/functions" ] &&
    LC_ALL=C sort "$3/functions"
}

compare_functions() {
  if ! tool=$(disassembler); then
    echo "dist/$name not compared: it was written on $writer, this is $host, and there is no objdump for x86-64 (Debian: binutils-x86-64-linux-gnu)"
    return
  fi
  functions "$tool" dist/$name "$room" >"$room/dist" && functions "$tool" $fresh/$name "$room" >"$room/fresh" ||
    fail "dist/$name and $fresh/$name cannot be disassembled by $tool."
  if ! cmp -s "$room/dist" "$room/fresh"; then
    LC_ALL=C comm -3 "$room/dist" "$room/fresh" | sed 's/^\t//' | cut -f1 | sort -u >&2
    for side in dist fresh; do tr '\t' '\n' <"$room/$side" >"$room/$side.lines"; done
    diff "$room/dist.lines" "$room/fresh.lines" | head -n 20 >&2
    fail "dist/$name does not do what the code just proved does, in the functions named above. 'sh scripts/dist.sh write' writes it anew."
  fi
  echo "dist/$name, written on $writer: each of its $(wc -l <"$room/dist") functions does what was just proved"
}

check() {
  sh scripts/archive.sh of $fresh || fail "$fresh/$name is not of the present sources: 'sh scripts/archive.sh' proves them."
  [ "$(cat dist/$name.sha256)" = "$(cd dist && sha256sum $name)" ] || fail "The SHA-256 of dist/$name is not that of dist/$name.sha256."
  sh scripts/archive.sh of dist || fail "dist/$name is of other sources than those just proved. 'sh scripts/dist.sh write' writes it anew."
  writer=$(sed -n 's/^host //p' dist/$name.origin)
  if [ "$host" = "$writer" ]; then
    cmp dist/$name $fresh/$name >&2 || fail "dist/$name is not what was just proved and written. 'sh scripts/dist.sh write' writes it anew."
    echo "dist/$name: byte for byte what was just proved"
  else
    compare_functions
  fi
}

write() {
  sh scripts/archive.sh && mkdir -p dist && cp $fresh/$name $fresh/$name.sha256 $fresh/$name.origin dist/ && check
}

room=$(mktemp -d) || exit 2
trap 'rm -rf "$room"' EXIT
case $1 in
  check) check ;;
  write) write ;;
  functions)
    tool=$(disassembler) || fail 'There is no objdump for x86-64.'
    functions "$tool" "$2" "$room" ;;
  *) sed -n 's/^#   //p' "$0" >&2; exit 2 ;;
esac
