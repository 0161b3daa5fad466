#!/bin/sh
# Tests of the scripts and the gate, in seconds, in a repository of four small crates: rt, rattle, cargo and what installs only pretend there.
# The comparison of disassemblies is tried on dist/libtzb_c.a itself, laid out anew and changed in one place.
root=$(cd "$(dirname "$0")/.." && pwd) || exit 2
room=$(mktemp -d) || exit 2
trap 'rm -rf "$room"' EXIT
repo=$room/repo
name=libtzb_c.a
staticlib=$repo/target/staticlib
passed=0
failed=0

# ---- what a test says

held() { # NAME, after the command that has to succeed
  if [ $? = 0 ]; then
    passed=$((passed + 1))
  else
    failed=$((failed + 1))
    echo "scripts: FAILED: $1"
    sed 's/^/  /' "$room/said" 2>/dev/null
  fi
}

# Whether a command ends with a status; what it says goes to a file.
ends() { # STATUS WORDS..
  wanted=$1
  shift
  "$@" >"$room/said" 2>&1
  status=$?
  [ $status = "$wanted" ]
}

says() { grep -q -- "$1" "$room/said"; }

calls() { cat "$room/calls" 2>/dev/null | wc -l; }

# ---- the repository, and the programs that pretend

mkdir "$room/bin"
cat >"$room/bin/rt" <<'END'
#!/bin/sh
case $1 in
  version) echo a kit that pretends; exit ;;
  doc) echo "$ROOM/kit/START-HERE.md"; exit ;;
esac
echo "rt $*" >>"$ROOM/calls"
if [ "$1" = ci ]; then
  mkdir -p crates/low/out/rlib
  echo "rt: ok; handles allowed: none; must-fail edits: ${RT_EDITS:-3 refused}; every proof and must-fail edit was done in this run"
  [ "$RT_DOES" != fail ] || { echo '2 passed, 1 failed'; exit 1; }
  echo '7 passed, 0 failed'
  exit
fi
case $RT_DOES in
  fail) echo 'rt: the library low did not build, so nothing above it was checked'; exit 1 ;;
  die) kill -9 $$ ;;
  nothing) exit 0 ;;
  edit) echo '// more' >>../low/src/lib.rt ;;
esac
for crate in low tzb_c tzb_c_c; do
  echo "crate $crate: modules loaded=0 checked=81"
  echo 'logic=proved functions=1 sum=0'
done
mkdir -p out
cat ${RT_WRITES:-../*/src/*.rt} >out/libtzb_c_c.a
END
# The kit's compiler, which links over what 'rt ci' has left.
mkdir -p "$room/kit/bin"
cat >"$room/kit/bin/rattle" <<'END'
#!/bin/sh
echo "rattle $*" >>"$ROOM/calls"
[ "$RATTLE_DOES" != fail ] || { echo 'rattle: no such library'; exit 2; }
while [ "$1" != -o ]; do shift; done
cat ../*/src/*.rt >"$2"
END
# Stands for scripts/x86_64.sh: what it builds is a script that says its words.
cat >"$room/x86_64" <<'END'
echo "$1" >>"$ROOM/calls"
case $1 in
  cargo)
    for folder in agent/target/release agent/target/x86_64-unknown-linux-gnu/release; do
      mkdir -p "$ROOM/repo/$folder"
      printf '#!/bin/sh\necho "built: $*"\n' >"$ROOM/repo/$folder/tzb"
      chmod +x "$ROOM/repo/$folder/tzb"
    done ;;
  exec) shift; exec "$@" ;;
esac
END
chmod +x "$room/bin/rt" "$room/kit/bin/rattle"
export ROOM="$room"

repository() {
  rm -rf "$repo" "$room/calls"
  for crate in low tzb_c tzb_c_c beside; do
    mkdir -p "$repo/crates/$crate/src"
    echo "// $crate" >"$repo/crates/$crate/src/lib.rt"
  done
  mkdir -p "$repo/agent/src/command"
  printf 'tzb_c_c staticlib: tzb_c\nlow:\ntzb_c: low # the exports\nbeside: low\n' >"$repo/crates.txt"
  cp -R "$root/scripts" "$root/tzb" "$repo/"
  cp "$room/x86_64" "$repo/scripts/x86_64.sh"
  cp "$root/agent/build.rs" "$root/agent/Cargo.toml" "$root/agent/Cargo.lock" "$repo/agent/"
  cp "$root/agent/src/command/help.txt" "$repo/agent/src/command/"
  ends 0 dist write
  rm -rf "$repo/target" "$repo"/crates/*/out "$room/calls"
}

archive() { PATH="$room/bin:$PATH" sh "$repo/scripts/archive.sh" "$@"; }
dist() { PATH="$room/bin:$PATH" sh "$repo/scripts/dist.sh" "$@"; }
links() { [ "$(archive folder 2>"$room/said")" = "$1" ]; }
old_times() { find "$repo" -exec touch -d 2001-01-01 {} +; }

# A file that reads 0 and that not even root can write: one of the system's own. Elsewhere a mode has to do.
unwritable() { # FILE
  for zero in /sys/devices/system/cpu/cpu0/topology/*_id; do
    if [ "$(cat "$zero" 2>/dev/null)" = 0 ]; then
      ln -s "$zero" "$1"
      return
    fi
  done
  echo 0 >"$1"
  chmod 444 "$1"
}

# ---- scripts/archive.sh

proving() {
  repository
  ends 0 archive && [ "$(calls)" = 1 ] && says '^1 of 3 proved: low$' && says '^2 of 3 proved: tzb_c$' && says '^3 of 3 proved: tzb_c_c$'
  held 'the reader is proved, and is told how many of how many'
  ends 0 archive && [ "$(calls)" = 1 ] && [ ! -s "$room/said" ]
  held 'what is of the present sources is not proved again'
  find "$repo" -exec touch {} + && ends 0 archive && [ "$(calls)" = 1 ]
  held 'newer times alone prove nothing again'
  echo '// other' >"$repo/crates/low/src/lib.rt" && old_times && ends 0 archive && [ "$(calls)" = 2 ]
  held 'a change with an old time is proved'
  echo '// other' >"$repo/crates/beside/src/lib.rt" && ends 0 archive && [ "$(calls)" = 2 ]
  held 'a crate that the archive is not made of does not count'
  mkdir -p "$repo/crates/low/out/rlib" && echo '// kept' >"$repo/crates/low/out/rlib/lib.rt" && ends 0 archive && [ "$(calls)" = 2 ]
  held 'nor does what rt keeps in out/'
  ends 0 archive anew && [ "$(calls)" = 3 ]
  held 'anew proves, whatever stands there'
}

# After 'rt ci' the gate proves no library again.
linking_after_ci() {
  repository
  ends 0 archive gate && [ "$(calls)" = 1 ] && links target/staticlib &&
    grep -q '^rattle build --crate-name tzb_c_c --crate-type staticlib .*--extern tzb_c=../tzb_c/out/rlib/tzb_c.rlib .*-L dependency=../low/out/rlib' "$room/calls"
  held 'the gate links over the libraries that stand there'
  RATTLE_DOES=fail ends 0 archive gate && grep -q '^rt lib' "$room/calls" && links target/staticlib
  held 'where that is not possible, rt lib proves them'
  RATTLE_DOES=fail RT_DOES=fail ends 1 archive gate && says 'not proved' && ! links target/staticlib
  held 'where neither is possible, there is no archive'
}

# A failed proof is a failure, whatever an earlier run has left, and leaves nothing that could be taken for a proved archive.
failing() {
  for does in fail die; do
    repository
    mkdir -p "$staticlib" && echo old >"$staticlib/$name" && unwritable "$repo/target/archive.log.status"
    echo '// newer' >>"$repo/crates/low/src/lib.rt"
    RT_DOES=$does ends 1 archive && [ ! -e "$staticlib/$name" ] && says 'not proved'
    held "a failed proof ($does) is a failure beside an old status"
    RT_DOES=$does ends 1 archive && [ "$(calls)" = 2 ] && links dist && says 'crates/ has changed'
    held "a failed proof ($does) is tried again, and its archive is not linked"
  done
  repository
  ends 0 archive && echo '// newer' >>"$repo/crates/low/src/lib.rt" && old_times && RT_DOES=fail ends 1 archive && RT_DOES=fail ends 1 archive
  held 'a failed proof is a failure beside a proved archive of before'
  mkdir "$room/log" && rm -f "$repo/target/archive.log" && mv "$room/log" "$repo/target/archive.log" && RT_DOES=fail ends 1 archive
  held 'a failed proof is a failure where its log cannot be written'
  ends 0 archive
  held 'a proof is a success where its log cannot be written'
  repository
  mkdir -p "$staticlib" && echo old >"$staticlib/$name" && RT_DOES=nothing ends 1 archive
  held 'an rt that writes nothing is a failure beside an old archive'
  RT_DOES=edit ends 1 archive && ! links target/staticlib
  held 'sources that change while they are proved are not taken for proved'
  for file in $name $name.origin $name.sha256; do
    repository
    mkdir -p "$staticlib/$file" && ends 2 archive && ! links target/staticlib
    held "$file cannot be written, which is a failure"
  done
  repository
  echo in the way >"$repo/target" && ends 2 archive
  held 'target cannot be made, which is a failure'
}

linking() {
  repository
  links dist && [ ! -s "$room/said" ]
  held 'a fresh clone links dist, and nothing is to be said'
  echo '// newer' >>"$repo/crates/low/src/lib.rt" && old_times && links dist && says 'crates/ has changed'
  held 'other sources than those of dist are told'
  ends 0 archive && links target/staticlib && [ ! -s "$room/said" ]
  held 'what was proved here is linked'
  (cd "$repo/crates/tzb_c_c" && "$room/bin/rt" lib >/dev/null) && links target/staticlib
  held 'rt itself, run on the same sources, changes nothing'
  echo other >"$staticlib/$name" && links dist
  held 'an archive that is not the recorded one is not linked'
  mkdir "$repo/elsewhere" && ! TZB_LIB=elsewhere links elsewhere && : >"$repo/elsewhere/$name" && TZB_LIB=elsewhere links elsewhere
  held 'TZB_LIB goes before all, and has to have the archive'
  rm -rf "$repo/target" && echo other >"$repo/dist/$name" && ! links dist && says 'SHA-256'
  held 'dist with another sum is not linked'
}

# ---- ./tzb

tzb() { "$repo/tzb" "$@"; }

built_times() { grep -c cargo "$room/calls" 2>/dev/null; }

building() {
  repository
  ends 0 tzb zone file 1 2 && says '^built: zone file 1 2$' && [ "$(built_times)" = 1 ] && ! grep -q rt "$room/calls"
  held 'the first command builds, and proves nothing'
  ends 0 tzb zone file 1 2 && find "$repo" -exec touch {} + && ends 0 tzb names file && [ "$(built_times)" = 1 ]
  held 'later ones build nothing, whatever the times'
  ends 0 archive && old_times && ends 0 tzb names file && [ "$(built_times)" = 1 ]
  held 'an archive with the same bytes builds nothing'
  (cd "$repo/crates/tzb_c_c" && "$room/bin/rt" lib >/dev/null) && ends 0 tzb names file && [ "$(built_times)" = 1 ]
  held 'rt lib on unchanged sources builds nothing'
  echo '// newer' >>"$repo/crates/low/src/lib.rt" && ends 0 archive && old_times && ends 0 tzb names file && [ "$(built_times)" = 2 ]
  held 'an archive with other bytes builds the command anew'
  echo '# more' >>"$repo/agent/Cargo.toml" && old_times && ends 0 tzb names file && [ "$(built_times)" = 3 ]
  held "a change of the command's own text builds it anew"
}

# Nothing is proved, built or installed for these: no program for it is on the path, and no script for it is there.
at_once() { # STATUS WORDS..
  wanted=$1
  shift
  PATH="$room/few" "$repo/tzb" "$@" >"$room/out" 2>"$room/said"
  [ $? = "$wanted" ] && [ "$(calls)" = 0 ]
}

words_alone() {
  repository
  rm -rf "$repo/dist" "$repo/scripts"
  mkdir "$room/few"
  for tool in sh awk sed grep dirname readlink uname; do ln -s "$(command -v $tool)" "$room/few/$tool"; done
  at_once 0 --help && grep -q '^tzb: which zone' "$room/out" && ! grep -q '^====' "$room/out"
  held '--help'
  at_once 0 zones --help && [ "$(head -n 1 "$room/out" | cut -c1-9)" = 'tzb zones' ] && grep -q '^Exit status' "$room/out"
  held 'zones --help'
  at_once 0 --version && [ "$(cat "$room/out")" = "tzb $(sed -n 's/^version = "\(.*\)"/\1/p' "$root/agent/Cargo.toml")" ]
  held '--version'
  at_once 2 sone file 1 2 && [ ! -s "$room/out" ] && says 'tzb: "sone" is not known' && says "Try 'tzb --help'"
  held 'a word that is not known'
  at_once 2 zone --nothing file 1 2 && says 'there is no option "--nothing"' && says "Try 'tzb zone --help'"
  held 'an option that is not known'
  at_once 2 && says 'what is to be done'
  held 'no word'
  at_once 2 names -n && says 'which index file'
  held 'no file'
}

# What ./tzb says by itself is what the command says, where that has been built.
same_words() {
  built=$root/agent/target/release/tzb
  [ "$(uname -m)" = x86_64 ] || built=$root/agent/target/x86_64-unknown-linux-gnu/release/tzb
  [ -x "$built" ] || return
  ends 0 "$root/tzb" info "$root/sample/real-ne.tzb"
  held 'the command is built of what stands there'
  for words in '' -h --help help --version -V sone '--nothing x' zone 'zone --nothing f 1 2' 'check -n f' 'names -n' 'info --' \
    'zone -h' 'zones f --help' 'check --help' 'names --help' 'info --help' 'map --help' map 'map -n f 1' 'map -o' \
    'journal --help' 'show-journal --help' journal show-journal 'journal -n f' 'show-journal -b f'; do
    # shellcheck disable=SC2086
    sh "$root/scripts/x86_64.sh" exec "$built" $words >"$room/theirs" 2>&1
    status=$?
    # shellcheck disable=SC2086
    ends $status "$root/tzb" $words && cmp -s "$room/said" "$room/theirs"
    held "./tzb $words: as the command itself"
  done
}

# ---- scripts/dist.sh

# Writes an archive to target/staticlib, as rt would have, and asks whether dist is that.
against() { # STATUS ARCHIVE
  RT_WRITES=$2 archive anew >/dev/null 2>&1
  ends "$1" dist check
}

keeping() {
  repository
  ends 1 dist check && says 'not of the present sources'
  held 'dist is compared with nothing but what was just proved'
  ends 0 archive && ends 0 dist check && says 'byte for byte'
  held 'dist is what was proved'
  against 1 "$root/tzb" && says 'not what was just proved'
  held 'on the kind of host that wrote it a byte counts'
  echo '// newer' >>"$repo/crates/low/src/lib.rt" && ends 0 archive && ends 1 dist check && says 'other sources'
  held 'dist of other sources'
  ends 0 dist write && ends 0 dist check && echo other >"$repo/dist/$name" && ends 1 dist check && says 'SHA-256'
  held 'dist with another sum'
}

# ---- .ci/run

gate() { PATH="$room/bin:$PATH" sh "$repo/.ci/run" "$@"; }

# The repository, with what the gate runs beside rt and the archive only told.
gated_repository() {
  repository
  mkdir -p "$repo/.ci" "$repo/oracle"
  cp "$root/.ci/run" "$repo/.ci/"
  for script in scripts/crates.sh scripts/test.sh oracle/short.sh agent/test.sh; do
    printf 'echo "%s $*" >>"$ROOM/calls"\n[ "$GATE_FAILS" != "%s${1:+ $1}" ]\n' $script $script >"$repo/$script"
  done
}

gating() {
  gated_repository
  ends 0 gate && [ "$(tail -n 1 "$room/said")" = '7 passed, 0 failed' ] && says 'byte for byte' &&
    [ "$(cut -d' ' -f1,2 "$room/calls" | sed -n '1,2p;5,$p' | tr '\n' ,)" = 'scripts/crates.sh ,rt ci,oracle/short.sh ,agent/test.sh ,scripts/test.sh ,' ] &&
    [ "$(sed -n 3,4p "$room/calls" | LC_ALL=C sort | cut -d' ' -f1,2 | tr '\n' ,)" = 'oracle/short.sh ready,rattle build,' ]
  held 'the gate runs all that it is to, and ends in what rt says'
  gated_repository
  mkdir -p "$repo/crates/low/out/rlib" && ends 0 gate && grep -q '^rt lib' "$room/calls" && ! grep -q '^rattle' "$room/calls"
  held 'libraries that stood there before are not linked'
  for edits in '3 refused, 1 bad' '3 refused, 2 of them only by a limit, 12 bad'; do
    gated_repository
    RT_EDITS=$edits ends 1 gate && says 'edits are bad' && ! grep -q 'test.sh' "$room/calls"
    held "bad edits fail the gate ($edits)"
  done
  gated_repository
  RT_EDITS='3 refused, 2 of them only by a limit' ends 0 gate
  held 'edits that are refused only by a limit do not'
  gated_repository
  RT_DOES=fail ends 1 gate && [ "$(tail -n 1 "$room/said")" = '2 passed, 1 failed' ] && ! grep -q 'rattle\|test.sh' "$room/calls"
  held 'where rt ci fails, that is the last line'
  echo '// newer' >>"$repo/crates/low/src/lib.rt" && rm "$room/calls" && ends 1 gate && says 'dist/ is of other sources' && ! grep -q '^rt' "$room/calls"
  held 'dist of other sources is told before anything is proved'
  for script in scripts/crates.sh scripts/test.sh oracle/short.sh agent/test.sh; do
    gated_repository
    GATE_FAILS=$script ends 1 gate && tail -n 1 "$room/said" | grep -q '^FAILED'
    held "where $script fails, the gate does"
  done
  gated_repository
  GATE_FAILS='oracle/short.sh ready' ends 0 gate && ! grep -q 'agent/test.sh' "$room/calls"
  held 'without Rust for x86-64 the comparison and the agent'\''s tests are left out'
}

change_byte() { # FILE AT VALUE, in octal
  printf "\\$3" | dd of="$1" bs=1 seek="$2" conv=notrunc 2>/dev/null
}

disassembling() {
  prefix=
  command -v x86_64-linux-gnu-objdump >/dev/null && prefix=x86_64-linux-gnu-
  for tool in ar as ld objcopy objdump; do
    if ! command -v $prefix$tool >/dev/null || { [ -z "$prefix" ] && [ "$(uname -m)" != x86_64 ]; }; then
      echo "scripts: the comparison of disassemblies was not tried: there is no $tool for x86-64"
      return
    fi
  done
  export TZB_HOST=another
  repository
  cp "$root/dist/$name" "$room/whole.a"
  with_table || return
  RT_WRITES=$room/whole.a archive anew >/dev/null 2>&1 && ends 1 dist check
  cp "$staticlib/$name" "$staticlib/$name.sha256" "$staticlib/$name.origin" "$repo/dist/"
  against 0 "$room/whole.a" && says 'functions does what'
  held 'another kind of host, the same bytes'

  "${prefix}ar" p "$room/whole.a" >"$room/whole.o"
  cat >"$room/laid" <<'END'
SECTIONS {
  .text 0 : SUBALIGN(256) { *(SORT_BY_NAME(.text.tzb*)) *(SORT_BY_NAME(.text.*)) }
  .rodata.cst16 0 : { *(.rodata.cst16) }
  .rodata.cst8 0 : { *(.rodata.cst8) }
  .rodata.cst4 0 : { *(.rodata.cst4) }
  .rodata 0 : { *(SORT_BY_NAME(.rodata.*)) }
}
END
  "${prefix}ld" -r -T "$room/laid" -o "$room/laid.o" "$room/whole.o" && "${prefix}ar" rcs "$room/laid.a" "$room/laid.o"
  ! cmp -s "$room/laid.a" "$room/whole.a" && against 0 "$room/laid.a"
  held 'functions in another order, with other padding, are the same'
  TZB_HOST=$(uname -m) against 1 "$room/laid.a"
  held 'and other bytes'

  part() { # SECTION AT VALUE: the archive with one byte of a section changed
    rm -f "$room/part.o" "$room/part.a"
    "${prefix}objcopy" -O binary --only-section="$1" "$room/whole.o" "$room/section" && cp "$room/section" "$room/section.was" &&
      change_byte "$room/section" "$2" "$3" && ! cmp -s "$room/section" "$room/section.was" &&
      "${prefix}objcopy" --update-section "$1=$room/section" "$room/whole.o" "$room/part.o" 2>/dev/null &&
      "${prefix}ar" rcs "$room/part.a" "$room/part.o" && ! cmp -s "$room/part.o" "$room/whole.o"
  }
  part .text.tzb_parity 0 220 && against 1 "$room/part.a" && says 'tzb_parity'
  held 'an instruction changed'
  part .rodata.cst8 7 101 && against 1 "$room/part.a"
  held 'a constant changed'
  "${prefix}objcopy" --redefine-sym tzb_ray=tzb_rays "$room/whole.o" "$room/part.o" && "${prefix}ar" rcs "$room/named.a" "$room/part.o" &&
    against 1 "$room/named.a" && says 'tzb_rays'
  held 'a function with another name'
  at=$(moved_table "$room/whole.o")
  cp "$room/whole.o" "$room/part.o" && [ -n "$at" ] && change_byte "$room/part.o" "$at" 2 && "${prefix}ar" rcs "$room/table.a" "$room/part.o" &&
    against 1 "$room/table.a"
  held 'a table that leads elsewhere'
  unset TZB_HOST
}

# An archive may have a jump table or none. Where there is none, a function with one is put beside the others.
with_table() {
  "${prefix}ar" p "$room/whole.a" >"$room/whole.o"
  [ -z "$(moved_table "$room/whole.o")" ] || return 0
  cat >"$room/tabled.s" <<'END'
	.section .text.tabled,"ax",@progbits
	.globl tabled
	.type tabled,@function
tabled:
	cmpq $1, %rdi
	ja .Lneither
	leaq .Ltable(%rip), %rax
	movslq (%rax,%rdi,4), %rcx
	addq %rax, %rcx
	jmpq *%rcx
.Lfirst:
	movl $1, %eax
	retq
.Lsecond:
	movl $2, %eax
	retq
.Lneither:
	xorl %eax, %eax
	retq
	.size tabled, .-tabled
	.section .rodata.tabled,"a",@progbits
	.p2align 2
.Ltable:
	.long .Lfirst-.Ltable
	.long .Lsecond-.Ltable
	.section .note.GNU-stack,"",@progbits
END
  "${prefix}as" -o "$room/tabled.o" "$room/tabled.s" && "${prefix}ld" -r -o "$room/both.o" "$room/whole.o" "$room/tabled.o" &&
    rm -f "$room/whole.a" && "${prefix}ar" rcs "$room/whole.a" "$room/both.o" && [ -n "$(moved_table "$room/both.o")" ]
  held 'a function with a table beside the others'
}

# Where the first number of a jump table's relocations stands in an object file.
moved_table() {
  "${prefix}readelf" -SW "$1" | sed -n 's/^ *\[ *[0-9]*\] *\.rela\.rodata\.[^ ]* *RELA *[0-9a-f]* *\([0-9a-f]*\) .*/\1/p' | head -n 1 |
    { read -r start && echo $((0x$start + 16)); }
}

proving
linking_after_ci
failing
linking
building
words_alone
same_words
keeping
gating
disassembling
echo "scripts: $passed passed, $failed failed"
[ $failed = 0 ]
