#!/bin/sh
# The archive libtzb_c.a: the reader's code, proved, for x86-64. All is told by what files contain, never by their times.
#   sh scripts/archive.sh           proves the reader and writes target/staticlib/libtzb_c.a; silent where that is of the present sources
#   sh scripts/archive.sh anew      proves and writes it, whatever stands there
#   sh scripts/archive.sh gate      the same in a clean clone after 'rt ci', over the libraries that this has just proved and left there
#   sh scripts/archive.sh folder    the folder of the archive to link: TZB_LIB, where that is set; else target/staticlib, where that
#                                   is of the present sources; else dist, and a line says so where dist is of other sources
#   sh scripts/archive.sh of FOLDER    whether the archive there is whole, and of the present sources
# Beside an archive stand its SHA-256, and its origin: the kind of host and the kit that wrote it, and the sum of its sources.
cd "$(dirname "$0")/.." || exit 2
name=libtzb_c.a
crate=crates/tzb_c_c
made=$crate/out/libtzb_c_c.a
folder=target/staticlib
log=target/archive.log

say() { echo "$1" >&2; }

fail() {
  say "$2"
  exit "$1"
}

sources() { sh scripts/sources.sh sum; }

# Whether the archive in a folder is the one that its sum is of.
whole() { [ -f "$1/$name" ] && [ "$(cat "$1/$name.sha256" 2>/dev/null)" = "$(cd "$1" && sha256sum $name)" ]; }

# Whether it is whole, and of sources with this sum.
made_of() { whole "$1" && [ -n "$2" ] && [ "$(sed -n 's/^sources //p' "$1/$name.origin" 2>/dev/null)" = "$2" ]; }

# What rt says, as lines 'N of M proved: CRATE' for the crates that it has proved now, where N is a crate's place in their order.
progress() {
  awk -v crates="$(sh scripts/sources.sh crates | sed 's/[: ].*//' | tr '\n' ' ')" '
    BEGIN { all = split(crates, list, " "); for (i = 1; i <= all; i++) place[list[i]] = i }
    /^crate [a-z0-9_]+: / { name = $2; sub(/:.*/, "", name) }
    /^logic=proved/ && name in place { printf "%d of %d proved: %s\n", place[name], all, name; fflush(); name = "" }'
}

# Builds the archive over the libraries that stand in out/. 'rt ci' leaves those that it has proved, and 'rt lib' would prove them again.
# The words are those by which rt itself calls rattle.
over_libraries() {
  kit=$(dirname "$(rt doc)") && cd $crate || return 2
  set -- --crate-name tzb_c_c --crate-type staticlib src/lib.rt
  for library in core std; do set -- "$@" --extern "$library=$kit/rlibs/$library.rlib"; done
  set -- "$@" -L "dependency=$kit/rlibs"
  for library in $(sh ../../scripts/sources.sh crates | sed -n 's/^tzb_c_c .*://p'); do
    set -- "$@" --extern "$library=../$library/out/rlib/$library.rlib"
  done
  for library in $(sh ../../scripts/sources.sh crates | sed 's/[: ].*//; /^tzb_c_c$/d'); do
    set -- "$@" -L "dependency=../$library/out/rlib"
  done
  mkdir -p out
  "$kit/bin/rattle" build "$@" --antt-project "$kit/rattle/logic/antt-project.json" --logic-built "$kit/logic_built" \
    --toolchain "$kit/toolchain" -o out/libtzb_c_c.a
}

build() { # gate, or nothing
  if [ "$1" = gate ]; then
    (over_libraries) && return
    echo "Nothing was built over what 'rt ci' left, so 'rt lib' proves the libraries again."
  fi
  cd $crate && rt lib
}

# Has the archive built, and prints the exit status. No file holds that: one that could not be written would keep an old one.
proved() {
  {
    {
      (build "$1") 2>&1
      echo $? >&3
    } | tee $log 2>/dev/null | progress >&2
  } 3>&1
}

prove() {
  command -v rt >/dev/null || fail 2 "Rattle's kit (rt), which proves the code and writes $folder/$name, has to be on the path."
  mkdir -p $folder || fail 2 "$folder cannot be made."
  # what is left of an earlier run could be taken for this one's
  rm -f $log $made $folder/$name $folder/$name.sha256 $folder/$name.origin 2>/dev/null
  for old in $made $folder/$name $folder/$name.sha256 $folder/$name.origin; do
    [ ! -e "$old" ] || fail 2 "$old cannot be removed, so it cannot be written anew."
  done
  before=$(sources)
  say 'Proving the reader (what was checked on this machine and has not changed is not proved again; from nothing it takes long) ...'
  status=$(proved "$1")
  if [ "$status" != 0 ]; then
    rm -f $made
    [ -f $log ] && tail -n 20 $log >&2
    fail 1 "The reader was not proved: rt ended with ${status:-nothing}; $log has what it said."
  fi
  [ -f $made ] || fail 1 "The reader was proved, and rt wrote no $made."
  [ "$(sources)" = "$before" ] || fail 1 'The sources were changed while they were proved. Prove them again.'
  cp $made $folder/$name || fail 2 "$made cannot be copied to $folder/$name."
  record "$before" || fail 2 "The archive's sum and origin cannot be written to $folder."
}

record() {
  (cd $folder && sha256sum $name >$name.sha256) &&
    printf 'host %s\nkit %s\nsources %s\n' "$(uname -m)" "$(rt version)" "$1" >$folder/$name.origin &&
    made_of $folder "$1"
}

to_link() {
  if [ -n "$TZB_LIB" ]; then
    [ -e "$TZB_LIB/$name" ] || fail 2 "TZB_LIB is $TZB_LIB, and there is no $name in it."
    echo "$TZB_LIB"
    return
  fi
  present=$(sources)
  if made_of $folder "$present"; then
    echo $folder
    return
  fi
  whole dist || fail 2 "dist/$name is missing, or its SHA-256 is not that of dist/$name.sha256. 'sh scripts/archive.sh' proves the reader and writes it anew."
  made_of dist "$present" ||
    say "Note: crates/ has changed since dist/$name was proved and written; that is used. 'sh scripts/archive.sh' proves what stands there now."
  echo dist
}

case $1 in
  '') made_of $folder "$(sources)" || prove ;;
  anew) prove ;;
  gate) prove gate ;;
  folder) to_link ;;
  of) made_of "$2" "$(sources)" ;;
  *) sed -n 's/^#   //p' "$0" >&2; exit 2 ;;
esac
