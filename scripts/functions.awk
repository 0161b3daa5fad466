# One line for each function of an x86-64 archive: what it does, and not where it stands. See scripts/dist.sh.
#   awk -f functions.awk PARTS part=code CODE
# PARTS is what 'objdump -w -h -t -r -s' says of the archive, CODE what 'objdump -w -d -r --no-show-raw-insn' says.
# A jump's target is the number of the instruction in its function, and padding does not count; what a relocation names is a
# function's name, or the bytes of a constant or a table. A table's places in code are told as a jump's target.

function hex(text,    value, i) {
  if (length(text) > 8 && text ~ /^ffffffff/) return hex(substr(text, length(text) - 7)) - 4294967296
  value = 0
  for (i = 1; i <= length(text); i++) value = value * 16 + index("0123456789abcdef", substr(text, i, 1)) - 1
  return value
}

# The symbol and the number added to it.
function split_target(text) {
  added = 0
  if (match(text, /[+-]0x[0-9a-f]+$/)) {
    added = hex(substr(text, RSTART + 3))
    if (substr(text, RSTART, 1) == "-") added = -added
    text = substr(text, 1, RSTART - 1)
  }
  named = text
}

# Where a symbol stands: its section, none for what is linked from elsewhere.
function find_symbol(m, name) {
  if ((m, name) in symbol_section) {
    section = symbol_section[m, name]
    value = symbol_value[m, name]
  } else if ((m, name) in kind) {
    section = name
    value = 0
  } else {
    section = ""
    value = 0
  }
}

function function_at(m, s, at,    i, f, n) {
  n = functions_in[m, s]
  for (i = 1; i <= n; i++) {
    f = function_of[m, s, i]
    if (start[f] <= at && at < start[f] + size[f]) return f
  }
  return 0
}

function place(m, s, at, name, depth,    f, n) {
  if (s == "") return name (at ? "+" at : "")
  if (kind[m, s] == "data") return data(m, s, at, depth)
  f = function_at(m, s, at)
  if (!f) return s "+" at
  n = order[m, s, at]
  return title[f] (at == start[f] ? "" : n == "" ? "+" at - start[f] : "@" n)
}

function data(m, s, at, depth,    unit, from, end, i, said) {
  told[m, s] = 1
  if (at < 0 || at >= extent[m, s]) return s "+" at
  if (match(s, /\.cst[0-9]+/)) {
    unit = substr(s, RSTART + 4, RLENGTH - 4) + 0
    from = at - at % unit
    return "{" substr(bytes[m, s], from * 2 + 1, unit * 2) (at > from ? "+" at - from : "") "}"
  }
  if (depth > 3) return "data"
  end = length(bytes[m, s]) / 2
  for (i = 1; i <= named_in[m, s]; i++) if (named_at[m, s, i] > at && named_at[m, s, i] < end) end = named_at[m, s, i]
  said = "["
  for (i = at; i < end;) {
    if ((m, s, i) in moved) {
      said = said " " entry(m, s, i, at, depth + 1)
      i += moved_type[m, s, i] ~ /64$/ ? 8 : 4
    } else {
      said = said substr(bytes[m, s], i * 2 + 1, 2)
      i++
    }
  }
  return said " ]"
}

# A number in a table: one counted from the table's start is told as what it leads to.
function entry(m, s, at, table, depth,    type) {
  type = moved_type[m, s, at]
  split_target(moved[m, s, at])
  find_symbol(m, named)
  return place(m, section, value + added + (type ~ /PC32|PLT32/ ? table - at : 0), named, depth) (type ~ /PC32|PLT32/ ? "" : ":" type)
}

function padding(text) {
  return text ~ /^(data16 |cs |rex[.A-Z]* )*nop/ || text ~ /^xchg +%ax,%ax/ || text == "int3"
}

# What a relocation in code leads to. 'rest' is how far behind it the next instruction starts.
function led_to(m, type, target, rest) {
  split_target(target)
  find_symbol(m, named)
  at = value + added + (type ~ /PC|PLT|GOT/ ? rest : 0)
}

/^.+: +file format / {
  if (part == "code" && !begun) { begun = 1; member = 0 }
  member++
  state = ""
  next
}
/^Sections:/ { state = "sections"; next }
/^SYMBOL TABLE:/ { state = "symbols"; next }
/^RELOCATION RECORDS FOR \[/ {
  state = "moved"
  here = $0
  sub(/^RELOCATION RECORDS FOR \[/, "", here)
  sub(/\]:.*/, "", here)
  next
}
/^Contents of section / {
  state = "bytes"
  here = $0
  sub(/^Contents of section /, "", here)
  sub(/:( .*)?$/, "", here)
  next
}
/^Disassembly of section / {
  state = "code"
  here = $0
  sub(/^Disassembly of section /, "", here)
  sub(/:$/, "", here)
  next
}

state == "sections" && $1 ~ /^[0-9]+$/ {
  kind[member, $2] = /CODE/ ? "code" : /ALLOC/ ? "data" : "other"
  if (kind[member, $2] == "data" && hex($3) > 0) laid[++laid_count] = member SUBSEP $2
  extent[member, $2] = hex($3)
}

state == "symbols" && /\t/ {
  split($0, halves, "\t")
  words = split(halves[1], left, " ")
  at_section = left[words]
  words = split(halves[2], right, " ")
  name = right[words]
  if (at_section ~ /^\*/) next
  symbol_section[member, name] = at_section
  symbol_value[member, name] = hex(left[1])
  if (substr(halves[1], 24, 1) == "F") {
    f = ++functions
    title[f] = name
    bound[f] = substr(halves[1], 18, 1) == "g" ? "global" : substr(halves[1], 18, 1) == "l" ? "local" : "weak"
    start[f] = hex(left[1])
    size[f] = hex(right[1])
    function_of[member, at_section, ++functions_in[member, at_section]] = f
  }
}

state == "moved" && $2 ~ /^R_/ {
  moved_type[member, here, hex($1)] = $2
  moved[member, here, hex($1)] = $3
}

state == "bytes" && kind[member, here] == "data" && /^ [0-9a-f]+ / {
  text = substr($0, length($1) + 3, 35)
  gsub(/ /, "", text)
  bytes[member, here] = bytes[member, here] text
}

state == "code" && /^ *[0-9a-f]+:\t/ {
  words = split($0, word, "\t")
  sub(/^ */, "", word[1])
  k = ++count
  in_member[k] = member
  in_section[k] = here
  address[k] = hex(substr(word[1], 1, length(word[1]) - 1))
  text = word[2]
  sub(/ +#.*$/, "", text)
  sub(/ +$/, "", text)
  code[k] = text
  for (i = 3; i < words; i += 2) {
    split(word[i], pair, ": ")
    reloc_at[k] = hex(pair[1])
    reloc_type[k] = pair[2]
    reloc_target[k] = word[i + 1]
    relocs[k]++
  }
}

END {
  # the order of the instructions of each function, and the places in data that code names
  for (k = 1; k <= count; k++) {
    m = in_member[k]
    s = in_section[k]
    f = function_at(m, s, address[k])
    owner[k] = f
    order[m, s, address[k]] = instructions[f] + 0
    if (!padding(code[k])) instructions[f]++
    if (relocs[k] > 1) { print "two relocations in one instruction, which is not understood: " code[k]; exit 1 }
    if (relocs[k]) {
      next_at = k < count && in_section[k + 1] == s && in_member[k + 1] == m ? address[k + 1] : extent[m, s]
      rest[k] = next_at - reloc_at[k]
      led_to(m, reloc_type[k], reloc_target[k], rest[k])
      if (section != "") named_at[m, section, ++named_in[m, section]] = at
    }
  }
  for (k = 1; k <= count; k++) {
    text = code[k]
    if (padding(text)) continue
    m = in_member[k]
    s = in_section[k]
    if (relocs[k]) {
      led_to(m, reloc_type[k], reloc_target[k], rest[k])
      goal = place(m, section, at, named, 0)
      if (match(text, /-?0x[0-9a-f]+\(%rip\)/)) text = substr(text, 1, RSTART - 1) goal substr(text, RSTART + RLENGTH)
      else if (match(text, / +[0-9a-f]+ <.*>$/)) text = substr(text, 1, RSTART) goal
      else text = text " with " reloc_type[k] " " goal
    } else if (match(text, / +[0-9a-f]+ <.*>$/)) {
      goal = substr(text, RSTART)
      text = substr(text, 1, RSTART)
      sub(/^ +/, "", goal)
      sub(/ .*/, "", goal)
      text = text place(m, s, hex(goal), "", 0)
    }
    gsub(/ +/, " ", text)
    does[owner[k]] = does[owner[k]] "\t" text
  }
  for (f = 1; f <= functions; f++) print bound[f] " " title[f] does[f]
  if (0 in does) print "outside of all functions" does[0]
  for (i = 1; i <= laid_count; i++) {
    split(laid[i], part_of, SUBSEP)
    if (!(laid[i] in told) && part_of[2] !~ /\.cst[0-9]+/) print "data " part_of[2] "\t" data(part_of[1], part_of[2], 0, 0)
  }
}
