# Reads crates/vme_eval/specs/Steps.antt and then the modules of recordings beside it, and writes into the folder `into`,
# for each recording: NAME.vcd, a dump of it; NAME.verdict, the status and the line of `check`; NAME.listing, the text of
# `list`; and for each row K of the listing NAME.K.changed, where that row says something else, and, where a listing may do
# without it, NAME.K.left_out. Prints the names with their bindings.

# The name of a line, as in (grant 3 0).
function line_name(text) {
  gsub(/[()]/, "", text)
  split(text, word, " ")
  if (word[1] == "AM" || word[1] == "BR") return word[1] word[2]
  if (word[1] == "A" || word[1] == "D") return sprintf("%s%02d", word[1], word[2])
  if (word[1] == "grant") return "BG" word[2] "." word[3]
  if (word[1] == "iack") return "IA." word[2]
  return word[1]
}

# Each name of an abbreviated list of changes is replaced by the list.
function unfolded(text, name) {
  for (name in abbreviated) {
    while (match(text, "[ (]" name " ")) {
      text = substr(text, 1, RSTART) "(" abbreviated[name] ")" substr(text, RSTART + RLENGTH - 1)
    }
  }
  return text
}

function put(change) { changes = changes change "\n" }

# Ends a step.
function step() {
  if (changes != "") {
    steps = steps "#" time "\n" changes
    changes = ""
    time += 10
  }
}

# Adds the steps of a list of lists of changes, or of steps with their times.
function add(text, one, value) {
  text = unfolded(text)
  while (match(text, /(low|high|unknown) ([A-Z][A-Z0-9]*|\([A-Za-z]+( [0-9]+)+\))|at [0-9]+|\[\]\)/)) {
    one = substr(text, RSTART, RLENGTH)
    text = substr(text, RSTART + RLENGTH)
    if (one == "[])") {
      step()
    } else if (one ~ /^at /) {
      time = substr(one, 4) + 0
    } else {
      value = one ~ /^low/ ? "0" : one ~ /^high/ ? "1" : "x"
      sub(/^[a-z]+ /, "", one)
      put(value line_name(one))
    }
  }
}

# The lines of a backplane of some slots, as a list of names.
function lines_of(slots, names, n, k) {
  names = "AS DS0 DS1 DTACK BERR IACK"
  for (n = 0; n < 6; n++) names = names " AM" n
  names = names " LWORD WRITE"
  for (n = 1; n < 32; n++) names = names sprintf(" A%02d", n)
  names = names " BBSY BR0 BR1 BR2 BR3"
  for (n = 0; n < 4; n++) for (k = 0; k <= slots; k++) names = names " BG" n "." k
  for (k = 1; k <= slots; k++) names = names " IA." k
  for (n = 0; n < 32; n++) names = names sprintf(" D%02d", n)
  return names " SYSRESET"
}

# The bus gets idle, with one line low, if any: all lines high but A24 to A31.
function idle(but, count, i, name) {
  count = split(lines_of(3), name, " ")
  for (i = 1; i <= count; i++) if (name[i] !~ /^A(2[4-9]|3)/) put((name[i] == but ? "0" : "1") name[i])
  step()
}

# The steps of a recording by the word that it begins with. A dump has no opening that is idle.
function made(trace) {
  steps = ""
  changes = ""
  time = 0
  binding = trace ~ /^dumped/ ? "dumped" : "backplane"
  if (trace ~ /^granted_from_idle /) return 0
  if (match(trace, /^from_idle_but ([A-Z]+|\([A-Z]+ [0-9]\)) /)) {
    idle(line_name(substr(trace, 15, RLENGTH - 15)))
    trace = substr(trace, RLENGTH)
  } else if (trace !~ /^dumped/) {
    idle("")
  }
  if (trace ~ /^once_granted /) add(begun["granted"])
  if (trace ~ /^passed_on /) add(begun["passed_on"])
  add(trace)
  return 1
}

# The line of `check`, after its status.
function said(verdict, part) {
  if (verdict == "Conforming") return "0 conforming"
  if (verdict == "NeverIdle") return "2 never idle"
  split(verdict, part, / = |;|\}/)
  return (verdict ~ /^Broken/ ? "1 broken " : "2 unreadable ") part[6] " at instant " part[2] " time " part[4] " line " line_name(part[8])
}

# The row with something else in it.
function changed(row, digit) {
  if (row ~ /^start/) return "start " substr(row, 7) - 1
  if (row ~ /^reset/) return "reset " substr(row, 7) + 1
  if (row == "verdict never-idle") return "start 0\nverdict conforming"
  if (row == "verdict conforming") return "verdict broken H4 9 DTACK"
  if (row ~ /^verdict/) return "verdict conforming"
  if (row ~ / data -+$/) { sub(/--$/, "00", row); return row }
  if (row ~ / data /) {
    match(row, /[0-9A-FX]-*$/)
    digit = substr(row, RSTART, 1)
    return substr(row, 1, RSTART - 1) (digit == "0" ? "1" : "0") substr(row, RSTART + 1)
  }
  if (row ~ /-$/) { sub(/-$/, "9999", row); return row }
  if (row ~ /read pending$/) { sub(/read/, "write", row); return row }
  if (row ~ /write pending$/) { sub(/write/, "read", row); return row }
  sub(/[0-9]+$/, "-", row)
  return row
}

# Writes the listing, with another row in place of row K, or none.
function listing(file, k, other, i) {
  print "vmecheck listing 3" >file
  for (i = 1; i <= count; i++) {
    if (i != k) print row[i] >file
    else if (other != "") print other >file
  }
  close(file)
}

# Writes the files of a recording.
function write(name, trace, verdict, base, names, i, lines) {
  if (!made(trace)) return
  base = into "/" name
  print "$scope module bus $end" >(base ".vcd")
  names = split(lines_of(binding == "dumped" ? 1 : 3), lines, " ")
  for (i = 1; i <= names; i++) print "$var wire 1 " lines[i] " " lines[i] " $end" >(base ".vcd")
  printf "$upscope $end\n$enddefinitions $end\n%s", steps >(base ".vcd")
  close(base ".vcd")
  print said(verdict) >(base ".verdict")
  close(base ".verdict")
  listing(base ".listing", 0, "")
  for (i = 1; i <= count; i++) {
    listing(base "." i ".changed", i, changed(row[i]))
    # after a reset stands a start or the verdict, and no start elsewhere
    if (i > 1 && i < count && (row[i] !~ /^(start|reset)/ || i == count - 1)) listing(base "." i ".left_out", i, "")
  }
  print name, binding
}

# A definition that is read whole.
function defined(text, name, trace, verdict) {
  name = text
  sub(/ .*/, "", name)
  if (text ~ /= record \{ +trace = /) {
    trace = text
    sub(/^.* trace = +/, "", trace)
    sub(/; +verdict = .*/, "", trace)
    verdict = text
    sub(/.*; +verdict = /, "", verdict)
    sub(/; +rows = .*/, "", verdict)
    sub(/.*; +rows = /, "", text)
    count = 0
    while (match(text, /codes "[^"]*"/)) {
      row[++count] = substr(text, RSTART + 7, RLENGTH - 8)
      text = substr(text, RSTART + RLENGTH)
    }
    write(name, trace, verdict)
  } else if (kind == "List Change" && name != "idle_changes") {
    sub(/^[a-z_]+ = /, "", text)
    abbreviated[name] = text
  } else if (name == "granted" || name == "passed_on") {
    begun[name] = text
  }
}

/^(abbrev|unfoldable) pub / { kind = $0; sub(/^[^:]*: /, "", kind) }
/^[a-z][a-z_0-9]* .*=/ && !/^(abbrev|unfoldable|use)/ { held = $0; next }
held != "" && /^[ }]/ { held = held " " $0; next }
held != "" { defined(held); held = "" }
END { if (held != "") defined(held) }
