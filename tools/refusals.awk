# Puts a replaying program's notes of refusals into words: `plan refused=2`, `line=12 refused=9`, and at the end the program's
# own `status=0`. Of each number the first 20 lines are said and the others counted. Ends with 1 if something was refused or
# missing, with 2 if the program failed.
#   name     the program's name
#   header   include/tessla.h, which has the texts of the numbers
#   folder   the folder as the user named it
#   trace    the trace's path
#   missing  1 if a file is missing

BEGIN {
  most = 20
  status = "none"
  while ((getline row < header) > 0)
    if (match(row, /X\([0-9]+, ".*"\)/)) {
      row = substr(row, RSTART + 2, RLENGTH - 4)
      text[row + 0] = substr(row, index(row, "\"") + 1)
    }
  text[16] = "the line cannot be read"
}

# the line of the trace with this number; lines are asked for in rising order
function quoted(number,    row) {
  while (at < number) {
    if ((getline row < trace) <= 0) return ""
    at++
    last = row
  }
  return last
}

/^status=/ { status = substr($0, 8); next }

/^plan refused=/ {
  number = substr($0, 14)
  refused = 1
  print name ": " folder "/plan.txt is refused, " number ": " text[number + 0]
  print name ": ./check " folder " says where"
  next
}

/^line=[0-9]+ refused=/ {
  split($0, part, /[= ]/)
  line = part[2] + 0
  number = part[4] + 0
  refused = 1
  if (++count[number] <= most) {
    row = quoted(line)
    printf "%s: %s/trace.txt line %d: refused, %d: %s: %s\n", name, folder, line, number, text[number], row
  }
  if (number == 16) bad = line
  next
}

{ print }

END {
  for (number = 7; number <= 10; number++)
    if (count[number] > most) printf "%s: and %d more lines refused, %d: %s\n", name, count[number] - most, number, text[number]
  if (count[9]) print name ": readings were lost because another input was behind: ./order " folder " " folder "/trace.txt prints a trace of the same readings that loses none (write it to another file first)"
  if (bad) {
    rest = 0
    while (at < bad && (getline row < trace) > 0) at++
    while ((getline row < trace) > 0) rest++
    printf "%s: it ends at line %d%s\n", name, bad, rest ? "; " rest " further " (rest == 1 ? "line was" : "lines were") " not read" : ""
  }
  if (count[7] || count[8] || count[10] || bad) print name ": ./check " folder " says what is wrong with such lines, and what to do"
  # nobody reads on, as before `head`
  if (status == 141) exit 141
  if (status != 0) { print name ": the program ended with status " status; exit 2 }
  exit refused || missing == 1
}
