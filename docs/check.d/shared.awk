# What several questions use. The variable `reading` tells which of its inputs a program is at; the
# script sets it before each input.

# Tells a fault of the line that is being read.
function fault(text) { print FILENAME ":" FNR ": " text }

# Tells a fault that no line bears, because something is missing.
function fault_of_all(text) { print "crates.txt: " text }

# Puts the texts between backticks into `list`, and answers how many there are.
function quoted(text, list,    part, count, i) {
    count = split(text, part, "`")
    for (i = 2; i <= count; i += 2) list[i / 2] = part[i]
    return int(count / 2)
}

# The name of the crate with which a line of crates.txt begins, or nothing.
function crate_of_line(line) {
    return match(line, /^[a-z_0-9]+/) ? substr(line, 1, RLENGTH) : ""
}
