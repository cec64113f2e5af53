# Which word does the program refuse, and why? Reads scripts/options, then the words, one a line;
# `is_file` has the words that are names of files, with a line feed around each. Prints one line,
# where it is plain.

FILENAME != "-" {
    if (/^#/) next
    kind[$1] = $2
    least[$1] = $3; greatest[$1] = $4; places[$1] = $5
    for (i = 6; i <= NF; i++) { value_of[$1, $i] = 1; values[$1] = values[$1] " " $i }
    next
}
told { next }
option != "" { take_value(option, $0); option = ""; next }
/^--./ { take_option($0); next }
{ take_other($0) }
END {
    if (!told && option != "") tell(option " needs a value behind it")
    if (!told) take_needs()
}

function tell(text) { if (!told) print text; told = 1 }

function take_option(word,    name, at) {
    at = index(word, "=")
    name = at ? substr(word, 1, at - 1) : word
    if (!(name in kind)) { tell(name " is no option of the program (./sidb --help lists them)"); return }
    if (name in seen) { tell(name " stands twice"); return }
    seen[name] = 1
    if (kind[name] != "flag") { if (at) take_value(name, substr(word, at + 1)); else option = name }
    else if (at) tell(name " has no value")
}

function take_other(word) {
    if (index(is_file, "\n" word "\n")) tell(word " is a file: give it on standard input, as ./sidb < " word)
    else if (word ~ /^-[a-z]/) tell(word " is no option: options have two dashes, as -" word)
    else tell((word == "" ? "an empty word" : word) " is no option, nor the value of one")
}

function take_value(name, value) {
    given[name] = value
    if (kind[name] == "word" && !((name, value) in value_of)) tell(name " is one of" values[name] ", not " value)
    if (kind[name] == "number" && value !~ /^[0-9]+$/) tell(name " " value " is no number: digits alone")
    if (kind[name] == "decimal" && value !~ /^[0-9]+(\.[0-9]+)?$/)
        tell(name " " value " is no decimal: digits, and perhaps a point and digits, without sign or exponent")
    if (kind[name] != "number" && kind[name] != "decimal") return
    if (is_below(value, least[name]) || is_below(greatest[name], value))
        tell(name " " value " is out of range: " least[name] " to " greatest[name])
    if (index(value, ".") && length(value) - index(value, ".") > places[name])
        tell(name " " value " has too many places: at most " places[name])
}

# Compares decimals as texts, since numbers here have some 16 digits.
function is_below(a, b,    left, right, width) {
    split(a ".", left, "."); split(b ".", right, ".")
    sub(/^0+/, "", left[1]); sub(/^0+/, "", right[1])
    if (length(left[1]) != length(right[1])) return length(left[1]) < length(right[1])
    if ((left[1] "x") != (right[1] "x")) return (left[1] "x") < (right[1] "x")
    width = length(left[2]) > length(right[2]) ? length(left[2]) : length(right[2])
    while (length(left[2]) < width) left[2] = left[2] "0"
    while (length(right[2]) < width) right[2] = right[2] "0"
    return (left[2] "x") < (right[2] "x")
}

# Inputs and outputs are pairs of sites, and a function has a name for so many inputs.
function take_gate(    inputs, names) {
    inputs = count_pairs("--input", 2)
    count_pairs("--output", 4)
    if (!("--function" in seen)) return
    if (!inputs) tell("--function needs --input")
    names = inputs == 1 ? "zero buf not one" : "zero and gt a lt b xor or nor xnor notb ge nota le nand one"
    if (index(" " names " ", " " given["--function"] " ") == 0)
        tell("--function is for " (inputs == 1 ? "one input" : "two inputs") " one of " names ", not " given["--function"])
}

# How many pairs the value of an option has; each place stands once in all of them.
function count_pairs(name, most,    pairs, n, k, pair) {
    if (!(name in seen)) return 0
    n = split(given[name], pairs, ",")
    for (k = 1; k <= n; k++) {
        if (pairs[k] !~ /^[0-9]+:[0-9]+$/) tell(name " " given[name] " is no list of pairs: as 0:2, or 0:2,1:3")
        split(pairs[k], pair, ":")
        take_place(pair[1])
        take_place(pair[2])
    }
    if (n > most) tell(name " has more than " most " pairs")
    return n
}

function take_place(place) {
    if (place + 0 > 9999) tell("the dot " place " is out of range: 0 to 9999")
    if (place + 0 in used) tell("the dot " place " stands twice in the pairs of --input and --output")
    used[place + 0] = 1
}

function take_needs(    task) {
    task = given["--task"]
    if (task == "range" && !("--range" in seen)) tell("the task range needs --range A:B, as --range 0.2:0.4")
    if ((task == "domain" || task == "region") && !("--grid" in seen))
        tell("the task " task " needs --grid, as --grid 5.6:0.4:2,5:1:2")
    if (task == "truth" || task == "domain" || task == "region") {
        if (!("--input" in seen) || !("--output" in seen) || !("--function" in seen))
            tell("the task " task " needs --input, --output and --function, as --input 0:2,1:3 --output 20:21 --function or")
        if (given["--form"] == "table") tell("the task " task " needs a layout: a table has no places")
    }
    take_gate()
}
