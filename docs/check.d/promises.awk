# Has each promise that can be called from outside a row in the README of its crate? Reads the facts
# of sources.awk, then the READMEs.
#
# Of a README the column of functions counts (tables.awk), with or without the owner of a function,
# or a trait for its functions.

reading == "sources" { take_fact(); next }
FNR == 1 { start_file() }
!/^\|/ { in_table = 0; next }
!in_table { start_table() }
function_column { take_names() }
END { check_promises() }

function take_fact() {
    if ($1 == "handed_on") handed_on[$2, $3] = 1
    if ($1 == "promise") promised[$2, $3, $4] = 1
    if ($4 ~ /^trait::/) is_trait[owner_of($3)] = 1
}

function take_names(    cell, told, count, i) {
    split($0, cell, "|")
    count = quoted(cell[function_column], told)
    for (i = 1; i <= count; i++) is_told[crate, without_owner(told[i])] = 1
}

function is_told_of(crate_name, key) {
    if (is_trait[owner_of(key)] && (crate_name, owner_of(key)) in is_told) return 1
    return (crate_name, without_owner(key)) in is_told
}

function owner_of(key) { return key ~ /::/ ? substr(key, 1, index(key, "::") - 1) : "" }

function without_owner(key) {
    sub(/.*::/, "", key)
    return key
}

# Only what a crate hands on by a `pub use`, and its laws, can be called from outside.
function check_promises(    place, part) {
    for (place in promised) {
        split(place, part, SUBSEP)
        if (!is_within_reach(part[1], part[2])) continue
        if (!is_told_of(part[1], part[2])) fault_of_all("no row tells " part[1] ": " part[2] ", " part[3])
    }
}

function is_within_reach(crate_name, key) {
    sub(/::.*/, "", key)
    return key == "laws" || (crate_name, key) in handed_on
}
