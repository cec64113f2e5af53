# Does the README of each crate name only functions and types that its crate has or hands on, or
# crates, and only clauses of the functions of the row? Reads crates.txt, the facts of sources.awk,
# then the READMEs.
#
# The head of a table says which of its columns name functions and clauses (tables.awk). A table
# without a column of functions is not looked at. One column may name both, as in
# "`run` · `answer`, `limits`; `copy` · `same`".

reading == "crates" { if (crate_of_line($0) != "") is_crate[crate_of_line($0)] = 1; next }
reading == "sources" { take_fact(); next }
FNR == 1 { start_file() }
!/^\|/ { in_table = 0; next }
!in_table { start_table(); name_count = 0 }
function_column && /`/ { check_row() }

function take_fact() {
    if ($1 == "name") is_name[$2, $3] = 1
    if ($1 == "handed_on") handed_on[$2, $3] = 1
    if ($1 == "implements") implements[$2, $3] = 1
    if ($1 == "public_clause") is_clause_of[owner_of($3), $4] = 1
    if ($1 == "clause") {
        is_clause[$2, $3, $4] = 1
        is_clause_somewhere[$3, $4] = 1
    }
}

function check_row(    cell, group, groups, half, i) {
    split($0, cell, "|")
    if (function_column != clause_column) {
        check_names(cell[function_column])
        if (clause_column) check_clauses(cell[clause_column])
        return
    }
    groups = split(cell[function_column], group, ";")
    for (i = 1; i <= groups; i++) {
        split(group[i] "·", half, "·")
        check_names(half[1])
        check_clauses(half[2])
    }
}

# Keeps the names of the row, without their owners. A row that names no function speaks of those
# of the row above, so that the names of that one stay.
function check_names(text,    told, count, i) {
    count = quoted(text, told)
    if (count) name_count = count
    for (i = 1; i <= count; i++) {
        names[i] = told[i]
        sub(/.*::/, "", names[i])
        if (!is_known(names[i]) && !(told[i] in is_crate)) fault(crate " has no " told[i])
    }
}

function is_known(name) {
    return (crate, name) in is_name || (crate, name) in handed_on || (crate, name) in implements
}

function owner_of(key) { return key ~ /::/ ? substr(key, 1, index(key, "::") - 1) : "" }

# Only the words in backticks with which the cell begins are clauses; those further on are prose.
function check_clauses(text,    clause) {
    while (match(text, /^[ ,]*`[a-z_0-9()]+`/)) {
        clause = substr(text, 1, RLENGTH)
        text = substr(text, RLENGTH + 1)
        gsub(/[ ,`]/, "", clause)
        if (!one_has(clause)) fault("no function of this row has the clause " clause)
    }
}

# Whether a function of the row has the clause, here or in the crate that it is handed on from, or
# the row names the trait that does, as in "`Checker` as a `TokenSink`".
function one_has(clause,    i, name) {
    for (i = 1; i <= name_count; i++) {
        name = names[i]
        if ((crate, name, clause) in is_clause) return 1
        if ((crate, name) in implements && (name, clause) in is_clause_of) return 1
        if ((crate, name) in handed_on && (name, clause) in is_clause_somewhere) return 1
    }
    return 0
}
