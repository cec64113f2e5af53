# Which columns of a table of a README name functions and clauses. For programs that read READMEs:
# they call start_file() at the first line of each, and start_table() at the first of each table.

function start_file(    part) {
    split(FILENAME, part, "/")
    crate = part[2]
    in_table = 0
}

function start_table(    cell, cells, i, title) {
    in_table = 1
    function_column = clause_column = 0
    cells = split($0, cell, "|")
    for (i = 2; i < cells; i++) {
        title = tolower(cell[i])
        gsub(/^ +| +$/, "", title)
        if (title ~ /^function/) function_column = i
        if (title ~ /clause$/) clause_column = i
    }
}
