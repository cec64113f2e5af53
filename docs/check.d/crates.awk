# Has each crate of crates.txt its place in a table of docs/PROVED.md and its row in docs/CHAIN.md,
# and is each first name in a table of crates there, and of each row, a crate? Reads the three in
# this order.

reading == "crates" { if (crate_of_line($0) != "") is_crate[crate_of_line($0)] = 1 }
reading == "proved" || reading == "chain" { take_line() }
END { for (crate in is_crate) check_crate(crate) }

# The table of crates has them in its first column: in docs/CHAIN.md one, without backticks.
function take_line(    cell, told, count, i) {
    if (!/^\|/) in_table = 0
    else if (/^\| crates? \|/) in_table = 1
    else if (in_table && !/^\|-/) {
        split($0, cell, "|")
        count = reading == "chain" ? split(cell[2], told, " ") : quoted(cell[2], told)
        for (i = 1; i <= count; i++) take_crate(told[i])
    }
}

function take_crate(crate) {
    if (reading == "chain") has_chain_row[crate] = 1
    else has_place[crate] = 1
    if (!(crate in is_crate)) fault("no crate " crate)
}

function check_crate(crate) {
    if (!(crate in has_place)) fault_of_all("no place of " crate " in docs/PROVED.md")
    if (!(crate in has_chain_row)) fault_of_all("no row " crate " in docs/CHAIN.md")
}
