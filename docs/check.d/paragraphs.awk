# Hands each paragraph of the texts, as one line, to the function `look_at` of another program: what
# is looked for may be broken over two lines. A row of a table is a paragraph of its own. Comments
# are read without their marks.

FNR == 1 || /^ *$/ || /^\|/ { end_paragraph() }
{ add_line($0) }
END { end_paragraph() }

function end_paragraph() {
    look_at(file, paragraph)
    paragraph = ""
    file = FILENAME
}

function add_line(line) {
    sub(/^ *(\/\/[\/!]?|--) ?/, "", line)
    paragraph = paragraph " " line
}
