# Which headings of which documents do the texts name? Prints a line "FILE DOCUMENT HEADING" for
# each, as twice for: docs/MODEL.md, "Energies" and "Validity".

function look_at(file, paragraph,    told) {
    while (match(paragraph, /[A-Za-z_\/]+\.md`?,? "[^"]+"((,| and|, and) "[^"]+")*/)) {
        told = substr(paragraph, RSTART, RLENGTH)
        paragraph = substr(paragraph, RSTART + RLENGTH)
        print_headings(file, told)
    }
}

function print_headings(file, told,    document, part, count, i) {
    document = told
    sub(/\.md.*/, ".md", document)
    count = split(told, part, "\"")
    for (i = 2; i <= count; i += 2) print file, document, part[i]
}
