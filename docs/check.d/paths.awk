# Which paths do the texts name? Prints a line "FILE PATH" for each link to one, and for each word
# between backticks that begins like a path of this repository. What a run or a build makes, in a folder `out`, need not
# be there. NAME, TYPE and BUG stand for any name in a path.

function look_at(file, paragraph,    told, count, i) {
    count = quoted(paragraph, told)
    for (i = 1; i <= count; i++) print_paths(file, told[i])
    while (match(paragraph, /\]\([A-Za-z_\/.]+\)/)) {
        print file, substr(paragraph, RSTART + 2, RLENGTH - 3)
        paragraph = substr(paragraph, RSTART + RLENGTH)
    }
}

function print_paths(file, text,    word, count, i) {
    gsub(/NAME|TYPE|BUG/, "*", text)
    count = split(text, word, " ")
    for (i = 1; i <= count; i++) if (is_path(word[i])) print file, word[i]
}

function is_path(word) {
    return word ~ /^(docs|bench|examples|crates|specs|src|proofs|must-fail)\/./ &&
        word !~ /\/out\//
}
