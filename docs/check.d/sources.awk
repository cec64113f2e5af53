# Reads the sources and prints what they have, one fact a line:
#
#   name CRATE NAME                 a function, type, trait or module, public or not
#   handed_on CRATE WORD            a word of a `pub use`
#   implements CRATE TRAIT          a trait that the crate implements
#   function CRATE KEY TRAIT_KEY    a public function
#   clause CRATE NAME CLAUSE        a clause of a function, public or not
#   public_clause CRATE KEY CLAUSE  a clause of a public function
#   promise CRATE KEY CLAUSE        an `ensures` of a public function, where it is first made
#
# A key is the name of a function behind that of its type or trait, or behind `laws`, as in
# `Charges::copy` or `laws::energies_are_small`. A function that implements one of a trait has the
# clauses of that one too: its trait key is the key of that one. Elsewhere a trait key is no key of
# a function. A clause without a name is called `(unnamed)`.
#
# Patterns of single lines suffice, because all sources are laid out alike: what stands at the left
# margin ends with a `}` there, and the brace that opens a body ends its line.

FNR == 1 { start_file() }

/^pub use / { in_use = 1 }
in_use { print_words() }

/^(pub )?(impl|trait)[ <].*\{/ { open_block($0) }
/^}/ { close_block() }

match($0, /^(pub(\([a-z]+\))? )?(struct|enum|trait|mod) [A-Za-z_0-9]+/) {
    print "name", crate, last_word(substr($0, 1, RLENGTH))
}

match($0, /^ *(pub(\([a-z]+\))? )?(const )?fn [a-z_0-9]+/) {
    open_head(last_word(substr($0, 1, RLENGTH)))
}
/^ *\{\}?$/ || /(^ *\)|fn ).*\{$/ { in_head = 0 }
in_head && /^ *(ensures|requires) / { print_clause() }

# `owner` is what stands before a name in its key. `block` is empty outside of the blocks with
# functions; inside it is `impl`, `trait`, or the name of the trait that the block implements.
function start_file(    part) {
    split(FILENAME, part, "/")
    crate = part[2]
    owner = is_laws_file() ? "laws::" : ""
    block = ""
    in_head = in_use = 0
}

function is_laws_file() { return FILENAME ~ /laws\.rt$/ }

function last_word(text,    word, count) {
    count = split(text, word, " ")
    return word[count]
}

function first_word(text) {
    sub(/[^A-Za-z_0-9].*/, "", text)
    return text
}

function print_words(    word, count, i) {
    count = split($0, word, /[^A-Za-z_0-9]+/)
    for (i = 1; i <= count; i++) print "handed_on", crate, word[i]
    if (/;/) in_use = 0
}

function open_block(line) {
    block = line ~ /^impl/ ? "impl" : "trait"
    sub(/^(pub )?(impl|trait)(<[^>]*>)? /, "", line)
    if (line ~ / for /) {
        block = first_word(line)
        print "implements", crate, block
        sub(/.* for /, "", line)
    }
    owner = first_word(line) "::"
}

function close_block() {
    if (owner != "laws::") owner = block = ""
}

function implements_trait() { return block != "" && block != "impl" && block != "trait" }

# The functions of a trait are as public as the trait, and bear no `pub`.
function open_head(function_name) {
    name = function_name
    key = owner name
    is_public = /^ *pub / || block == "trait" || implements_trait()
    in_head = 1
    print "name", crate, name
    if (is_public) print "function", crate, key, block "::" name
}

function print_clause(    word, clause) {
    split($0, word, " ")
    clause = word[2] == "{" ? "(unnamed)" : word[2]
    print "clause", crate, name, clause
    if (!is_public) return
    print "public_clause", crate, key, clause
    if (word[1] == "ensures" && !implements_trait()) print "promise", crate, key, clause
}
