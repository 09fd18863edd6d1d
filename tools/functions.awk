# Prints a line for each public function of Rattle sources, named ./crates/NAME/src/...:
#   FILE:LINE <tab> CRATE::PATH::FUNCTION <tab> which of the words requires, ensures, extern it has
# Public is what is marked pub, without a bound as in pub(crate), and each method of a public trait.
# What implements a trait takes the trait's clauses. Left out: tests, main and fmt.
# The sources are in the layout of rt fmt, so a block ends at a closing brace as far in as it began.

function indent(s) { match(s, /^ */); return RLENGTH }

# S without the bracketed part that it starts with, as <K: Key>.
function past_angles(s,    i, deep, c) {
    if (s !~ /^</) return s
    for (i = 1; i <= length(s); i++) {
        c = substr(s, i, 1)
        if (c == "<") deep++
        else if (c == ">" && substr(s, i - 1, 1) != "-" && --deep == 0) break
    }
    return substr(s, i + 1)
}

# Takes the clauses out of the head of a function, and notes which there are. Answers 1 once the
# head is whole: up to the brace of the body or the semicolon of a declaration.
function whole(head,    at, i, deep, c, word, inside) {
    words = ""
    while (match(head, /(^|[ \t\n])(requires|ensures)\*?([ \t\n]+[A-Za-z_][A-Za-z0-9_]*)?[ \t\n]*\{/)) {
        at = RSTART
        word = substr(head, RSTART, RLENGTH) ~ /requires/ ? "requires" : "ensures"
        i = RSTART + RLENGTH
        inside = i
        for (deep = 1; deep > 0; i++) {
            if (i > length(head)) return 0
            c = substr(head, i, 1)
            if (c == "{") deep++
            else if (c == "}") deep--
        }
        if (substr(head, inside, i - 1 - inside) ~ /[^ \t\n]/) words = words " " word
        head = substr(head, 1, at) substr(head, i)
    }
    deep = 0
    for (i = 1; i <= length(head); i++) {
        c = substr(head, i, 1)
        if (c ~ /[(\[]/) deep++
        else if (c ~ /[)\]]/) deep--
        else if (c ~ /[{;]/ && deep == 0) return 1
    }
    return 0
}

function begin_file(    path, part, n, i) {
    path = FILENAME
    sub(/^\.\/crates\//, "", path)
    sub(/\.rt$/, "", path)
    n = split(path, part, "/")
    module = part[1]
    for (i = 3; i <= n; i++) if (!(i == 3 && n == 3 && part[i] ~ /^(lib|main)$/)) module = module "::" part[i]
    owner = ""; owner_in = -1; skip_in = -1; trait = 0; tested = 0; head = ""
}

FNR == 1 { begin_file() }

/^[ \t]*\/\// { next }

# a module of tests, whole
skip_in >= 0 { if (indent($0) == skip_in && /^ *\}/) skip_in = -1; next }
/^ *#\[(cfg\(test\)|test)\]/ { tested = 1; next }
tested && /^ *(pub )?mod [a-z_0-9]+ \{/ { tested = 0; skip_in = indent($0); next }

# the head of a function, over several lines
head != "" { head = head "\n" $0 }
head == "" && owner_in >= 0 && indent($0) == owner_in && /^ *\}/ { owner_in = -1; owner = ""; trait = 0; next }
head == "" && /^ *(pub )?(unsafe )?(impl|trait)[ <]/ {
    s = $0
    trait = s ~ /^ *pub (unsafe )?trait /
    sub(/^ *(pub )?(unsafe )?(impl|trait) */, "", s)
    s = past_angles(s)
    sub(/^ */, "", s)
    # a trait's implementation belongs to its type
    if ($0 !~ /trait /) sub(/^.* for /, "", s)
    match(s, /^[A-Za-z0-9_]+/)
    owner = RLENGTH > 0 ? "::" substr(s, 1, RLENGTH) : ""
    owner_in = indent($0)
    if (/\}$/) { owner_in = -1; owner = ""; trait = 0 }
    next
}
head == "" && /^ *(pub(\([a-z:]+( [a-z:]+)?\))? )?((const|unsafe|safe|extern "[A-Za-z]+"|extern) )*fn [A-Za-z_]/ {
    open = /^ *pub / || (trait && indent($0) == owner_in + 4)
    name = $0
    sub(/^.*fn /, "", name)
    match(name, /^[A-Za-z_0-9]+/)
    name = substr(name, 1, RLENGTH)
    public = open && !tested && name != "main" && name != "fmt"
    exported = /extern / ? " extern" : ""
    tested = 0
    where = substr(FILENAME, 3) ":" FNR
    head = $0
}
head != "" && whole(head) {
    if (public) printf "%s\t%s%s::%s\t%s%s \n", where, module, owner, name, words, exported
    head = ""
}
!/^ *#\[/ && !/^ *$/ { if (head == "") tested = 0 }
