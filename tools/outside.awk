# Prints, as PLACE:LINE, each line that leads out of the repository: that cites a paper by a word and
# a number, names a path of a machine, a path above the repository, or the host of a package registry.
# Reads files, named ./PATH; or, with -v messages=1, what git log prints by '%x01%h%n%B'.
# A pattern here is written so that it does not match itself. Run under LC_ALL=C.

function say(what) {
    gsub(/[^ -~]/, "?", shown)
    printf "%s:%d: %s: %s\n", place, line, what, substr(shown, 1, 160)
}

BEGIN {
    edge = "(^|[^a-z0-9_])"
    word = "(document|paper|doc|section|demand|request|issue|requirement|appendix|clause|paragraph|chapter|annex|ticket|task)s?"
    number = "([- \t(]+(no[.]?|nr[.]?|number)?[ \t]*#?|#)[0-9]"
    sign = "\302\247"
    phrase = "change[- ]re" "quest|" edge "(customer|client)('?s'?)? (paper|document|letter|demand|request)"
    sheet = "(^|[^0-9a-z])[0-9][0-9]-[a-z][-a-z0-9_]*[.]md"
    # A public standard is cited by its number, and by a part of it.
    standard = "(iso/iec|iso|iec|ieee|rfc)[- ]?[0-9]+(-[0-9]+)?(:[0-9]+)?(,? *(section|clause|annex|chapter|paragraph)s? [a-z]?[0-9.]+)?"
    machine = "(^|[^A-Za-z0-9_.~}*$)])[/](work|workspace|farm|home|root|tmp|opt|usr|var|etc|srv|mnt|media|nix|private|Users)([^A-Za-z0-9_-]|$)"
    drive = "(^|[^A-Za-z0-9_])[A-Z]:[\\\\][A-Za-z][A-Za-z]"
    host = "crates[.]io|pypi[.]|pythonhosted[.]|npmjs[.]|yarnpkg[.]|deb[.]debian|archive[.]ubuntu|rubygems[.]|maven[.]|golang[.]org|docker[.]io|anaconda[.]|hackage[.]"
}

messages && /^\001/ { place = "commit " substr($0, 2); line = 0; last = ""; next }
messages { line++ }
!messages && FNR == 1 { place = substr(FILENAME, 3); depth = gsub("/", "/", place); last = "" }
!messages { line = FNR }
# the first line of a script names its interpreter
line == 1 && /^#!/ { next }

{
    shown = $0
    low = tolower($0)
    gsub(standard, "", low)
    # in code, a request is the subject's own word
    if (place ~ /[.](rt|antt)$/ && $0 !~ /--|\/\/|\{-/) gsub(/request/, "", low)
    # the word may stand at the end of the line before
    joined = low
    sub(/^[^a-z0-9]*/, "", joined)
    joined = last " " joined
    if (low ~ (edge word number) || joined ~ ("^" word number)) say("cites a paper by its number")
    last = match(low, edge word "$") ? substr(low, RSTART) : ""
    sub(/^[^a-z]/, "", last)
    if (low ~ phrase) say("cites a paper")
    if (index(low, sign)) say("cites by the section sign")
    if (low ~ sheet) say("names a paper's file")
    if (messages && low ~ /(^|[^a-z0-9_&])#[0-9]/) say("cites by a number that stands outside the repository")
    if ($0 ~ machine || $0 ~ drive) say("names a path of a machine")
    if (low ~ host) say("names a package registry")
    rest = $0
    while (match(rest, /(^|[^A-Za-z0-9_.\/}"$)])([.][.][\/])+/)) {
        climb = substr(rest, RSTART, RLENGTH)
        if (gsub(/[.][.][\/]/, "", climb) > depth) say("names a path above the repository")
        rest = substr(rest, RSTART + RLENGTH)
    }
}
