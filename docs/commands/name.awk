# name_of(text): the name that a text begins with; what follows it stands in `rest`. OUTPUT.md says how it is used.
function name_of(text,   name) {
    match(text, /^("([^"\\]|\\.)*"|hex:[0-9a-f]*) ?/)
    rest = substr(text, RLENGTH + 1)
    name = substr(text, 1, RLENGTH)
    sub(/ $/, "", name)
    if (name ~ /^"/) {
        name = substr(name, 2, length(name) - 2)
        gsub(/\\"/, "\"", name)
        gsub(/\\\\/, "\\", name)
    }
    return name
}
