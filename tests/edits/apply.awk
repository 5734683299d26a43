# Applies a must-fail edit as rt does: below a line 'file: PATH' each pair of lines 'old: TEXT' and 'new: TEXT' replaces a text that stands in that file once,
# as the pairs before have left it. Where that cannot be done it says why, changes nothing, and ends with status 1.
#
# Given: crate, the folder in which the edit's paths begin.

/^file: / {
    path = crate "/" substr($0, 7)
    sub(/ +$/, "", path)
    if (!(path in count)) read_file(path)
    next
}

/^old: / { old = substr($0, 6); next }

/^new:/ {
    new = substr($0, 5)
    sub(/^ /, "", new)
    if (path == "" || old == "") refuse("a 'new:' line stands before any 'file:' or 'old:' line")
    replace(path, old, new)
    old = ""
    pairs++
}

END {
    if (why == "" && pairs == 0) why = "it has no 'old:' and 'new:' pair"
    if (why != "") { print why; exit 1 }
    for (path in count) {
        for (i = 1; i <= count[path]; i++) print lines[path, i] >path
        close(path)
    }
}

function refuse(said) {
    if (why == "") why = said
    exit
}

function read_file(path,   line) {
    count[path] = 0
    while ((getline line < path) > 0) lines[path, ++count[path]] = line
    close(path)
    if (count[path] == 0) refuse("there is no file " inside(path))
}

function inside(path) {
    return substr(path, length(crate) + 2)
}

function replace(path, old, new,   i, at, found, rest) {
    for (i = 1; i <= count[path]; i++) {
        rest = lines[path, i]
        while ((at = index(rest, old)) > 0) { found++; where = i; rest = substr(rest, at + 1) }
    }
    if (found != 1) refuse("an 'old:' text is in " inside(path) " " found + 0 " times, and not once")
    at = index(lines[path, where], old)
    lines[path, where] = substr(lines[path, where], 1, at - 1) new substr(lines[path, where], at + length(old))
}
