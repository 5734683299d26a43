# Reads the paths of the project's files, collects what they define, and looks up each name that the documents cite.
#
# A name stands between two backticks on one line. What is looked up, by its form:
#   crates/text/src/lib.rt        a path from the project's root; a star stands for any characters but a slash
#   rules/show_pending            a mistake: a line 'mistake: show_pending in ..' of an edit in crates/rules/must-fail
#   Views.source                  a definition in crates/rules/specs/Views.antt; Views.A.b asks for both there
#   history.proofs.Claim.claim    a definition in crates/history/proofs/Claim.antt; a folder is one more name before the file's
#   writes::put::put              code: crates/writes/src/put.rt, or lib.rt or main.rt where there is no such file
#   events/slips::refusing_all    a test: tests/events/tests/slips.rs, or tests/events/slips.c
#   settings, disk_step           a word: it is defined somewhere, or is the name of a crate or of a file of definitions
# Of several words the first is looked up, others that have one of the forms with a sign in them, and the crates of a command of rt. What has another
# form, and a word of one letter, is left. `word` in `path`, `word` (`path`) and `path`: `word` ask besides that the path defines the word, and each of
# several that a comma or "and" joins. In a fenced block paths and the crates of commands of rt alone are looked up. Paths in target/ and in the out/ of a
# crate are left: a run makes them.

BEGIN {
    # words that are not the project's: commands, the kit's, C's
    split("rt sh cd io extern memcpy memmove memset NULL", words, " ")
    for (i in words) foreign[words[i]] = 1
    checked = missing = 0
}

{ files[++count] = $0 }

END {
    for (i = 1; i <= count; i++) add_path(files[i])
    for (i = 1; i <= count; i++) collect(files[i])
    passed = failed = 0
    n = split(documents, list, " ")
    for (i = 1; i <= n; i++) {
        check(list[i])
        print list[i] ": " checked " names, " missing " missing"
        if (missing > 0) failed++; else if (checked > 0) passed++
    }
    wrong_names = 1
    check(wrong)
    print wrong ": " items " wrong names, " items - found " of them not found missing"
    if (items > 0 && found == items) passed++; else failed++
    print passed " passed, " failed " failed"
    exit (failed > 0)
}

# ---- what there is

function add_path(path) {
    exists[path] = 1
    if (path ~ /^crates\/[^\/]*\//) { split(path, at, "/"); crate[at[2]] = 1 }
    if (path ~ /\.antt$/) define(folder(path), base(path))
    while (sub(/\/[^\/]*$/, "", path)) exists[path] = 1
}

function folder(path) {
    sub(/\/[^\/]*$/, "", path)
    return path
}

function base(path) {
    sub(/.*\//, "", path)
    sub(/\.[a-z]*$/, "", path)
    return path
}

# a name is defined in a file, and so in each folder that holds the file; of a file of definitions its own name too
function define(path, name) {
    anywhere[name] = 1
    do defined[path, name] = 1
    while (sub(/\/[^\/]*$/, "", path))
}

function collect(path,   line, in_enum) {
    if (path !~ /\.(antt|rt|rs|c|cpp|h|edit)$/ && path !~ /^tests\/.*\/run$/) return
    while ((getline line < path) > 0) {
        if (path ~ /\.edit$/) collect_edit(path, line)
        else if (path ~ /run$/) collect_script(path, line)
        else if (path ~ /\.antt$/) collect_antt(path, line)
        else if (path ~ /\.(rt|rs)$/) {
            collect_code(path, line)
            if (line ~ /^(pub )?enum /) in_enum = 1
            else if (line ~ /^}/) in_enum = 0
            else if (in_enum && match(line, /^    [A-Z][A-Za-z0-9]*/)) define(path, substr(line, 5, RLENGTH - 4))
        }
        else collect_c(path, line)
    }
    close(path)
}

# a mistake of a must-fail edit: its crate and its name
function collect_edit(path, line,   at) {
    split(path, at, "/")
    if (sub(/^mistake: /, "", line)) { sub(/ .*/, "", line); mistakes[at[2] "/" line] = 1 }
}

# a variable that a script reads
function collect_script(path, line) {
    while (match(line, /DISK_[A-Z]+/)) {
        define(path, substr(line, RSTART, RLENGTH))
        line = substr(line, RSTART + RLENGTH)
    }
}

# a definition, a field or a constructor: its name, then its type
function collect_antt(path, line) {
    sub(/^ +/, "", line)
    while (sub(/^(abbrev|unfoldable|pub) /, "", line)) { }
    if (sub(/^(record|data) /, "", line)) { sub(/ .*/, "", line); define(path, line) }
    else if (line ~ /^[^ (){};,.:=]+ ([{][^}]*[}] )?:/) { sub(/ .*/, "", line); define(path, line) }
}

# a function, a type or a constant; in the tests also a variable that a run reads
function collect_code(path, line,   rest) {
    if (line ~ /^ *\/\//) return
    rest = line
    while (match(rest, /"(DISK_[A-Z_]+|TRACE)"/)) {
        define(path, substr(rest, RSTART + 1, RLENGTH - 2))
        rest = substr(rest, RSTART + RLENGTH)
    }
    if (!match(line, /(^| )(fn|struct|enum|const|static|mod|type|trait) [A-Za-z_]/)) return
    line = substr(line, RSTART + RLENGTH - 1)
    match(line, /^[A-Za-z0-9_]+/)
    define(path, substr(line, 1, RLENGTH))
}

# in C a function; in a header, which defines for C, every name of its own
function collect_c(path, line) {
    while (path ~ /^include/ && match(line, /(disk|DISK)_[A-Za-z_]+/)) {
        define(path, substr(line, RSTART, RLENGTH))
        line = substr(line, RSTART + RLENGTH)
    }
    if (line ~ /^[a-z]/ && match(line, /[a-z_0-9]+\(/)) define(path, substr(line, RSTART, RLENGTH - 1))
}

# ---- what is cited

function check(path,   line, number, fenced) {
    document = path
    checked = missing = number = fenced = 0
    begin_paragraph()
    while ((getline line < path) > 0) {
        number++
        if (wrong_names && line ~ /^- /) begin_item(line)
        if (line ~ /^ *```/) { fenced = !fenced; begin_paragraph() }
        else if (fenced) check_fenced(line, number)
        else if (line ~ /^ *$/) begin_paragraph()
        else check_line(line, number)
    }
    close(path)
    if (wrong_names) begin_item("")
}

# of the wrong names each item has one: was that of the item before found missing?
function begin_item(line) {
    if (item != "" && missing > before) found++
    else if (item != "") print document ": not found missing: " item
    item = line
    before = missing
    if (line != "") items++
}

function report(number, span, why) {
    missing++
    if (!wrong_names) print document ":" number ": `" span "`: " why
}

function begin_paragraph() {
    between = ""
    chained = 0
    holder = ""
}

function check_fenced(line, number,   n, i, word) {
    n = split(line, word, " ")
    for (i = 1; i <= n; i++) if (is_path(word[i]) && word[i] ~ /\//) look_up(word[i], number)
    check_command(word, n, number)
}

# rt, what it is to do, as check or all check, and crates; in a fenced block a remark may follow
function check_command(word, n, number,   i) {
    if (word[1] != "rt") return
    for (i = word[2] == "all" ? 4 : 3; i <= n && word[i] != "#"; i++) {
        checked++
        if (!(word[i] in crate)) report(number, word[i], "no such crate")
    }
}

function check_line(line, number,   n, i, part) {
    sub(/^ +/, " ", line)
    n = split(line, part, "`")
    if (n % 2 == 0) report(number, part[n], "no second backtick on this line")
    for (i = 1; i <= n; i++) {
        if (i % 2) between = between (between ~ / $/ ? "" : i == 1 ? " " : "") part[i]
        else check_span(part[i], number)
    }
}

function check_span(span, number,   n, i, word, text) {
    text = between
    gsub(/  +/, " ", text)
    between = ""
    n = split(span, word, " ")
    for (i = 1; i <= n; i++) {
        gsub(/^[(]+|[),;]+$/, "", word[i])
        if (i == 1 || word[i] !~ /^[A-Za-z0-9_-]*$/) look_up(word[i], number)
    }
    check_command(word, n, number)
    relate(word[1], text, number)
}

# the name and the path beside it
function relate(name, text, number,   i) {
    if (is_path(name)) {
        if (text == " in " || text == " (") for (i = 1; i <= chained; i++) ask(name, chain[i], number)
        chained = 0
        holder = name
        holding = 0
        return
    }
    joined = text ~ /^(,|,? and|,? or) $/
    holding = holder != "" && (text == ": " || (holding && joined))
    if (holding) ask(holder, name, number)
    else holder = ""
    if (!joined) chained = 0
    chain[++chained] = name
}

function ask(path, name, number) {
    sub(/\/$/, "", path)
    if (name !~ /^[A-Za-z_][A-Za-z0-9_-]*$/ || !is_there(path)) return
    checked++
    if (!((path, name) in defined)) report(number, name, "not defined in " path)
}

function is_path(word) {
    return word ~ /^(crates|docs|tests|examples|include|\.ci)\// && word !~ /::/ || word ~ /^[^\/:]*\.(md|txt|antt|rt|rs|c|cpp|h|toml|edit)$/
}

function is_there(path,   i) {
    sub(/\/$/, "", path)
    if (path in exists) return 1
    if (path !~ /\*/) return 0
    gsub(/\./, "[.]", path)
    gsub(/\*/, "[^/]*", path)
    for (i in exists) if (i ~ ("^" path "$")) return 1
    return 0
}

function look_up(word, number,   why) {
    if (word ~ /^target\// || is_made(word)) return
    if (is_path(word)) why = is_there(word) ? "" : "no such file or folder"
    else if (word ~ /^[a-z_0-9]+\/[a-z_0-9]+::[a-z_0-9]+$/) why = test(word)
    else if (word ~ /^[a-z_0-9]+::[A-Za-z_0-9:]+$/) why = code(word)
    else if (word ~ /^[a-z_0-9]+\.(specs|proofs)\.[A-Z]/) why = definition(word)
    else if (word ~ /^[A-Z][A-Za-z]*\.[A-Za-z_]/) why = definition("rules.specs." word)
    else if (word ~ /^[A-Za-z_0-9.]+\/[A-Za-z_0-9.\/]+$/) why = edit(word)
    else if (word ~ /^[A-Za-z][A-Za-z0-9_-]+$/) why = known(word) ? "" : "defined nowhere"
    else return
    checked++
    if (why != "") report(number, word, why)
}

# a file that rt makes beside a crate's own
function is_made(word,   at) {
    return split(word, at, "/") > 3 && at[1] == "crates" && at[2] in crate && at[3] == "out"
}

function known(word) {
    return word in anywhere || word in crate || word in foreign
}

function edit(word,   at, n) {
    n = split(word, at, "/")
    if (n != 2 || !(at[1] in crate)) return "no path from the root, and no edit of a crate"
    return word in mistakes ? "" : "no such mistake of a must-fail edit"
}

function test(word,   at, file) {
    split(word, at, "/")
    sub(/::.*/, "", at[2])
    file = "tests/" at[1] "/tests/" at[2] ".rs"
    if (!(file in exists)) file = "tests/" at[1] "/" at[2] ".c"
    sub(/.*::/, "", word)
    return (file, word) in defined ? "" : "no such test"
}

function code(word,   at, n, i, file) {
    n = split(word, at, "::")
    if (!(at[1] in crate)) return "no such crate"
    i = 3
    file = "crates/" at[1] "/src/" at[2] ".rt"
    if (!(file in exists)) {
        i = 2
        file = "crates/" at[1] "/src/lib.rt"
        if (!(file in exists)) file = "crates/" at[1] "/src/main.rt"
    }
    for (; i <= n; i++) if (!((file, at[i]) in defined)) return "not defined in " file
    return ""
}

# the file is the longest one that the names give: Sound.All is All.antt in a folder, though there is a Sound.antt beside it
function definition(word,   at, n, i, k, path, file) {
    n = split(word, at, ".")
    path = "crates/" at[1] "/" at[2]
    for (i = 3; i <= n; i++) {
        path = path "/" at[i]
        if ((path ".antt") in exists) { file = path ".antt"; k = i + 1 }
    }
    if (file == "") return "no such file of definitions"
    if (k > n) return "names a file and no definition"
    for (; k <= n; k++) if (!((file, at[k]) in defined)) return "not defined in " file
    return ""
}
