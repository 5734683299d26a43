# Reads a must-fail edit and then what rt check said of its crate with the edit in it, and tells of each mistake of the edit whether it was refused for itself.
#
# A mistake begins with a line 'mistake: NAME in PLACE ..'. A place is where its refusal is to be seen, below proofs/ of the crate:
#   views/fetch           a function, by the folder of its proof, which it need not have
#   Derived               a file of laws
#   Derived:agree_all     one law there
# A fact that fails is an error in a proof, or a goal that search does not prove. It is none where a proof was not checked because a part of it, or a function
# that it calls, was refused; where a name is gone that a proof cites (then the change made the proof unfit for the code, and shows nothing); or where the
# changed file itself has an error.
# Where several mistakes share a run, nothing may fail but in their places, since what fails elsewhere could hide that one of them is harmless.
# A run that ends with no verdict, because the check was killed or met a limit, or since a library below was not built, shows nothing.
#
# Given: edit, the name to print.

FNR == NR {
    if ($1 == "mistake:") begin_mistake()
    else if (/^file: /) { changes++; if (count == 0) fault("a change above the first mistake") }
    next
}

/^logic=not-proved/ { verdict = 1; next }

/^rt: the library .* did not build/ { fault("nothing was checked: " $0); next }

# a function whose proof search was to find, whole or in part: 'fn CRATE::PATH: no proof: expected answers in FILE; `search` did not prove `returns`'
/ no proof: .*`search` did not prove / && $1 == "fn" {
    path = $2
    sub(/:$/, "", path)
    sub(/^[^:]*::/, "", path)
    gsub(/::/, "/", path)
    failed_at(path, path, "search finds no proof")
    next
}

# an error in a file of the crate: './proofs/PATH.antt:LINE:COLUMN: error: `DECLARATION`: ..'
match($0, /^(\.\/)?(src|specs|proofs)\/[^ :]*:[0-9]+:[0-9]+: error/) {
    said = substr($0, RLENGTH + 1)
    line = $0
    sub(/^\.\//, "", line)
    path = substr(line, 1, index(line, ":") - 1)
    if (said ~ /which (was|were) rejected, (was|were) not checked|was not admitted/) next
    if (path !~ /^proofs\//) fault("the changed file has an error: " line)
    else if (said ~ /that can be named from here|has no field|is not in scope/) fault("a name is gone, and no fact fails: " line)
    else { sub(/^: /, "", said); failed_in(substr(path, 8), said) }
}

END {
    if (count == 0) fault("it names no mistake")
    if (changes < count) fault("a mistake without a change")
    if (!verdict) fault("the check ended with no verdict")
    for (i = 1; i <= count; i++) {
        if (names[i] in refused) print "passed: " edit ", " names[i] ": " refused[names[i]]
        else fault("no fact fails in " places[names[i]] ": " names[i])
    }
    if (count > 1) for (path in elsewhere) fault("a fact fails where no mistake was made: " path ": " elsewhere[path])
}

function fault(why) {
    print "FAILED: " edit ": " substr(why, 1, 200)
}

function begin_mistake(   i) {
    names[++count] = $2
    if ($3 != "in" || NF < 4) fault("a mistake without its place: " $2)
    for (i = 4; i <= NF; i++) {
        if ($i in owner) fault("two mistakes in " $i ", which cannot be told apart")
        owner[$i] = $2
        places[$2] = places[$2] ($2 in places && places[$2] != "" ? ", " : "") $i
    }
}

# an error in a file of proofs: a function's, or one of laws
function failed_in(path, said,   law, file) {
    file = path
    sub(/\.antt$/, "", file)
    law = said
    sub(/^`/, "", law)
    sub(/`.*/, "", law)
    if ((file ":" law) in owner) failed_at(file ":" law, file, said)
    else if (file in owner) failed_at(file, file, said)
    else { sub(/\/[^\/]*$/, "", file); failed_at(file, path, said) }
}

function failed_at(place, path, said) {
    if (place in owner) { if (!(owner[place] in refused)) refused[owner[place]] = "refused in " place ": " substr(said, 1, 90) }
    else elsewhere[path] = said
}
