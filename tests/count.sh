# What the scripts that run several suites share: a script goes to the project's root and reads this file with '.'. It runs each suite by `run`, adds its
# counts by `count`, and ends with `finish`.
out=$(mktemp) || exit 2
trap 'rm -rf "$out" "$out.status"' EXIT
passed=0
failed=0

# runs a command, shows its output as it comes and how long it took, keeps the output in $out, and leaves the command's own exit status in $status: a pipe's
# would be that of tee
run() {
    echo "== $*"
    began=$(date +%s)
    echo 1 >"$out.status"
    { "$@" 2>&1; echo $? >"$out.status"; } | tee "$out"
    status=$(cat "$out.status")
    echo "== took $(($(date +%s) - began)) s"
}

# the counts in $out, 'passed failed' on a line: of the last line 'N passed, M failed', or of each of cargo's lines of results
of_last_line() { sed -nE 's/^([0-9]+) passed, ([0-9]+) failed$/\1 \2/p' "$out" | tail -n 1; }
of_cargo() { sed -nE 's/^test result: .* ([0-9]+) passed; ([0-9]+) failed;.*/\1 \2/p' "$out"; }

# adds the counts of what was run to the sum; a run that ends with a status other than 0, or that has no counts, is at least one failure
count() {
    set -- $("$1" | awk '{ passed += $1; failed += $2 } END { print passed + 0, failed + 0, NR }')
    if [ "$2" -eq 0 ] && { [ "$status" -ne 0 ] || [ "$3" -eq 0 ]; }; then set -- "$1" 1; fi
    passed=$((passed + $1))
    failed=$((failed + $2))
}

# the last line; its status is that of the script
finish() {
    echo "$passed passed, $failed failed"
    [ "$failed" -eq 0 ]
}
