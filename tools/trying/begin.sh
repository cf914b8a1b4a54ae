# What checks in bash begin with: a folder for their files, and a count of what passed.
set -eu
top=$(cd "$(dirname "${BASH_SOURCE[0]}")/../.." && pwd)
work=$(mktemp -d)
trap 'rm -rf "$work"' EXIT
passed=0
failed=0

# built NAME CRATE: the program of bin/NAME, which is no part of what is tried.
built() { if [ -e "$top/libexec/$1" ]; then echo "$top/libexec/$1"; else echo "$top/crates/$2/out/$2"; fi; }

# take_program [PROGRAM]: sets `program`, by default to that of jslit, proved and built first where that is due.
take_program() {
    program=$(realpath "${1:-$top/jslit}")
    "$program" "$top/litmus/still.lit" >/dev/null || { echo "$program doesn't run" >&2; exit 1; }
    [ "$program" != "$top/bin/jslit" ] || program=$(built jslit jslit_cli)
}

# tally STATUS: counts a test that passed with status 0.
tally() { if [ "$1" -eq 0 ]; then passed=$((passed + 1)); else failed=$((failed + 1)); fi; }

# count_told: the last line, and whether nothing failed.
count_told() {
    echo "$passed passed, $failed failed"
    [ "$failed" -eq 0 ]
}
