# How a proved program starts: what bin/jslit, bin/jslit-text and bin/jslit-why share. `name` is the command's and `top` the repository.
#
# In the repository the program is proved and built first where that is due, by tools/build-program; where it was installed
# (libexec/, by tools/install) it runs as it is there. Words that ask for no text, such as --help, and words at fault are answered without
# a build: docs/help/ has what --help prints. Where the program can't be had, a line on standard error says why, and the status is 70.
set -u
shopt -s execfail
. "$top/shared/bash/own.sh" && . "$top/shared/bash/words.sh" || exit

end_with() {
    trap - EXIT
    exit "$1"
}

fail() {
    echo "$name: $1" >&2
    end_with 70
}

# Ends the build and then this start, by the signal that came. The build is told alone, so that it can end what it started,
# and what still runs of its group after that is killed.
end_by() {
    trap '' HUP INT TERM
    builder=${builder:-${!-}}
    if [ -n "$builder" ]; then
        kill -TERM "$builder"
        wait "$builder"
        kill -KILL -- "-$builder"
    fi 2>/dev/null
    trap - "$1" EXIT
    kill -s "$1" $$
}

# Proves and builds where that is due. That is a job with a group of its own, which this waits for, so that a signal comes
# through at once.
build() {
    local status=0
    builder=
    trap 'end_by HUP' HUP
    trap 'end_by INT' INT
    trap 'end_by TERM' TERM
    set -m
    "$top/tools/build-program" "$program" "$name" </dev/null >&2 &
    builder=$!
    set +m
    wait "$builder" || status=$?
    trap - HUP INT TERM
    if [ $status -ne 0 ]; then
        kill -KILL -- "-$builder" 2>/dev/null
        [ $status -eq 70 ] || fail "tools/build-program ended with status $status"
        end_with 70
    fi
}

# Sets `program` to the one of this crate, built if need be; or ends where the words can be answered without one.
find_program() {
    local crate=$1
    shift
    program=$top/libexec/$name
    if [ -e "$program" ]; then trap - HUP INT TERM; return; fi
    [ -e "$top/tools/build-program" ] || fail "there is no program $program"
    program=$top/crates/$crate/out/$crate
    see_words "$@"
    if [ -n "$answer" ] && ! "$top/tools/build-program" --fresh "$program"; then answer_words; fi
    build
}

# Says on the terminal that a run goes on: after two seconds, after ten, and then each minute. It ends with the start that it is a part of.
show_life() {
    local waited=0
    # (it holds the terminal for a second more at the most)
    while sleep 1 && kill -0 $$ 2>/dev/null; do
        waited=$((waited + 1))
        if [ $waited -eq 2 ] || [ $waited -eq 10 ] || [ $((waited % 60)) -eq 0 ]; then echo "$name: at it for $waited s" >&2; fi
    done
}

# start CRATE WORDS..: runs the program of this crate with these words. Where the standard error is a terminal and its status one of
# `explained`, jslit-explain says more there, with the word that stands beside the status. There a program that is `quiet` itself is
# seen to live.
start() {
    local status=0 life=
    find_program "$@"
    shift
    if [ ${#explained[@]} -eq 0 ] || [ ! -t 2 ]; then
        exec "$program" "$@"
        fail "the program can't be run"
    fi
    if [ -n "${quiet-}" ]; then
        show_life </dev/null >/dev/null &
        life=$!
    fi
    "$program" "$@" || status=$?
    [ -z "$life" ] || kill "$life" 2>/dev/null
    if [ -n "${explained[$status]+there}" ] && command -v node >/dev/null; then
        # shellcheck disable=SC2086
        "$top/bin/jslit-explain" --program "$program" ${explained[$status]} "$@" || true
    fi
    end_with "$status"
}
