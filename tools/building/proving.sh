# The proofs of a program's crates: a part of tools/build-program.
#
# Each crate is proved by the kit's `rattle build`, as `rt ci` does it: with --statements, so that its library, in out/statements/,
# has what crates above can cite and no proofs. `rt lib` keeps the proofs, which crates above then read whole: for the upper ones
# that takes longer than to prove them. Of crates that are ready, those with the longest chain of others behind them come first, of
# two alike the one that crates.txt has first. One at a time is proved by a process on each processor, and beside it two of the
# others by one process each.

# How many seconds each crate of the longest chain was seen to take by four processors from nothing.
declare -gA seconds_of=([lit_syntax]=17 [lit_paths]=48 [lit_rel]=69 [lit_order]=32 [lit_valid]=8 [lit_solve]=134 [lit_search]=60
    [lit_share]=86 [jslit]=58 [jslit_cli]=58 [lit_why]=265 [lit_reason]=58)

# How long it has taken.
clock() { printf '%d min %02d s' $((SECONDS / 60)) $((SECONDS % 60)); }

# About how long the crates that are due take.
time_needed() {
    local each sum=0
    for each in "${crates[@]}"; do
        [ "${state[$each]}" = proved ] || sum=$((sum + ${seconds_of[$each]-0}))
    done
    [ $sum -eq 0 ] || echo ": about $((sum / 60 + 1)) minutes on four idle processors"
}

# How many functions of how many a crate's check has done.
count() {
    sed -n -e 's/^checked .*, \([0-9]* of [0-9]*\)$/\1/p' -e 's/^so far: \([0-9]* of [0-9]*\) .*/\1/p' "$logs/$1" 2>/dev/null | tail -n 1
}

# Whether all that a crate stands on is proved.
is_ready() {
    local need
    for need in ${needs[$1]}; do
        [ "${state[$need]:-proved}" = proved ] || return 1
    done
}

# Sets `found` to a digest of a crate's own sources.
find_own() {
    local crates=("$1")
    found=$(sums_of) || fail "the sources of $1 can't be read"
}

# Sets `record` to what a crate's library is made from: the toolchain, and of the crate and of those below it the line and the
# digest of the sources.
describe_library() {
    local each all=" $1 " number
    record="toolchain $toolchain"
    for ((number = ${#crates[@]} - 1; number >= 0; number--)); do
        each=${crates[number]}
        [[ $all == *" $each "* ]] || continue
        all+="${needs[$each]} "
        record+=$'\n'"${lines[number]}"$'\n'"${own[$each]}"
    done
}

# Whether a library is there and is that of the sources.
is_kept() {
    local kept=() need IFS=$'\n'
    [ -d "$1/out/statements/$1.rlib" ] && [ -r "$1/out/statements/sources" ] || return
    mapfile -t kept <"$1/out/statements/sources" || fail "crates/$1/out/statements/sources can't be read"
    describe_library "$1"
    [ "${kept[*]}" = "$record" ]
}

# Keeps what a library was made from.
keep_library() {
    describe_library "$1"
    printf '%s\n' "$record" >"$1/out/statements/sources" || fail "crates/$1/out/statements/sources can't be written"
}

# Sets `proved` to how many libraries are there. One that isn't is proved, as are those above it.
find_kept() {
    local each found
    proved=0
    for each in "${crates[@]}"; do
        find_own "$each"
        own[$each]=$found
        if [ "$each" != "$crate" ] && is_ready "$each" && is_kept "$each"; then
            state[$each]=proved
            proved=$((proved + 1))
        fi
    done
}

# Whether there is memory for crates beside another: 3 GB for each processor. All have been seen to take 6 on four.
has_room() {
    local word total
    read -r word total _ </proc/meminfo || fail "/proc/meminfo can't be read"
    [ "$word" = MemTotal: ] && [ "$total" -ge $((jobs * 3000000)) ]
}

# Sets `words` to what `rattle build` is asked for a crate, in its folder.
ask_for() {
    local each
    words=(build --crate-name "$1" "src/$2.rt" --extern "std=$kit/rlibs/std.rlib")
    for each in ${needs[$1]}; do
        if [ -n "${state[$each]-}" ]; then
            words+=(--extern "$each=../$each/$libraries/$each.rlib")
        else
            words+=(--extern "$each=$kit/rlibs/$each.rlib")
        fi
    done
    words+=(-L "dependency=$kit/rlibs")
    for each in "${crates[@]}"; do
        [ "${state[$each]}" != proved ] || words+=(-L "dependency=../$each/$libraries")
    done
    words+=(--antt-project "$kit/rattle/logic/antt-project.json" --logic-built "$kit/logic_built" --links "$1=" --jobs "$3")
}

# Proves a library in the background, and writes its statements.
start_library() {
    local words
    ask_for "$1" lib "$2"
    rm -rf "$1/out/statements" && mkdir -p "$1/out/statements" || fail "crates/$1/out/statements can't be made"
    (cd "$room/$1" && exec "$kit/bin/rattle" "${words[@]}" --statements -o "out/statements/$1.rlib") >"$logs/$1" 2>&1 </dev/null 8>&- 9>&- &
}

# Proves the program and compiles it to its object, in its folder.
compile_program() {
    local words
    ask_for "$1" main "$jobs"
    cd "$room/$1" && "$kit/bin/rattle" "${words[@]}" --toolchain "$kit/toolchain" --backend llvm -o "out/$1.o"
}

# Proves the program in the background, compiles it and links it.
start_program() {
    (compile_program "$1" && exec "$kit/bin/rattle-link" --target x86_64-unknown-linux-gnu --toolchain "$kit/toolchain" \
        -o "out/$1" "out/$1.o" "$kit"/c/lib{os,libc}_c.a) >"$logs/$1" 2>&1 </dev/null 8>&- 9>&- &
}

# Makes a toolchain whose clang keeps the LLVM module that it is given, as the file $1, and sets `keeping` to it.
make_keeping() {
    local each
    keeping=$PWD/$logs/toolchain
    mkdir -p "$keeping/bin" || fail "$keeping can't be made"
    for each in "$kit"/toolchain/* "$kit"/toolchain/bin/*; do
        each=${each#"$kit/toolchain/"}
        [[ $each == bin || $each == bin/clang ]] || ln -s "$kit/toolchain/$each" "$keeping/$each" || fail "$keeping can't be made"
    done
    printf '#!/bin/sh\nfor each; do case $each in *.bc) cp "$each" "%s" || exit ;; esac; done\nexec "%s" "$@"\n' \
        "$PWD/$1" "$kit/toolchain/bin/clang" >"$keeping/bin/clang" && chmod +x "$keeping/bin/clang" || fail "$keeping can't be made"
}

# Proves a library for C in the background and compiles it.
start_for_c() {
    local words keeping
    ask_for "$1" lib "$jobs"
    make_keeping "$1/out/$1.bc"
    (cd "$room/$1" && exec "$kit/bin/rattle" "${words[@]}" --crate-type staticlib --toolchain "$keeping" --backend llvm -o "out/lib$1.a") \
        >"$logs/$1" 2>&1 </dev/null 8>&- 9>&- &
}

# Makes over the libraries that `rt ci` proved what it leaves no trace of: a library for C, or the object of a program.
make_missing() {
    local each status=0
    libraries=out/rlib
    for each in "${crates[@]}"; do [ "$each" = "$crate" ] || state[$each]=proved; done
    prepare
    if [ -n "$is_for_c" ]; then start_for_c "$crate"; else compile_program "$crate" >"$logs/$crate" 2>&1 </dev/null & fi
    wait $! || status=$?
    [ $status -eq 0 ] || { cat "$logs/$crate"; fail "$crate is not proved, or not built (status $status)"; }
}

# Starts a crate that is ready: by a process on each processor, if it is the one that others wait for longest.
start() {
    if [ "$1" = "$crate" ] && [ -n "$is_for_c" ]; then
        start_for_c "$1"
    elif [ "$1" = "$crate" ]; then
        start_program "$1"
    elif [ "$1" = "$main" ]; then
        start_library "$1" "$jobs"
    else
        start_library "$1" 1
    fi
    pids[$1]=$!
    state[$1]=running
}

# Starts what can be proved now. Of those that others wait for longest one is proved by all processors, and beside it two more.
start_ready() {
    local each longest=
    for each in "${order[@]}"; do
        [ "${state[$each]}" != proved ] || continue
        longest=${longest:-${behind[$each]}}
        [ "${state[$each]}" = waiting ] && is_ready "$each" || continue
        if [ -z "$main" ] && { [ "${behind[$each]}" -eq "$longest" ] || ! has_room; }; then
            main=$each
        elif [ ${#pids[@]} -gt 2 ] || ! has_room; then
            return 0
        fi
        start "$each"
    done
}

# Shows a line: on a terminal in place of the one before.
show() { if [ -t 1 ]; then printf '\r\033[K%s' "$1"; fi; }
tell() { if [ -t 1 ]; then printf '\r\033[K'; fi; printf '%s\n' "$1"; }

# Takes note of a crate whose proof has ended.
take_end() {
    local status=0
    wait "${pids[$1]}" || status=$?
    unset "pids[$1]"
    [ "$1" != "$main" ] || main=
    if [ $status -ne 0 ]; then
        tell "$name: $1 failed"
        grep -v ': proved$\|^checked \|^so far: \|^statements \|^library \|^by-macro' "$logs/$1"
        fail "$1 is not proved, or the program not built (status $status)"
    fi
    [ "$1" = "$crate" ] || keep_library "$1"
    state[$1]=proved
    proved=$((proved + 1))
    tell "$name: $proved of ${#crates[@]}: $1 proved ($(clock))"
}

# Proves all crates. It looks more often where something has just ended, since more may.
prove() {
    local each checked busy seconds=0.05
    order_crates
    find_kept
    tell "$name: proving $((${#crates[@]} - proved)) crates and building the program$(time_needed); once, and after each change of a source"
    while [ "$proved" -lt "${#crates[@]}" ]; do
        busy=""
        start_ready
        for each in "${order[@]}"; do
            [ "${state[$each]}" = running ] || continue
            if kill -0 "${pids[$each]}" 2>/dev/null; then
                checked=$(count "$each")
                busy="$busy, $each${checked:+ $checked functions}"
            else
                take_end "$each"
                seconds=0.05
            fi
        done
        show "$name: $proved of ${#crates[@]} crates proved${busy} ($(clock))"
        pause $seconds
        if [ $seconds = 0.05 ]; then seconds=0.2; else seconds=0.5; fi
    done
}
