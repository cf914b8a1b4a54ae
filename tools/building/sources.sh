# The sources of a program, their digest, and whether a program is that of its sources: a part of tools/build-program.
#
# Contents decide, not times: PROGRAM.digest has the toolchain's line, the crates' lines of crates.txt, a digest of the names
# and contents of all files that the program is proved and built from, and one of the program itself, or two of what a library for C is.

# Has this done to all sources, by `find`: to what lies in the crates' folders in `room`, but for what is made there, must-fail
# edits, and what a program is run on.
with_sources() {
    cd "$room" && find -L "${crates[@]}" "${handles[@]}" -regextype posix-extended \
        -regex '[^/]*/(out|must-fail|args|stdin|stdout|status)' -prune -o -type f "$@"
}

# Prints the digests of the files named, a line each, and last one of the names and contents of all sources. The last b2sum has
# long begun with the files named while the others are still at the sources.
sums_of() { (with_sources -exec b2sum -l 256 -- {} +) | LC_ALL=C sort | b2sum -l 256 -- "$@" -; }

# Sets `sources` to the digest of the sources, and with the word `program` also `bytes` to that of the program, or those of what is
# made. A list of no sources is a fault, as is an answer that isn't whole.
take_sums() {
    local said each hex='([0-9a-f]{64})' of_nothing=0e5751c026e543b2e8ab2eb06099daa1d1e5df47778f7787faab45cdf12fe3a8 wanted=^
    [ $# -eq 0 ] || for each in "${made[@]}"; do wanted+="$hex  $each"$'\n'; done
    wanted+="$hex  -\$"
    said=$(sums_of ${1:+"${made[@]}"}) || fail "the sources can't be read, so nothing says whether the program is theirs"
    [[ $said =~ $wanted ]] || fail "b2sum answered without digests: nothing says whether the program is that of the sources"
    bytes=("${BASH_REMATCH[@]:1}")
    sources=${bytes[-1]}
    unset "bytes[-1]"
    [ "$sources" != $of_nothing ] || fail "no sources were found"
}

# Sets `of_sources` to what is kept of the sources: of this toolchain's line.
describe() {
    local IFS=$'\n'
    of_sources="toolchain $1"$'\n'"${lines[*]}"$'\n'"sources $sources"
}

ask_toolchain() { toolchain=$(rt version) || fail "rt version failed, so nothing says by which toolchain the program would be"; }

# Whether this is the toolchain's line. `rt version` prints the kit's file KIT-ID, and takes half a second to come to it: so it
# is asked only where that file isn't there or says something else. Where there is no toolchain, none is another one.
is_toolchain() {
    local kit toolchain=
    hash rt 2>/dev/null || return 0
    kit=$(readlink -f "${BASH_CMDS[rt]}") || fail "readlink failed"
    kit=${kit%/*}/../KIT-ID
    if [ -r "$kit" ]; then IFS= read -r toolchain <"$kit"; fi
    [ "$toolchain" = "$1" ] || ask_toolchain
    [ "$toolchain" = "$1" ]
}

# Whether the program is there, or all that a library for C is.
is_there() {
    local each
    for each in "${made[@]}"; do [ -f "$each" ] || return 1; done
    [ -n "$is_for_c" ] || [ -x "$program" ]
}

# Whether the program is there and is that of the sources.
is_fresh() {
    local kept=() IFS=$'\n'
    is_there && [ -e "$digest" ] || return 1
    mapfile -t kept <"$digest" || fail "crates/$digest can't be read"
    [[ ${kept[0]-} == "toolchain "* ]] || return 1
    take_sums program
    describe "${kept[0]#toolchain }"
    [ "${kept[*]}" = "$of_sources"$'\n'"program ${bytes[*]}" ] && is_toolchain "${kept[0]#toolchain }"
}

# Copies the sources to where nobody changes them, and makes that the `room`: the prover reads there what its digest says, whatever
# becomes of the files that were copied. What is made lies in out/, which each crate there has by a link.
copy_sources() {
    local copied=$program.sources each
    rm -rf "$copied" && mkdir -p "$copied/crates" || fail "crates/$copied can't be made"
    (with_sources -exec cp --parents -t "$copied/crates" -- {} +) || fail "the sources can't be copied"
    room=$copied/crates
    for each in "${crates[@]}"; do
        mkdir -p "$each/out" && ln -s "../../../../../$each/out" "$room/$each/out" || fail "crates/$room/$each/out can't be made"
    done
}

# Keeps the digest for the program as it stands, if the sources in their own place are still those.
keep_digest() {
    local room=.
    is_there || fail "there is no program crates/$program"
    take_sums program
    describe "$toolchain"
    [ "$of_sources" = "$1" ] || fail "a source changed while the program was proved and built: start again"
    printf '%s\nprogram %s\n' "$of_sources" "$(IFS=$'\n' && echo "${bytes[*]}")" >"$digest.new" && mv -fT "$digest.new" "$digest" ||
        fail "crates/$digest can't be written"
}

# Whether a source was changed, if only for a while, since this file was. A copy isn't at hand where another command proved the program.
was_touched_since() {
    local touched
    touched=$(with_sources -cnewer "$1" -print -quit) || fail "the sources can't be read"
    [ -n "$touched" ]
}
