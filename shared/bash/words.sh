# What the words of a program ask for, as far as its help tells it, so that help, version and faults of the words need no program:
# docs/help/NAME.txt has what `NAME --help` prints. A part of shared/bash/start.sh. `apart` has the options that don't go with one
# another: in each of its members the first doesn't go with the others.

# Sets `kinds`, by option: `flag`, `text`, or the least and the greatest number that its value may be.
read_help() {
    local line
    declare -gA kinds=()
    mapfile -t help <"$top/docs/help/$name.txt" || fail "docs/help/$name.txt can't be read"
    for line in "${help[@]}"; do
        [[ $line =~ ^\ +(-.,\ )?(--[a-z-]+)(\ \<([A-Z]+)\>)?\ +(.*)$ ]] || continue
        case ${BASH_REMATCH[4]} in
            "") kinds[${BASH_REMATCH[2]}]=flag ;;
            N) kinds[${BASH_REMATCH[2]}]=$(range_in "${BASH_REMATCH[5]}") || fail "docs/help/$name.txt can't be read" ;;
            *) kinds[${BASH_REMATCH[2]}]=text ;;
        esac
    done
}

# The range that a line of the help tells, or else any number of a choice.
range_in() {
    if [[ $1 =~ ,\ ([0-9]+)\ to\ ([0-9]+) ]]; then echo "${BASH_REMATCH[*]:1}"; else echo "0 281474976710656"; fi
}

# Whether a value is one of an option of this kind.
is_value() {
    local kind=$1 digits
    [ "$kind" != text ] || return 0
    [[ $2 =~ ^\+?0*([0-9]+)$ ]] || return 1
    digits=${BASH_REMATCH[1]}
    [ ${#digits} -lt 16 ] && [ "$digits" -ge "${kind% *}" ] && [ "$digits" -le "${kind#* }" ]
}

# Sets `answer` to help, version, unread, or to what is wrong with the words, where they ask for no text that could be read.
see_words() {
    local word flag value given=" " files=()
    answer=
    read_help
    while [ $# -gt 0 ] && [ -z "$answer" ]; do
        word=$1 flag=${1%%=*}
        shift
        case $word in
            --) files+=("$@") && break ;;
            -h | --help) answer=help && return ;;
            -V | --version) answer=version && return ;;
            --*)
                [[ $given != *" $flag "* ]] || answer="$flag stands twice"
                given+="$flag "
                case ${kinds[$flag]-} in
                    "") answer="there is no option $flag" ;;
                    flag) [ "$word" = "$flag" ] || answer="$flag takes no value" ;;
                    *)
                        if [ "$word" != "$flag" ]; then value=${word#*=}; elif [ $# -gt 0 ]; then value=$1 && shift; else value=; fi
                        is_value "${kinds[$flag]}" "$value" || answer="$flag $value: a number from ${kinds[$flag]/ / to } is wanted" ;;
                esac ;;
            -?*) answer="there is no option $word" ;;
            *) files+=("$word") ;;
        esac
    done
    [ -n "$answer" ] || see_together "$given" "${files[@]}"
}

# The same of words that are right each for itself.
see_together() {
    local group first other given=$1
    shift
    [ $# -lt 2 ] || answer="one file at the most"
    for group in "${apart[@]}"; do
        first=${group%% *}
        for other in ${group#* }; do
            [[ $given != *" $first "* || $given != *" $other "* ]] || answer="$first and $other don't go together"
        done
    done
    if [ -z "$answer" ] && [ $# -gt 0 ] && { [ ! -r "$1" ] || [ -d "$1" ]; }; then answer=unread; fi
}

# Ends with the answer to words that need no program.
answer_words() {
    local source
    case $answer in
        help) printf '%s\n' "${help[@]}" && end_with 0 || end_with 0 ;;
        version)
            source=$(<"$top/docs/help/version.txt") || fail "the version can't be read"
            printf '%s %s\n' "$name" "$source"
            echo "$name: it isn't proved and built here yet: that is done when it is first given a text" >&2
            end_with 0 ;;
        unread) echo input_failed >&2 && end_with 4 || end_with 4 ;;
        *) echo "$name: $answer; $name --help lists the options" >&2 && end_with 2 || end_with 2 ;;
    esac
}
