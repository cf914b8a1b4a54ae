# What the checks of the commands for engines share.
. "$(dirname "${BASH_SOURCE[0]}")/begin.sh"
take_program "${1-}"
"$top/tools/need" node=nodejs

# Texts: byte 13 ends no line, and so no comment; names that are words of JavaScript, and CRLF; one that is refused.
printf 'test cr\nbytes 1\nagent A\nU8[0] = 1\n// x\rU8[0] = 2\nr0 = U8[0]\ncheck A.r0 == 1\n' >"$work/cr.lit"
printf 'test toString\r\nbytes 2\r\nagent __proto__\r\nU8[0] = 1\r\nr0 = U8[1]\r\nagent while\r\nU8[1] = 1\r\nr0 = U8[0]\r\n%s\r\n' \
    'check __proto__.r0 == 0 && while.r0 == 0 // ---*/' >"$work/names.lit"
printf 'test t\nbytes 99\n' >"$work/refused.lit"

# ends NAME STATUS TEXT COMMAND..: whether the command ends with the status, or one of several with `|` between them, and says
# the text, on either output. The limit ends a command that hangs: one that has much to do may take minutes on a slow machine.
ends() {
    local name=$1 wanted=$2 text=$3 status=0
    shift 3
    timeout 600 "$@" >"$work/said" 2>&1 || status=$?
    if [[ "|$wanted|" == *"|$status|"* ]] && { [ -z "$text" ] || grep -qF -- "$text" "$work/said"; }; then
        passed=$((passed + 1))
    else
        failed=$((failed + 1))
        echo "$name: status $status, said '$(head -c 300 "$work/said")'"
    fi
}

# feigned NAME TEXT: a program of bash that does this, in $work.
feigned() {
    printf '#!/usr/bin/env bash\n%s\n' "$2" >"$work/$1"
    chmod +x "$work/$1"
}
