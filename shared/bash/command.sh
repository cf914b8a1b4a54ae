# How a command of bin/ starts that is a script of Node: what each of them reads, whose own path is `self`. Where Node isn't there, a line
# says so, and the status is 70.
name=${self##*/} top=${self%/*/*}
. "$top/shared/bash/own.sh" || exit 70
if ! command -v node >/dev/null; then
    echo "$name: node isn't there; Debian's package is nodejs" >&2
    exit 70
fi
# Signals that the caller ignores, which Node would not.
JSLIT_IGNORED=$(trap -p HUP INT TERM) && export JSLIT_IGNORED
exec node "$top/shared/javascript/${name#jslit-}_command.js" "$@"
