# Makes a bash script independent of what its caller exports for shells. Each script here runs by `bash -p`, and reads this file first:
# such a shell reads no BASH_ENV and no ENV, and takes neither functions nor SHELLOPTS, BASHOPTS, CDPATH and GLOBIGNORE from the
# environment. It hands them on to what it starts, though: so where there are such, the script begins once more without them.
# (IFS is no matter: no shell takes it from the environment.)
begin_without_foreign() {
    local each foreign=() found=()
    { mapfile -d '' -t found </proc/self/environ; } 2>/dev/null
    for each in "${found[@]}"; do
        case ${each%%=*} in
            BASH_ENV | ENV | CDPATH | GLOBIGNORE | SHELLOPTS | BASHOPTS | POSIXLY_CORRECT | GREP_OPTIONS | GREP_COLOR | BASH_FUNC_*)
                foreign+=(-u "${each%%=*}") ;;
        esac
    done
    if [ ${#foreign[@]} -gt 0 ]; then exec env "${foreign[@]}" bash -p "$0" "$@"; fi
}
begin_without_foreign "$@"
