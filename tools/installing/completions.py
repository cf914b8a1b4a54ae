"""Completions of the commands' options and files, made of their --help."""
from installing.commands import FILES

BASH = """# Completions of jslit and its commands for bash; tools/install makes them of what each --help says.
_jslit() {{
    local word=$2 before=$3 options= valued= files=
    COMPREPLY=()
    case ${{1##*/}} in
{cases}
    esac
    if [[ " $files " == *" $before "* ]]; then
        mapfile -t COMPREPLY < <(compgen -f -- "$word")
        compopt -o filenames
    elif [[ " $valued " == *" $before "* ]]; then
        return
    elif [[ $word == -* ]]; then
        mapfile -t COMPREPLY < <(compgen -W "$options" -- "$word")
    else
        mapfile -t COMPREPLY < <(compgen -d -- "$word"; compgen -f -X '!*.lit' -- "$word")
        compopt -o filenames
    fi
}}
complete -F _jslit {names}
"""

ZSH = """#compdef {names}
# Completions of jslit and its commands for zsh; tools/install makes them of what each --help says.
case $service in
{cases}
esac
"""


def bash(commands):
    def case(command):
        options = command.options()
        valued = [name for name, value in options if value and value not in FILES]
        files = [name for name, value in options if value in FILES]
        return (f"        {command.name}) options='{' '.join(name for name, _ in options)}' valued='{' '.join(valued)}' "
                f"files='{' '.join(files)}' ;;")
    return BASH.format(cases="\n".join(map(case, commands)), names=" ".join(command.name for command in commands))


def zsh(commands):
    def option(name, value):
        action = "_files" if value in FILES else ""
        return f"'{name}:{value}:{action}'" if value else f"'{name}'"

    def case(command):
        options = " ".join(option(*each) for each in command.options())
        return f"    {command.name}) _arguments {options} '*:litmus test:_files -g \"*.lit\"' ;;"
    return ZSH.format(cases="\n".join(map(case, commands)), names=" ".join(command.name for command in commands))
