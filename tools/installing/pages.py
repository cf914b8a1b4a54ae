"""The man page of a command, made of its --help, with the addresses of shared/published.json."""
from installing.commands import COMMANDS
from litmus.program import PUBLISHED


def escaped(line):
    """A line as roff takes it: no sign of it is a command, and a hyphen is the one of ASCII."""
    line = line.replace("\\", "\\e").replace("-", "\\-")
    return f"\\&{line}" if line.startswith((".", "'")) else line


def page_of(command, version, date):
    lines = [f'.TH {command.name.upper()} 1 {date} "jslit {version}" "User commands"', ".SH NAME",
             f"{escaped(command.name)} \\- {escaped(command.summary)}", ".SH SYNOPSIS", ".nf", *map(escaped, joined(command.usage)), ".fi"]
    for place, text in enumerate(command.text):
        lines += [".SH DESCRIPTION" if place == 0 else ".PP", *map(escaped, text.split("\n"))]
    for heading, rows in command.sections:
        lines += [f".SH {heading.upper()}", ".nf", *map(escaped, (row.removeprefix("  ") for row in rows)), ".fi"]
    lines += [".SH REPORTING FAULTS", escaped(f"To {PUBLISHED['faults']}; the repository is {PUBLISHED['repository']}.")]
    others = [name for name in COMMANDS if name != command.name]
    lines += [".SH SEE ALSO", ",\n".join(f".BR {escaped(name)} (1)" for name in others).replace(" (1),", " (1),")]
    return "\n".join(lines) + "\n"


def joined(usage):
    """The lines of a usage, one that goes on behind the one that it goes on from."""
    lines = []
    for line in usage:
        if lines and line.startswith("["):
            lines[-1] += f" {line}"
        else:
            lines.append(line)
    return lines
