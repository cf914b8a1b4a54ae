"""The commands, each with what it is, and with what its --help says."""
import re
import subprocess

from litmus.program import TOP

# Each command with what it is, as its section of docs/COMMANDS.md begins.
COMMANDS = {name: first.lower() + rest for name, first, rest in
            re.findall(r"^## (jslit\S*)\n\n(\w)(.*)\.$", (TOP / "docs" / "COMMANDS.md").read_text(), re.M)}
# What is proved: by --version it prints the toolchain's logic too.
PROVED = ("jslit", "jslit-text", "jslit-why")
# What a value is called that is a file's name.
FILES = ("FILE", "PROGRAM", "FOLDER")
OPTION = re.compile(r"^ +(?:-\w, )?(--[a-z-]+)(?: <?([A-Z]+)>?)?", re.M)


class Command:
    """A command by its help: `usage`, `text` (paragraphs up to the first heading), and `sections` by their headings."""

    def __init__(self, name, program):
        self.name, self.summary = name, COMMANDS[name]
        said = subprocess.run([program, "--help"], capture_output=True, text=True, check=True).stdout.rstrip("\n")
        first, *rest = said.split("\n\n")
        if rest and rest[0].startswith("Usage: "):
            first, rest[0] = rest[0].removeprefix("Usage: "), first
        self.usage = [line.strip() for line in first.split("\n")]
        self.text, self.sections = [], []
        for part in rest:
            heading, _, lines = part.partition(":\n")
            if lines.startswith("  "):
                self.sections.append((heading, lines.split("\n")))
            else:
                self.text.append(part)

    def options(self):
        """Each option, with what its value is called, or None."""
        lines = dict(self.sections)["Options"]
        return [(found[1], found[2]) for found in map(OPTION.match, lines) if found]
