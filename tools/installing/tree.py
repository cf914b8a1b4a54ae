"""What is put where below a prefix: the programs, the commands with what they need, the page, man pages, and completions."""
import os
import pathlib

from installing import completions, pages
from installing.commands import COMMANDS, Command
from installing.place import TREE, New
from litmus.program import TOP, version

# What the commands need of the repository.
NEEDED = ["bin", "shared", "litmus", "editors", "README.md", "CHANGELOG.md", "CITATION.cff", "LICENSE-APACHE", "LICENSE-MIT",
          *(f"docs/{name}.md" for name in ("COMMANDS", "ENGINES", "FORMAT", "JAVASCRIPT", "MODEL", "GLOSSARY", "PAGE", "TUTORIAL")),
          *(f"docs/{name}" for name in ("schemas", "help", "mp.svg", "sb.svg", "sb-refused.svg", "tear.svg", "page.png"))]


def files_of(name):
    """The files of the repository that a name stands for."""
    path = TOP / name
    found = sorted(path.rglob("*")) if path.is_dir() else [path]
    return [each for each in found if each.is_file() and "__pycache__" not in each.parts]


def new_files(own, site):
    """What is put where, by its name below the prefix. `own` has the programs, `site` the files of the page."""
    needed = (path for name in NEEDED for path in files_of(name))
    new = {f"{TREE}/{path.relative_to(TOP)}": New(path.read_bytes(), os.access(path, os.X_OK)) for path in needed}
    new |= {f"{TREE}/site/{name}": New(data) for name, data in site.items()}
    for name, path in own.items():
        new[f"{TREE}/libexec/{name}"] = New(pathlib.Path(path).read_bytes(), runs=True)
    commands = [Command(name, own.get(name, TOP / "bin" / name)) for name in COMMANDS]
    for command in commands:
        name = command.name
        new[f"bin/{name}"] = New(link=f"../{TREE}/bin/{name}")
        new[f"share/man/man1/{name}.1"] = New(pages.page_of(command, version()[0], cited("date-released")).encode())
        new[f"share/bash-completion/completions/{name}"] = New(link="jslit")
    new["share/bash-completion/completions/jslit"] = New(completions.bash(commands).encode())
    new["share/zsh/site-functions/_jslit"] = New(completions.zsh(commands).encode())
    return new


def cited(key):
    """What CITATION.cff says in the line that begins so."""
    line = next(line for line in (TOP / "CITATION.cff").read_text().split("\n") if line.lstrip("- ").startswith(f"{key}: "))
    return line.partition(": ")[2].strip('"')
