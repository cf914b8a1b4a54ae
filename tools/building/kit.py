"""The toolchain, and commands that are run."""
import pathlib
import shutil
import subprocess
import sys

from litmus.ends import Fault, shown
from litmus.program import TOP, status_of


def kit():
    """The folder of the toolchain whose rt is on the path."""
    found = shutil.which("rt")
    if not found:
        raise Fault("this needs rt, the command of the Rattle toolchain")
    return pathlib.Path(found).resolve().parent.parent


def ran(*words, **more):
    run = subprocess.run(words, capture_output=True, text=True, **more)
    if run.returncode:
        raise Fault(f"{shown(words[0])} failed: {run.stderr.strip()[-300:]}")


def need(*pairs):
    if subprocess.run([TOP / "tools" / "need", *pairs]).returncode:
        raise Fault(f"these packages of Debian's are needed: {', '.join(pair.partition('=')[2] for pair in pairs)}")


def proved(made, name):
    """What tools/build-program makes, of the sources as they stand: proved and built first where that is due."""
    if status_of(TOP / "tools" / "build-program", made, name, stdout=sys.stdout.fileno()):
        raise Fault(f"{shown(name)} can't be built")
    return made
