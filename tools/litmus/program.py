"""The programs that tools and checks run, and the version of all."""
import json
import pathlib
import subprocess
import sys

from litmus.ends import Fault, shown

TOP = pathlib.Path(__file__).resolve().parent.parent.parent
JSLIT = TOP / "bin" / "jslit"
NO_PROGRAM = 70  # the status of docs/COMMANDS.md for a program that isn't there
# Of each program the crate that it is built from.
CRATES = {"jslit": "jslit_cli", "jslit-text": "jslit_text", "jslit-why": "jslit_why"}
# The limits of a text and of a test: those that jslit-text says, which check-text compares.
LIMITS = json.loads((TOP / "shared" / "limits.json").read_text())
# Where it is published: the repository, and where faults and mail go.
PUBLISHED = json.loads((TOP / "shared" / "published.json").read_text())


def version():
    """The version and the line of the toolchain's logic, as the program prints them."""
    return (TOP / "docs" / "help" / "version.txt").read_text().split("\n")[:2]


def status_of(*words, stdout=subprocess.DEVNULL):
    """How a program ends that is waited for, without a limit, since it may prove for minutes; it says on the tool's own standard error how
    far it is. Where a signal ends the tool, the program is told, and ends in its own way."""
    with subprocess.Popen(words, stdin=subprocess.DEVNULL, stdout=stdout, start_new_session=True) as child:
        try:
            return child.wait()
        except BaseException:
            child.terminate()
            raise


def places(name):
    """Where a program of this repository stands once it is installed, and once it is built."""
    return TOP / "libexec" / name, TOP / "crates" / CRATES[name] / "out" / CRATES[name]


def is_fresh(made):
    """Whether a program of this repository is there, proved and built, and is that of the sources."""
    return subprocess.run([TOP / "tools" / "build-program", "--fresh", made]).returncode == 0


def own(name):
    """A program of this repository, proved and built first where that is due: so it isn't asked anew before each run."""
    installed, made = places(name)
    if installed.exists():
        return str(installed)
    try:
        status = status_of(TOP / "tools" / "build-program", made, name, stdout=sys.stderr.fileno())
    except OSError:
        status = None
    if status != 0:
        raise Fault(f"there is no program {name}", NO_PROGRAM)
    return str(made)


def built(named):
    """The program named, if it is one and runs, or else that of bin/jslit."""
    if not named or pathlib.Path(named).resolve() == JSLIT:
        return own("jslit")
    program = pathlib.Path(named).resolve()
    try:
        status = status_of(program, "--help")
    except (OSError, ValueError) as error:
        raise Fault(f"{shown(named)}: it doesn't run: {getattr(error, 'strerror', None) or error}", NO_PROGRAM) from error
    if status:
        raise Fault(f"{shown(named)}: it doesn't run: --help ends with status {status}", NO_PROGRAM)
    return str(program)
