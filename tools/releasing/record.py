"""Of what a release is made: the commit with its date, and for each program what was proved."""
import hashlib
import os
import pathlib
import subprocess
import time

from installing.tree import cited
from litmus.ends import Fault
from litmus.program import PUBLISHED, TOP, version

HEAD = """jslit {version} of {date}, commit {commit}

Each program below is compiled from what the toolchain proved, and linked without a loader: libexec/NAME. The toolchain links the same
object against the C library that a machine has; its digest stands here too. Which crates these are, and the digest of their sources,
are what `tools/build-program --sources crates/CRATE/out/CRATE` prints in the repository. README.md says what is proved, and what is
trusted.
"""
EMBEDDED = """The library for C and the WebAssembly module are made of one more crate that the toolchain proved: of what it compiled for
x86-64, and of the LLVM module that it compiled, for another target and with a heap of its own.
"""
COMPILED = (".a", ".wasm", f".so.{version()[0]}")


def digest(data):
    return hashlib.sha256(data).hexdigest()


def asked(*words):
    """What a command of the repository prints, or None."""
    try:
        run = subprocess.run(words, cwd=TOP, capture_output=True, text=True)
    except OSError:
        return None
    return run.stdout.strip() if run.returncode == 0 else None


def epoch():
    """The date of all that is made, in seconds: the commit's, whatever the day. SOURCE_DATE_EPOCH says another one."""
    given = os.environ.get("SOURCE_DATE_EPOCH") or asked("git", "log", "-1", "--format=%ct")
    try:
        return int(given)
    except (TypeError, ValueError):
        raise Fault("there is no commit, and SOURCE_DATE_EPOCH has no number of seconds") from None


def commit():
    return asked("git", "describe", "--always", "--dirty", "--abbrev=40", "--exclude=*") or "unknown"


def sources_of(made):
    told = asked(TOP / "tools" / "build-program", "--sources", made)
    if not told:
        raise Fault("tools/build-program tells no sources")
    return told


def note(programs, archive, embedded):
    """What was proved. `programs` has of each program's name what the toolchain made, and what is given to others; `embedded` has what is
    made of the proved library `archive`."""
    parts = [HEAD.format(version=version()[0], date=time.strftime("%Y-%m-%d", time.gmtime(epoch())), commit=commit())]
    for name, (made, given) in programs.items():
        parts.append(f"{name}\nsha256 of what is given {digest(pathlib.Path(given).read_bytes())}\n"
                     f"sha256 as the toolchain links it {digest(made.read_bytes())}\n{sources_of(made)}\n")
    sums = "".join(f"sha256 {digest(file.data)} {name}\n" for name, file in embedded.items() if name.endswith(COMPILED) and file.data)
    own = f"sha256 as the toolchain makes it {digest(archive.read_bytes())}"
    return "\n".join([*parts, EMBEDDED, f"libjslit\n{sums}{own}\n{sources_of(archive)}\n"])


def addressed():
    """Who is written to: the authors of CITATION.cff, at the address of shared/published.json."""
    return f"{cited('name')} <{PUBLISHED['mail']}>"
