"""A small repository with a stand-in for `rt`, starts of its ./jslit, and what is kept of how they went."""
import hashlib
import os
import pathlib
import re
import shutil
import signal
import subprocess
import threading

from litmus.program import TOP
from trying.processes import marked, wait_for

SOURCES = {
    "crates/low/src/lib.rt": "low\n", "crates/low/src/out/inner.rt": "inner\n", "crates/low/specs/Lib.antt": "spec\n",
    "crates/low/proofs/a name/Answers.antt": "proof\n", "crates/middle/src/lib.rt": "middle\n",
    "crates/beside/src/lib.rt": "beside\n",
    "crates/jslit_cli/src/main.rt": "main\n", "crates/jslit_cli/src/stdin": "a source of that name\n",
}
OTHERS = {
    "crates.txt": "# A crate a line.\nlow: arrayvec\nbeside:\nmiddle: low clap\njslit_cli: middle beside\nlow_tests: low\n",
    "HANDLES": "Handles allowed: none.\n", "crates/low/must-fail/one.edit": "edit\n", "crates/low_tests/src/lib.rt": "tests\n",
    "crates/jslit_cli/stdin": "in\n", "crates/jslit_cli/stdout": "out\n", "README.md": "words\n",
}
# The scripts that are tried, with the files that they read.
SCRIPTS = ("bin/jslit", "tools/build-program", "tools/building/proving.sh", "tools/building/sources.sh", "shared/bash/own.sh",
           "shared/bash/start.sh", "shared/bash/words.sh", "docs/help/jslit.txt", "docs/help/version.txt")
# What is said of a fault, and not of how far the build is. Right before it may stand what a command began to say that was
# given up, as in `find: cannot forkjslit: ..`.
FAULT = re.compile(r"jslit: (?!proving |\d+ of \d+: |another start |built )")
# What the stand-in does: `run` writes a program that prints the digest of the sources. It calls the system's own commands,
# whatever stands before them on the path.
RT = r"""#!/bin/bash
PATH=/usr/bin:/bin
unset FORKS LD_PRELOAD
case $1 in
    version) echo "${RT_VERSION:-stand-in 1}" ;;
    run)
        mkdir -p out && echo >>"$(realpath out)/../../../builds"
        cd ..
        sum=$(find {low,middle,beside,jslit_cli}/{src,specs,proofs} -type f -print0 2>/dev/null | LC_ALL=C sort -z |
            xargs -0 sha256sum | sha256sum)
        cd jslit_cli
        printf '#!/bin/sh\necho %s\n' "${sum%% *}" >out/jslit_cli.made
        chmod +x out/jslit_cli.made && mv out/jslit_cli.made out/jslit_cli ;;
esac
"""
# The kit's other two: one proves, which for a library may take long; the other one links.
RATTLE = r"""#!/bin/bash
said=$PATH PATH=/usr/bin:/bin
unset FORKS LD_PRELOAD
made=${!#}
case " $* " in
    *" --statements "*)
        if [ -n "$RT_CHECK" ]; then PATH=$said; eval "$RT_CHECK"; fi
        exec /bin/mkdir "$made" ;;
    *) echo >"$made" ;;
esac
"""
LINK = r"""#!/bin/bash
exec "${0%/*}/rt" run
"""
# A command that fails at one call, and is the system's own at all others.
FAILING = r"""#!/bin/bash
PATH=${PATH#*:}
number=1
until /bin/mkdir "$CALLS/$number" 2>/dev/null; do number=$((number + 1)); done
if [ $number = "$FAILING_CALL" ]; then exit 1; fi
exec {name} "$@"
"""


# Held while a file is written and while a process begins: a process that begins has, for a moment, all files that are open
# here, and the system starts no program that somebody writes.
WRITING = threading.Lock()


def begin(words, **more):
    with WRITING:
        return subprocess.Popen(words, **more)


def write_file(path, text):
    with WRITING:
        path.write_text(text)


class Repository:
    """A small repository with the scripts that are tried."""

    def __init__(self, folder, scripts):
        self.folder = pathlib.Path(folder)
        for name, text in {**SOURCES, **OTHERS}.items():
            self.write(name, text)
        (self.folder / "jslit").symlink_to("bin/jslit")
        for name in SCRIPTS:
            (self.folder / name).parent.mkdir(parents=True, exist_ok=True)
            with WRITING:
                shutil.copy(scripts / name, self.folder / name)

    def write(self, name, text):
        path = self.folder / name
        path.parent.mkdir(parents=True, exist_ok=True)
        write_file(path, text)

    def wanted(self):
        """What the program of the sources, as they are now, prints."""
        crates = self.folder / "crates"
        found = sorted(path.relative_to(crates).as_posix() for crate in ("low", "middle", "beside", "jslit_cli")
                       for part in ("src", "specs", "proofs") for path in (crates / crate / part).rglob("*") if path.is_file())
        lines = [f"{hashlib.sha256((crates / name).read_bytes()).hexdigest()}  {name}\n" for name in found]
        return hashlib.sha256("".join(lines).encode()).hexdigest() + "\n"

    def builds(self):
        path = self.folder / "builds"
        return len(path.read_text().splitlines()) if path.exists() else 0


class Start:
    """A start of ./jslit, and what came of it. It has the small repository for its folder, so that a script that goes astray
    doesn't build in this one."""

    def __init__(self, tools, repository, **more):
        self.repository, self.mark = repository, f"MARK_OF={repository.folder};"
        self.environment = {**os.environ, "PATH": f"{tools}:{os.environ['PATH']}", "MARK_OF": f"{repository.folder};",
                            "REPOSITORY": str(repository.folder), **more.pop("environment", {})}
        self.child = begin(more.pop("command", ["./jslit"]), env=self.environment, cwd=more.pop("cwd", repository.folder),
                           stdin=subprocess.DEVNULL, stdout=subprocess.PIPE, stderr=subprocess.PIPE, text=True, **more)

    def end(self):
        try:
            self.printed, self.said = self.child.communicate(timeout=60)
        except subprocess.TimeoutExpired:
            self.child.kill()
            self.printed, self.said = "", "no end in a minute"
        self.status = self.child.returncode
        return self

    def left(self):
        """How many processes of it are left, which are ended. What ends by itself in a moment isn't."""
        left = [] if wait_for(lambda: not marked(self.mark)) else marked(self.mark)
        for pid in left:
            os.kill(pid, signal.SIGKILL)
        return left and f"{len(left)} processes left"

    def is_right(self):
        return self.status == 0 and self.printed == self.repository.wanted()

    def is_told(self):
        return self.status == 70 and not self.printed and FAULT.search(self.said)

    def fault(self, wanted):
        """What is wrong, where one of these is wanted: right, told, or either."""
        if (wanted != "told" and self.is_right()) or (wanted != "right" and self.is_told()):
            return "said that another start builds" if "another start" in self.said else self.left()
        return f"status {self.status}, printed {self.printed!r} for {self.repository.wanted()!r}, said {self.said[-300:]!r}"


class Check:
    def __init__(self, work, scripts):
        self.work, self.scripts, self.count = pathlib.Path(work) / "with blanks", scripts, 0
        self.lock, self.noted, self.faults = threading.Lock(), 0, []
        self.work.mkdir()
        self.tools = self.work / "bin"
        self.tools.mkdir()
        for name, text in (("rt", RT), ("rattle", RATTLE), ("rattle-link", LINK)):
            self.command(self.tools / name, text)
        # What is preloaded can't have blanks in its name.
        self.forks = pathlib.Path(work) / "forks.so"
        subprocess.run([os.environ.get("CC", "cc"), "-shared", "-fPIC", "-o", self.forks, "-x", "c", TOP / "tools/trying/forks.c.in"],
                       check=True)
        self.built = Repository(self.work / "built", scripts)
        self.first = self.start(self.built).end()

    @staticmethod
    def command(path, text):
        write_file(path, text)
        path.chmod(0o755)

    def note(self, name, fault):
        with self.lock:
            self.noted += 1
            self.faults += [f"{name}: {fault}"] if fault else []

    def room(self):
        with self.lock:
            self.count += 1
            return self.work / str(self.count)

    def fresh(self, is_built=True):
        """A new repository, built or not."""
        repository = Repository(self.room(), self.scripts)
        if is_built:
            shutil.rmtree(repository.folder)
            with WRITING:
                shutil.copytree(self.built.folder, repository.folder, symlinks=True)
        return repository

    def start(self, repository, **more):
        return Start(self.tools, repository, **more)

    def counts(self, name, change, more=0, **how):
        """What is changed, and by how many builds a start is then more, which prints what the sources as they are now make."""
        repository = self.fresh()
        change(repository)
        begun = repository.builds()
        run = self.start(repository, **how).end()
        fault = run.fault("right")
        if not fault and repository.builds() - begun != more:
            fault = f"{repository.builds() - begun} builds, and {more} are due"
        self.note(name, fault)
