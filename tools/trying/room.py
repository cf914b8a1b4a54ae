"""A folder for a case, and a command of bin/ in it, by the program that is tried."""
import os
import pathlib
import subprocess

from litmus.program import TOP


class Room:
    """`words` are those that the command always has."""

    def __init__(self, folder, program, command, *words):
        self.folder, self.program, self.command, self.words = pathlib.Path(folder), str(program), command, words

    def line(self, *words, program=None, command=None):
        """What is run: the command, or another one, with the program unless the words name one."""
        named = () if "--program" in words else ("--program", program or self.program)
        return [TOP / "bin" / (command or self.command), *named, *(() if command else self.words), *words]

    def ended(self, *words, status=0, program=None, command=None, given="", **variables):
        """A run, which has to end with this status, or with one of several."""
        run = subprocess.run(self.line(*words, program=program, command=command), cwd=self.folder, input=given, capture_output=True,
                             text=True, errors="replace", timeout=300, env={**os.environ, **variables})
        wanted = status if isinstance(status, tuple) else (status,)
        assert run.returncode in wanted, f"{words}: status {run.returncode}: {run.stdout[-600:]}{run.stderr[-600:]}"
        return run

    def printed(self, *words, **more):
        return self.ended(*words, **more).stdout

    def run(self, *words, **more):
        """What it prints on both outputs."""
        run = self.ended(*words, **more)
        return run.stdout + run.stderr

    def write(self, name, text):
        (self.folder / name).write_bytes(text.encode())
        return name

    def script(self, name, text):
        """A program of sh that does this."""
        path = self.folder / self.write(name, f"#!/bin/sh\n{text}\n")
        path.chmod(0o755)
        return path

    def feigned(self, text):
        """The same, which stands in for the one that is tried, and so is asked for its help first."""
        return self.script("feigned", f'[ "$1" = --help ] && exit 0\n{text}')
