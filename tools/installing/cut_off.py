"""cut_off.py FOLDER: installs a few files by installing.place, as tools/install does, over those of an earlier version, and removes them,
below a folder in FOLDER; each time ended by KILL at one of its operations on files, the first, the second .., and in the middle of
a file that is written. What follows has to put all that is new and nothing else, and a removal has to leave nothing behind. It prints what
was otherwise, and last how many operations there were."""
import os
import pathlib
import shutil
import signal
import sys

sys.dont_write_bytecode = True
TOOLS = pathlib.Path(__file__).resolve().parent.parent
sys.path.insert(0, str(TOOLS))
from installing.place import LIST, New, Place  # noqa: E402

LINK = "-> ../lib/jslit/bin/a"
ONE = {"lib/jslit/bin/a": "#!/bin/sh\n", "lib/jslit/litmus/x.lit": "x", "lib/jslit/shared/old.py": "old", "bin/a": LINK, "share/a.1": "1"}
TWO = {"lib/jslit/bin/a": "#!/bin/sh -\n", "lib/jslit/litmus/x.lit": "y", "lib/jslit/new/deep/n.py": "new", "bin/a": LINK, "bin/b": LINK,
       "share/a.1": "2"}
OPERATIONS = ("mkdir", "chmod", "rename", "replace", "symlink", "unlink", "rmdir", "remove")


class Counter:
    """Counts operations on files, and ends this process at one of them."""

    def __init__(self, last):
        self.count, self.last = 0, last
        for name in OPERATIONS:
            setattr(os, name, self.counted(getattr(os, name)))
        pathlib.Path.write_bytes = self.write_bytes()

    def is_last(self):
        self.count += 1
        return self.count == self.last

    def counted(self, operation):
        def run(*words, **more):
            if self.is_last():
                os.kill(os.getpid(), signal.SIGKILL)
            return operation(*words, **more)
        return run

    def write_bytes(self):
        def run(path, data):
            last = self.is_last()
            with open(path, "wb") as file:
                file.write(data[:len(data) // 2] if last else data)
            if last:
                os.kill(os.getpid(), signal.SIGKILL)
        return run


def carried_out(prefix, files, last):
    """Whether an installation of these files, or a removal where there are none, comes to its end, with a KILL at this operation."""
    child = os.fork()
    if child == 0:
        Counter(last)
        place = Place(prefix)
        if files:
            new = {name: New(link=text[3:]) if text == LINK else New(text.encode(), text.startswith("#!")) for name, text in files.items()}
            place.install(new, "0")
        elif place.is_there:
            place.remove()
        os._exit(0)
    return os.waitpid(child, 0)[1] == 0


def texts_in(folder):
    return {str(path.relative_to(folder)): f"-> {os.readlink(path)}" if path.is_symlink() else path.read_text() if path.is_file() else None
            for path in folder.rglob("*")}


def is_cut_off(top, prefix, first, files, last):
    """Whether there is an operation of this number; what follows its KILL is looked at."""
    for then in (TWO, None):
        shutil.rmtree(top, ignore_errors=True)
        (top / "home").mkdir(parents=True)
        before, what = texts_in(top), "upgrade" if first and files else "install" if files else "remove"
        name = f"{prefix.relative_to(top)}, {what}, operation {last}"
        if first:
            carried_out(prefix, first, 0)
        if carried_out(prefix, files, last):
            return False
        if then:
            carried_out(prefix, then, 0)
            found = {each: text for each, text in texts_in(prefix).items() if text is not None and each != str(LIST)}
            if found != then:
                print(f"{name}, and then an installation: {sorted(set(found.items()) ^ set(then.items()))}")
        carried_out(prefix, None, 0)
        if texts_in(top) != before:
            print(f"{name}, and then a removal: {sorted(set(texts_in(top)) ^ set(before))}")
    return True


def main(folder):
    top, operations = pathlib.Path(folder) / "cut", 0
    for below in ("home/.local", "home/deep/er"):
        for first, files in ((None, ONE), (ONE, TWO), (ONE, None)):
            number = 1
            while is_cut_off(top, top / below, first, files, number):
                number += 1
            operations += number - 1
    shutil.rmtree(top)
    print(f"{operations} operations")


if __name__ == "__main__":
    main(sys.argv[1])
