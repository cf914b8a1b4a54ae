"""Processes that a check has started, which are known by a mark in their environment or in their words."""
import contextlib
import os
import pathlib
import time


def marked(mark):
    """The numbers of those with this mark."""
    found = []
    for path in pathlib.Path("/proc").glob("[0-9]*"):
        with contextlib.suppress(OSError):  # it has ended
            if str(mark).encode() in (path / "environ").read_bytes() + (path / "cmdline").read_bytes() and int(path.name) != os.getpid():
                found.append(int(path.name))
    return found


def wait_for(holds, seconds=15):
    """Whether it comes to hold, in so many seconds."""
    end = time.monotonic() + seconds
    while not holds():
        if time.monotonic() > end:
            return False
        time.sleep(0.02)
    return True


def gone(mark):
    """Whether all of those with this mark end, in a moment."""
    return wait_for(lambda: not marked(mark), 5)
