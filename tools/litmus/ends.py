"""How a tool begins, with the words that its own text tells, and how it ends: with a status, a line that says why, and without a trace."""
import argparse
import os
import signal
import sys

DEVICE, MEMORY = 4, 3  # statuses, as docs/COMMANDS.md has them


class Fault(Exception):
    """What a tool says instead of doing its work, and the status with which it ends then."""

    def __init__(self, said, status=1):
        super().__init__(said)
        self.status = status


class Stopped(BaseException):
    """A signal has ended the tool."""


class Words(argparse.ArgumentParser):
    """The words of a tool whose own text is its help."""

    def __init__(self, tool, text):
        as_it_is = argparse.RawDescriptionHelpFormatter
        super().__init__(prog=tool, usage=argparse.SUPPRESS, add_help=False, allow_abbrev=False, formatter_class=as_it_is)
        self.add_argument("-h", "--help", action="version", version=text)


def shown(name):
    """A name of a file as it may be printed: what would move a terminal's cursor, or is no text, stands as its bytes."""
    def sign_of(sign):
        return sign if sign.isprintable() else "".join(f"\\x{byte:02x}" for byte in os.fsencode(sign))
    return "".join(map(sign_of, str(name)))


def write_nowhere(number):
    """What Python still holds back for this output goes nowhere at its end, so that it can't fail there."""
    nowhere = os.open(os.devnull, os.O_WRONLY)
    os.dup2(nowhere, number)
    os.close(nowhere)


def ended(tool, main):
    """The status of a tool's main. A fault, or a device that fails, is one line; an output that nobody takes any more is none."""
    try:
        status = main(sys.argv[1:])
        sys.stdout.flush()
        return status
    except Fault as fault:
        print(f"{tool}: {fault}", file=sys.stderr)
        return fault.status
    except MemoryError:
        print(f"{tool}: out of memory", file=sys.stderr)
        return MEMORY
    except BrokenPipeError:
        write_nowhere(1)
        return DEVICE
    except OSError as error:
        where = f"{shown(error.filename)}: " if error.filename is not None else ""
        print(f"{tool}: {where}{error.strerror or error}", file=sys.stderr)
        write_nowhere(1)
        return DEVICE


def stop(number, _):
    raise Stopped(number)


def run(tool, main):
    """Ends the process with the status of a tool's main, or by the signal that came. One that the caller ignores stays ignored."""
    for number in (signal.SIGINT, signal.SIGTERM, signal.SIGHUP):
        if signal.getsignal(number) != signal.SIG_IGN:
            signal.signal(number, stop)
    try:
        sys.exit(ended(tool, main))
    except Stopped as stopped:
        write_nowhere(1)
        signal.signal(stopped.args[0], signal.SIG_DFL)
        os.kill(os.getpid(), stopped.args[0])
