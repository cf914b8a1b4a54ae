"""The cases of a check, run by unittest: each is a function that is given a room of its own, and fails by an assertion or any other
error."""
import os
import signal
import subprocess
import sys
import tempfile
import unittest

from litmus.program import TOP, built

CASES = []


def case(function):
    """Makes a function a case of the check."""
    CASES.append(function)
    return function


def within(function, room):
    with tempfile.TemporaryDirectory() as folder:
        function(room(folder))


def faults_of(room):
    """What is wrong with each case that fails, in the room that `room` makes of a folder."""
    result = unittest.TestResult()
    for each in CASES:
        unittest.FunctionTestCase(lambda each=each: within(each, room), description=each.__name__).run(result)
    return [f"{test.shortDescription()}: {trace.strip().splitlines()[-1]}" for test, trace in result.failures + result.errors]


def told(faults, count):
    """Prints the faults, and how many of so many tests passed. Gives the status."""
    print(*faults, sep="\n", end="\n" if faults else "")
    print(f"{count - len(faults)} passed, {len(faults)} failed")
    return int(bool(faults))


def need(*pairs):
    subprocess.run([TOP / "tools" / "need", *pairs], check=True)


def take_signals():
    """What a caller ignores, as `nohup` or a shell in the background does, all that is started here would ignore."""
    for which in (signal.SIGINT, signal.SIGTERM, signal.SIGHUP):
        signal.signal(which, signal.SIG_DFL)


def named_program():
    """The program that the words of a check name, by default jslit."""
    return built(next(iter(sys.argv[1:]), None))


def where_full(*words, **more):
    """The status and what is said where the output takes nothing."""
    with open("/dev/full", "w") as full:
        run = subprocess.run(words, stdout=full, stderr=subprocess.PIPE, text=True, **more)
    return run.returncode, run.stderr


def said(*words, **more):
    """What a command prints, which has to end with status 0."""
    run = subprocess.run(words, capture_output=True, text=True, timeout=3000, **more)
    assert run.returncode == 0, f"{words}: status {run.returncode}, {run.stdout[-200:]}{run.stderr[-300:]}"
    return run.stdout


def run_in(make):
    """Runs all cases in one room, which `make` makes of a folder that everybody may look into, and ends with the status."""
    with tempfile.TemporaryDirectory() as folder:
        os.chmod(folder, 0o755)
        room = make(folder)
        faults = faults_of(lambda _: room)
    sys.exit(told(faults, len(CASES)))


def run(room):
    """Runs all cases, each in a room that `room` makes of a folder and the program, and ends with the status."""
    take_signals()
    program = named_program()
    sys.exit(told(faults_of(lambda folder: room(folder, program)), len(CASES)))
