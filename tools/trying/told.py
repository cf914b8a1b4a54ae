"""Tests as jslit-text tells them, docs/schemas/text.json, and whether two are the same up to names, as jslit-diy has it."""
import collections
import functools
import json
import subprocess

from litmus.program import TOP, own

# An access: `register` is None where it doesn't read, `value` where it doesn't write.
Event = collections.namedtuple("Event", "register atomic first size value")
# `agents` are pairs of a name and the events; of a test with an if these are none. `told` is the whole, as the JSON has it.
Test = collections.namedtuple("Test", "size agents condition told")
ASKED = """const { formOf } = require(process.argv[1]);
const lines = require('readline').createInterface({ input: process.stdin });
lines.on('line', (line) => console.log(JSON.stringify(formOf(JSON.parse(line)))));"""


def event_of(told):
    size, values = told["bits"] // 8, told["values"]
    register = None if told["register"] is None else f"r{told['register']}"
    return Event(register, told["atomic"], told["place"] * (1 if told["view"] == "DV" else size), size, values[-1] if values else None)


def test_of(text):
    """The test that a text spells."""
    told = json.loads(subprocess.run([own("jslit-text")], input=text, capture_output=True, text=True).stdout)
    assert told["test"] is not None, f"it is refused: {told['fault']}"
    agents = [(agent["name"], [event_of(each) for each in agent["statements"] if each["kind"] != "if"]) for agent in told["test"]["agents"]]
    return Test(told["test"]["bytes"], agents, told["test"]["condition"], told["test"])


def asked(condition):
    """The registers of a condition that asks for one outcome, each with its agent and number."""
    return frozenset((each["agent"], f"r{each['register']}", each["number"]) for each in condition.get("all", [condition]))


@functools.cache
def node():
    words = ["node", "-e", ASKED, TOP / "shared" / "javascript" / "cycles" / "sameness.js"]
    return subprocess.Popen(words, stdin=subprocess.PIPE, stdout=subprocess.PIPE, text=True)


def form_of(test):
    """The same for tests that are the same up to names, and for no others; None for others than such that ask for one outcome."""
    print(json.dumps(test.told), file=node().stdin, flush=True)
    return json.loads(node().stdout.readline())
