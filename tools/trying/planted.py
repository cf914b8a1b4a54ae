"""Planted engines: Node with a fault of its own, each a script that is given the program's file as its last word."""
import json

STORE = r"s/Atomics\.store\((U8|U16|U32), ([^,]*), ([0-9]+)\)/\1[\2] = \3/g"
HOIST = r"s/(r0 = Atomics\.load\([^)]*\);)\\n  (r1 = [^;]*;)/\2\\n  \1/"
# A store of a word as stores of its bytes or halves.
WORD = r"s/U32\[word \+ (\d+)\] = (\d+);/"
BYTES = WORD + r"my ($p, $v) = ($1 * 4, $2); join(' ', map { sprintf('U8[base + %d] = %d;', $p + $_, ($v >> (8 * $_)) & 255) } 0 .. 3)/ge"
HALVES = WORD + r"sprintf('U16[(base >> 1) + %d] = %d; U16[(base >> 1) + %d] = %d;', $1 * 2, $2 & 65535, $1 * 2 + 1, $2 >> 16)/ge"
DOTS = "head -c 100000 /dev/zero | tr '\\0' '.' >&2"
NOISE = "head -c 3000000 /dev/zero | tr '\\0' '.' | fold -w 80 >&2"


def edited(program, tool="sed -E"):
    return f"{tool} '{program}' \"$1\" >\"$1.edited.js\" && exec node \"$1.edited.js\""


def perl(program, first=False):
    """The same by perl; with `first` in the first place of each file alone."""
    program = program.removesuffix("ge") + "e" if first else program
    return f"perl -0pe {json.dumps(program).replace('$', chr(92) + '$')} \"$1\" >\"$1.edited.js\" && exec node \"$1.edited.js\""


ENGINES = {
    "sanitizer": "node \"$1\"; echo '==7==ERROR: AddressSanitizer: heap-use-after-free on address 0x602000000010' >&2",
    "thread-sanitizer": "node \"$1\"; echo 'WARNING: ThreadSanitizer: data race (pid=7)' >&2",
    "assertion": "node \"$1\"; echo \"node: src/heap.cc:7: void f(): Assertion \\`x' failed.\" >&2",
    "fatal": "node \"$1\"; echo '# Fatal error in ../src/heap.cc, line 7' >&2",
    "late-words": f"node \"$1\"; {NOISE}; echo 'SUMMARY: LeakSanitizer: 7 bytes leaked' >&2",
    "words-in-a-long-line": f"node \"$1\"; {DOTS}; echo ' ERROR: MemorySanitizer: use-of-uninitialized-value' >&2",
    "status-66": "node \"$1\"; exit 66",
    "sigsegv": "node \"$1\"; kill -SEGV $$",
    "hang": "node \"$1\"; exec sleep 98801",
    "endless": "exec yes \"$(printf '%2000s' x)\"",
    "rubbish": "node \"$1\" >/dev/null; head -c 2000 /dev/urandom; echo; echo '{\"seen\":1}'; echo '{}'; echo null",
    "store-buffering": edited(STORE),
    "hoisted-load": edited(HOIST),
    "torn-bytes": perl(BYTES),
    "torn-halves": perl(HALVES),
    "torn-one-store": perl(BYTES, first=True),
}


def plant(room, name, text=None):
    """Writes an engine into the room, and gives the command that starts it."""
    room.script(name, f"if [ \"$1\" = --version ]; then echo '{name} 1.0'; exit; fi\n{ENGINES[name] if text is None else text}")
    return f"./{name}"


def telling(room, name, seen, in_step=1, copies=3, version=True):
    """An engine whose two agents tell this, without running anything."""
    line = json.dumps({"seen": [[seen, 3]], "copies": copies, "inStep": in_step})
    asked = f"echo '{name} 1.0'; exit" if version else "echo '>>>'; exit 1"
    room.script(name, f"if [ \"$1\" = --version ]; then {asked}; fi\necho '{line}'\necho '{line}'")
    return f"./{name}"
