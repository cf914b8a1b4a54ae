"""each.py FILE..: prints what each call of the Python module gives for each text."""
import sys

import jslit

CALLS = {
    "check": jslit.check, "quick": jslit.quick, "schedule": lambda text: jslit.schedule(text, "A,B"), "why": jslit.why,
    "unmet": lambda text: jslit.why(text, "unmet"), "race": lambda text: jslit.why(text, "race"),
    "json": lambda text: jslit.why(text, json=True), "text": jslit.text,
}
for name in sys.argv[1:]:
    with open(name, "rb") as file:
        given = file.read()
    for call, function in CALLS.items():
        answer = function(given)
        sys.stdout.buffer.write(f"{name} {call} {answer.status} {len(answer.bytes)}\n".encode() + answer.bytes)
