"""Whether what a command prints fits its JSON Schema in docs/schemas/."""
import json
import subprocess

from litmus.program import TOP

PACKAGE = "/usr/lib/python3/dist-packages/jsonschema=python3-jsonschema"


def fits(name, records):
    subprocess.run([TOP / "tools" / "need", PACKAGE], check=True)
    lines = "".join(json.dumps(each) + "\n" for each in records)
    # Debian's own Python has Debian's package, whichever runs this.
    words = ["/usr/bin/python3", TOP / "tools/trying/validate.py", TOP / "docs" / "schemas" / f"{name}.json"]
    run = subprocess.run(words, input=lines, capture_output=True, text=True)
    assert run.returncode == 0, run.stderr[-600:]
