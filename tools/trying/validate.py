"""validate.py SCHEMA [FILE]: whether each line of FILE, or of standard input, is JSON that fits the schema, by Debian's
python3-jsonschema. It prints the kinds of those that do."""
import json
import sys

import jsonschema

validator, kinds = jsonschema.Draft202012Validator(json.load(open(sys.argv[1]))), set()
for line in open(sys.argv[2]) if sys.argv[2:] else sys.stdin:
    told = json.loads(line)
    validator.validate(told)
    kinds.add(told.get("kind", ""))
print("fits", *sorted(kinds))
