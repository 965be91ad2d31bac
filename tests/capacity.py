#!/usr/bin/env python3
"""tests/capacity.py: a table's capacity is worked out by a shift, in one function (document 02, card 4).

It reads what the compiler is given of every library (target/mir, which tests/build.py makes), and the text of the programs and of the libraries for C, which rt keeps no
such file of. rights::table::capacity_of and all that it calls have no division and no remainder; no other function divides by 32, a record's length, or shifts to the
right by 5. In a text each division and shift to the right must be by a number or a named one. The last line is `N passed, M failed`.
"""
import glob
import json
import os
import re
import sys

import build

CAPACITY = "rights::table::capacity_of"
SHIFT, DIVISIONS = "Shr", ("Div", "Rem")
# the second operands by which a capacity would be worked out
TELLING = {SHIFT: 5, "Div": 32, "Rem": 32}
OPERATORS = {">>": SHIFT, "/": "Div", "%": "Rem"}


def parts(body, key):
    """What stands under this key, anywhere in a function's body."""
    if isinstance(body, dict):
        for name, inner in body.items():
            if name == key:
                yield inner
            yield from parts(inner, key)
    elif isinstance(body, list):
        for inner in body:
            yield from parts(inner, key)


def operations(body):
    """The operations of two operands: the name, and the second operand where it is a number."""
    for kind, _, second in parts(body, "Op2"):
        yield next(iter(kind)) if isinstance(kind, dict) else kind, second.get("Int", {}).get("value")


def code(path):
    """The text of a source file without comments, literals and clauses."""
    with open(path, encoding="utf-8") as file:
        text = file.read()
    text = re.sub(r'//[^\n]*|b?"(?:\\.|[^"\\])*"|b?\'(?:\\.|[^\'\\])\'', " ", text)
    text = re.sub(r"\bghost use [^;]*;", " ", text)
    while True:
        clause = re.search(r"\b(?:requires|ensures|invariant|ghost)\b[^{};]*\{", text)
        if clause is None:
            return text
        end, depth = clause.end(), 1
        while depth:
            depth += {"{": 1, "}": -1}.get(text[end], 0)
            end += 1
        text = text[: clause.start()] + " " + text[end:]


build.build(["mir"])
bodies = {}
for path in glob.glob(os.path.join(build.MIR, "*.json")):
    with open(path, encoding="utf-8") as file:
        bodies.update((name, rest["body"]) for name, rest in json.load(file))
reached, waiting = [], [CAPACITY]
while waiting:
    name = waiting.pop()
    if name not in reached:
        reached.append(name)
        waiting += [called[0] for called in parts(bodies[name], "Fn")]
others = [name for name, body in bodies.items() if name != CAPACITY and any((kind, by) in TELLING.items() for kind, by in operations(body))]

# the crates that no other crate uses: numbers by their names, then what each operator is followed by
named, texts = {}, 0
sources = {path: code(path) for path in glob.glob(build.folder("*", "src", "**", "*.rt"), recursive=True)}
for text in sources.values():
    named.update((name, int(number)) for name, number in re.findall(r"\bconst (\w+): \w+ = (\d+);", text))
for crate, (is_library, _) in build.crates().items():
    if not is_library:
        for path, text in sources.items():
            if path.startswith(build.folder(crate) + os.sep):
                texts += 1
                for operator, by in re.findall(r"(>>|/|%)=?\s*([\w:]*)", text):
                    number = int(by) if by.isdigit() else named.get(by.split(":")[-1])
                    if number is None or number == TELLING[OPERATORS[operator]]:
                        others.append(f"{os.path.relpath(path, build.ROOT)} ({operator} {by})")

checks = [
    (CAPACITY + " shifts by 5, once", list(operations(bodies[CAPACITY])).count((SHIFT, 5)) == 1),
    ("no division in " + ", ".join(reached), not any(kind in DIVISIONS for name in reached for kind, _ in operations(bodies[name]))),
    (f"no other of {len(bodies)} functions and {texts} texts works out a capacity{''.join(': ' + name for name in others)}", not others and texts > 0),
]
for words, good in checks:
    print(("passed: " if good else "FAILED: ") + words)
failed = sum(not good for _, good in checks)
print(f"{len(checks) - failed} passed, {failed} failed")
sys.exit(failed != 0)
