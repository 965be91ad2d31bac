#!/usr/bin/env python3
"""vectors.py [PROGRAM]: runs the program on each list of lines in tests/vectors, NAME.in, and compares what it writes with NAME.out,
byte for byte. The lists in card-KK use what card KK of document 02 brings. The default is the program that `python3 tests/build.py program` builds.
"""

import os
import sys

sys.path.insert(0, os.path.dirname(os.path.abspath(__file__)))
import timetable  # noqa: E402

FOLDER = os.path.join(timetable.ROOT, "tests", "vectors")


def lists(ending):
    """The names of the lists with this ending, those of the cards with their folder."""
    found = [os.path.relpath(os.path.join(folder, name), FOLDER) for folder, _, names in os.walk(FOLDER) for name in names]
    return sorted(name.removesuffix(ending) for name in found if name.endswith(ending))


def read(name):
    with open(os.path.join(FOLDER, name), "rb") as file:
        return file.read()


def difference(got, wanted):
    """The first line in which two outputs differ."""
    pairs = zip(got.split(b"\n") + [b"(nothing)"], wanted.split(b"\n") + [b"(nothing)"])
    for number, (one, other) in enumerate(pairs, 1):
        if one != other:
            return f"line {number}: {one!r}, not {other!r}"
    return "the same lines, and not the same end"


def compare(ending, answers):
    """Holds what `answers` gives for each list with this ending to its NAME.out, and ends the program."""
    names = lists(ending)
    failed = 0
    for name in names:
        got, wanted = answers(read(name + ending)), read(name + ".out")
        if got != wanted:
            failed += 1
            print(f"FAILED: {name}: {difference(got, wanted)}")
    print(f"{len(names)} lists NAME{ending}, {failed} differ")
    sys.exit(1 if failed or not names else 0)


if __name__ == "__main__":
    given = timetable.arguments(__doc__)
    compare(".in", lambda text: timetable.answers(given, text))
