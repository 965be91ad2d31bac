"""The program `timetable` for Python: where it is, and what it writes for an input."""

import os
import subprocess
import sys

ROOT = os.path.dirname(os.path.dirname(os.path.abspath(__file__)))
SECONDS = 120
# The example of document 01 up to its login.
EXAMPLE = """(subject staff)
(subject SHA)
(isa SHA staff)
(rule accept read //* staff)
(rule deny read //note/* staff)
(rule accept position //note/* staff)
(rule accept update //room/* staff)
(root school)
(child (mon (lesson (class (10B)) (room (R12)) (note (ill)))))
(user SHA)""".split("\n")


def arguments(description):
    """The program to run, from the command line: [PROGRAM]."""
    words = sys.argv[1:]
    if len(words) > 1 or (words and words[0].startswith("-")):
        sys.exit(description)
    program = os.path.abspath(words[0]) if words else os.path.join(ROOT, "target", "bin", "timetable")
    if not os.path.exists(program):
        sys.exit(f"FAILED: {program} is missing; `python3 tests/build.py program` builds it")
    return program


def answers(program, data):
    """What the program writes for an input; it ends with status 0, and writes nothing to standard error."""
    run = subprocess.run([program], input=data, capture_output=True, timeout=SECONDS)
    if run.returncode != 0 or run.stderr:
        return b"status %d, standard error: %s" % (run.returncode, run.stderr)
    return run.stdout
