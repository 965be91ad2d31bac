"""Runs every code block of README.md, docs/GUIDE.md and docs/MODEL.md, the example of the man page, and the example of each refusal.

    guide.py PROGRAM [--lines-only] [--library FILE.so]

A block of `lines` is given to PROGRAM, and the block of `answers` after it is what the program must print; an `(ok)` for each line up to the first that is
answered otherwise is left out there. A block of `xml` is loaded, and must leave what the lines of the block of `matching` after it leave; without such a block it
is a file of examples/. Blocks of `sh` and indented blocks are commands, each block a script that is run from the top folder and must succeed; what it exports
holds in the later blocks of its page, and what it prints ends with the block of `answers` after it, if there is one. Lines of it that are the test command,
which is running, are left out. A block of any other kind is a failure. In the list of refusals the example of item N must be refused with N, and so must a
document in a table. Documents and items 12 to 14 need the library, and stay out without it. Ends with `N passed, M failed`.
"""

import argparse
import glob
import os
import re
import subprocess
import sys
from itertools import takewhile

sys.path.insert(0, os.path.dirname(os.path.abspath(__file__)))
import library  # noqa: E402
import timetable  # noqa: E402

ROOT = timetable.ROOT
PAGES = ["README.md", "docs/GUIDE.md", "docs/MODEL.md"]
MAN_PAGE = "docs/timetable.1"
TEST_COMMANDS = {"bash tests/all", "bash bench/run"}
SETTING_UP = ("(subject ", "(isa ", "(rule ", "(root ", "(child ", "(user ")

# What goes before the example line of each refusal.
POLICY, ROOT_TAKEN, CHILD_TAKEN, LOGGED_IN = timetable.EXAMPLE[:7], timetable.EXAMPLE[:8], timetable.EXAMPLE[:9], timetable.EXAMPLE
FULL_TABLE = ROOT_TAKEN + ["(child (day" + " (x)" * 92 + "))"] * 11
BEFORE = {
    1: [],
    2: POLICY,
    3: ROOT_TAKEN,
    4: LOGGED_IN,
    5: CHILD_TAKEN,
    6: POLICY,
    7: [f"(subject S{k})" for k in range(1, 65)],
    8: CHILD_TAKEN,
    9: LOGGED_IN,
    10: ROOT_TAKEN,
    11: FULL_TABLE,
    12: LOGGED_IN,
    13: LOGGED_IN,
    14: POLICY,
    15: CHILD_TAKEN,
}
LIBRARY_ONLY = {12: {"area": 8}, 13: {"table": 3}, 14: {}}

counts = {True: 0, False: 0}


def report(name, passed, detail=""):
    counts[passed] += 1
    print(("passed: " if passed else "FAILED: ") + name + ("" if passed or not detail else "\n" + detail))


def blocks(text):
    """(line number, kind, content) of each code block; an indented block counts as a command."""
    found = []
    fence = None
    indented = []
    lines = text.split("\n")
    before = ""
    for number, line in enumerate(lines, 1):
        if fence is not None:
            if line == "```":
                found.append((fence[0], fence[1], "".join(part + "\n" for part in fence[2])))
                fence = None
            else:
                fence[2].append(line)
            continue
        if line.startswith("```"):
            fence = (number, line[3:].strip(), [])
        elif line.startswith("    ") and (indented or before == ""):
            indented.append(line[4:])
            before = line
            continue
        if indented:
            found.append((number - len(indented), "sh", "".join(part + "\n" for part in indented)))
            indented = []
        before = line
    if fence is not None:
        found.append((fence[0], "open", ""))
    return found


def run_program(program, lines):
    done = subprocess.run([program], input="".join(line + "\n" for line in lines).encode(), capture_output=True, timeout=60)
    return done.stdout.decode().split("\n")[:-1]


def check_lines(name, program, lines, answers):
    """Each of the first lines, which set up, has one answer; those before the first refused one are left out."""
    lines, answers = lines.split("\n")[:-1], answers.split("\n")[:-1]
    printed = run_program(program, lines)
    first = [answer for line, answer in zip(takewhile(lambda line: line.startswith(SETTING_UP), lines), printed)]
    left_out = len(list(takewhile(lambda answer: answer == "(ok)", first)))
    good = all(re.fullmatch(r"\(ok\)|\(refused \d+\)", answer) for answer in first) and printed[left_out:] == answers
    report(name, good, "\n".join(printed))


def check_document(name, shared, document, lines):
    """The document leaves the state and the table that the lines leave."""
    loaded, given = library.Store(shared), library.Store(shared)
    results = [loaded.load_xml(document.encode())] + [given.line(line.encode()) for line in lines.split("\n")[:-1]]
    good = min(results) > 0 and bytes(loaded.state.memory) == bytes(given.state.memory) and bytes(loaded.table.memory) == bytes(given.table.memory)
    report(name, good, str(results))


def example_files():
    for path in glob.glob(os.path.join(ROOT, "examples", "*")):
        with open(path, encoding="utf-8") as file:
            yield file.read()


def run_commands(name, content, exports):
    """What the commands of a block print, as one script after the exports of the blocks before; its own are added to them."""
    commands = [line for line in content.split("\n") if line not in TEST_COMMANDS]
    printed = ""
    if any(line.strip() for line in commands):
        done = subprocess.run(["bash", "-e", "-c", "\n".join(exports + commands)], cwd=ROOT, capture_output=True, text=True)
        report(f"{name}: commands", done.returncode == 0, done.stdout + done.stderr)
        printed = done.stdout
    exports.extend(line for line in commands if line.startswith("export "))
    return printed


def check_page(page, program, lines_only, shared):
    with open(os.path.join(ROOT, page), encoding="utf-8") as file:
        text = file.read()
    exports = []
    before, begun, held = "", "", ""  # the block before this one: its kind, its name, and its content or what its commands print
    for number, kind, content in blocks(text) + [(0, "end", "")]:
        name = f"{page}:{number}"
        if before == "lines" and kind != "answers":
            report(begun, False, "no answers after these lines")
        if before == "xml" and kind != "matching":
            report(f"{begun}: a file of examples/", held in example_files())
        if kind == "answers" and before == "lines":
            check_lines(begun, program, held, content)
        elif kind == "answers" and before == "sh":
            if not lines_only:
                report(f"{name}: what the commands print", ("\n" + held).endswith("\n" + content), held)
        elif kind == "matching" and before == "xml":
            if shared is not None:
                check_document(begun, shared, held, content)
        elif kind == "sh":
            content = "" if lines_only else run_commands(name, content, exports)
        elif kind not in ("lines", "xml", "end"):
            report(name, False, f"a block of kind '{kind}'")
        before, begun, held = kind, name, content
    return text


def check_man_page(program):
    """The first example of the man page is lines, the second their answers."""
    with open(os.path.join(ROOT, MAN_PAGE), encoding="utf-8") as file:
        examples = re.findall(r"^\.EX\n(.*?)^\.EE$", file.read(), re.M | re.S)
    if len(examples) == 2:
        check_lines(MAN_PAGE, program, examples[0], examples[1])
    else:
        report(MAN_PAGE, False, "lines and answers are wanted")


def call_library(path, lines, last, table=None, area=None):
    """What the library returns for the last line, or a document, with so many bytes of table and area then."""
    store = library.Store(path)
    for line in lines:
        store.line(line.encode())
    if table is not None:
        store.table.length = table
    if area is not None:
        store.area.length = area
    return (store.load_xml if last.startswith("<") else store.line)(last.encode())


def check_documents(page, text, shared):
    """Rows `| `document` | N | .. |`."""
    for document, number in re.findall(r"^\| `(<[^`]*)` \| (\d+) \|", text, re.M):
        returned = call_library(shared, POLICY, document)
        report(f"{page}: refusal {number}: {document}", returned == -int(number), f"returns {returned}")


def check_refusals(page, text, program, shared):
    """Items `- **N** ..; for example `line` ..` of the list of refusals. Says whether there is one."""
    rows = re.findall(r"^- \*\*(\d+)\*\* .*; for example `([^`]*)`[^`]*$", text.replace("\n  ", " "), re.M)
    for number, line in rows:
        number = int(number)
        name = f"{page}: refusal {number}: {line}"
        if number not in LIBRARY_ONLY:
            printed = run_program(program, BEFORE[number] + [line])
            good = printed[:-1] == ["(ok)"] * len(BEFORE[number]) and printed[-1] == f"(refused {number})"
            report(name, good, printed[-1])
        elif shared is not None:
            report(name, call_library(shared, BEFORE[number], line, **LIBRARY_ONLY[number]) == -number)
    if rows:
        report(f"{page}: every refusal has an item", [int(number) for number, _ in rows] == sorted(BEFORE))
    return bool(rows)


def main():
    parser = argparse.ArgumentParser()
    parser.add_argument("program")
    parser.add_argument("--lines-only", action="store_true", help="leave out the commands")
    parser.add_argument("--library", help="a shared object with timetable_line")
    options = parser.parse_args()
    program = os.path.abspath(options.program)
    shared = options.library and os.path.abspath(options.library)
    lists = 0
    for page in PAGES:
        if os.path.exists(os.path.join(ROOT, page)):
            text = check_page(page, program, options.lines_only, shared)
            lists += check_refusals(page, text, program, shared)
            if shared is not None:
                check_documents(page, text, shared)
    check_man_page(program)
    report("there is one list of refusals", lists == 1)
    print(f"{counts[True]} passed, {counts[False]} failed")
    sys.exit(1 if counts[False] else 0)


if __name__ == "__main__":
    main()
