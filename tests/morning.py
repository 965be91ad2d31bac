#!/usr/bin/env python3
"""morning.py [--schools N] [--readers N] [--classes N] [ARCHIVE]: a morning of the group. For each school a store is
made, the policy is given, the solver's week is loaded, every reader's view is published, and a sheet for each room door
is written as the website sees the week. Tells how many seconds it took, and how many of them the library. One small
school if nothing is given; the group has 9 schools with 60 readers and 24 classes. The library is made from the
archive, target/staticlib/liblouvretansy.a unless another is named. Needs gcc.
"""

import argparse
import contextlib
import io
import json
import os
import shutil
import sys
import tempfile
import time

sys.path.insert(0, os.path.dirname(os.path.abspath(__file__)))
import office  # noqa: E402
import week  # noqa: E402
from timetable_office import cli, library  # noqa: E402

SUBJECTS_MAXIMUM = 64
RULES = (
    "accept read //* staff",
    "deny read //note/* staff",
    "accept position //note/* staff",
    "accept read //* pupils",
    "deny read //note pupils",
    "deny read //teacher/* pupils",
    "accept position //teacher/* pupils",
    "accept read //* web",
    "deny read //lesson web",
)


class Clock:
    """Seconds inside the calls of the library, and how many calls."""

    def __init__(self):
        self.seconds, self.calls = 0.0, 0
        answer = library.Session._answer

        def timed(session, call, given):
            begun = time.perf_counter()
            try:
                return answer(session, call, given)
            finally:
                self.seconds += time.perf_counter() - begun
                self.calls += 1

        library.Session._answer = timed


def labels_below(tree, name):
    """The labels of the nodes right below those of a name, each once, in order."""
    label, children = tree
    found = [child for child, _ in children] if label == name else []
    for child in children:
        found += labels_below(child, name)
    return list(dict.fromkeys(found))


def count_nodes(tree):
    return 1 + sum(map(count_nodes, tree[1]))


def policy_of(tree, readers):
    """The lines of a policy for so many readers: the website, staff, the classes, and teachers up to the number."""
    classes = sorted(labels_below(tree, "class"))
    names = ["staff", "pupils", "web", *classes, *labels_below(tree, "teacher")][:readers]
    roles = [f"(isa {name} {'pupils' if name in classes else 'staff'})" for name in names[3:]]
    return [*(f"(subject {name})" for name in names), *roles, *(f"(rule {rule})" for rule in RULES)]


def command(*words):
    """Runs a command of the companion, which has to be done; what it prints."""
    printed = io.TextIOWrapper(io.BytesIO())
    with contextlib.redirect_stdout(printed), contextlib.redirect_stderr(io.StringIO()) as said:
        status = cli.main(words)
    printed.flush()
    assert status == 0, said.getvalue()
    return printed.buffer.getvalue()


def school(folder, tree, readers):
    """One school, from nothing to its pages and sheets: what was published by reader, the store, and both folders."""
    os.mkdir(folder)
    names = ("store", "policy", "week.xml", "www", "doors")
    store, policy, document, pages, doors = (os.path.join(folder, name) for name in names)
    lines = policy_of(tree, readers)
    with open(policy, "w", encoding="ascii") as file:
        file.write("".join(line + "\n" for line in lines))
    with open(document, "wb") as file:
        file.write(week.document_of(tree))
    command("new", store)
    command("run", "-q", store, policy)
    command("load", store, document)
    told = json.loads(command("publish", store, "--out", pages, "--json"))["readers"]
    command("sheets", store, "--as", "web", "--out", doors)
    return {one["reader"]: one for one in told}, store, pages, doors


def check_doors(tree, doors):
    """Every room has a sheet, and every lesson of the week stands on one."""
    rooms = [room for _, periods in tree[1] for _, rooms in periods for room, _ in rooms]
    assert len(os.listdir(doors)) == len(set(rooms))
    cells = 0
    for name in os.listdir(doors):
        with open(os.path.join(doors, name), encoding="ascii") as file:
            cells += sum(bool(cell.strip()) for row in file.readlines()[1:] for cell in row[2:].split("|"))
    assert cells == len(rooms)


def check(told, tree, readers, store, pages):
    """Every reader's files are there; what three of them say is what the library shows these readers."""
    assert len(told) == readers and len(os.listdir(pages)) == 3 * readers + 1
    assert told["staff"]["shown"] == count_nodes(tree) > told["pupils"]["shown"] > told["web"]["shown"]
    for name in ("staff", "pupils", "web"):
        with open(os.path.join(pages, told[name]["files"][2]), encoding="ascii") as file:
            assert json.load(file) == json.loads(command("show", store, "--as", name, "--json")), name


def main():
    parser = argparse.ArgumentParser(description=__doc__)
    parser.add_argument("--schools", type=int, default=1)
    parser.add_argument("--readers", type=int, default=8, choices=range(3, SUBJECTS_MAXIMUM + 1), metavar="N")
    parser.add_argument("--classes", type=int, default=6)
    parser.add_argument("archive", nargs="?", default=office.ARCHIVE)
    options = parser.parse_args()
    with tempfile.TemporaryDirectory() as folder:
        os.environ[library.LIBRARY_VARIABLE] = office.make_library(folder, os.path.abspath(options.archive))
        trees = [week.week(seed, options.classes) for seed in range(1, options.schools + 1)]
        clock = Clock()
        begun = time.perf_counter()
        done = [school(os.path.join(folder, f"school{k}"), tree, options.readers) for k, tree in enumerate(trees)]
        seconds, share, calls = time.perf_counter() - begun, clock.seconds, clock.calls
        size = sum(os.path.getsize(os.path.join(pages, name)) for _, _, pages, _ in done for name in os.listdir(pages))
        sheets = sum(len(os.listdir(doors)) for *_, doors in done)
        for (told, store, pages, doors), tree in zip(done, trees):
            check(told, tree, options.readers, store, pages)
            check_doors(tree, doors)
            shutil.rmtree(pages)
    views = options.schools * options.readers
    numbers = (options.schools, "school"), (sum(map(count_nodes, trees)), "node"), (views, "view")
    told = ", ".join(cli.counted(*number) for number in numbers)
    print(f"{told}, {size / 2**20:,.1f} MiB of pages, {cli.counted(sheets, 'sheet')}: {seconds:.1f} s")
    print(f"the library: {share:.2f} s in {calls:,} calls, {100 * share / seconds:.1f} % of it")


if __name__ == "__main__":
    main()
