#!/usr/bin/env python3
"""store.py [--archive FILE.a] [--program FILE] [--runs N] [--quick]: the library and the program beside the straightforward Rust version (docs/src).

Builds all of them optimised, runs each case through both libraries in one process, turn by turn, and both programs turn by turn; writes docs/BENCHMARK.md and
docs/benchmark.svg. A time is the median of CPU times; instructions are counted by callgrind, which no other load disturbs. Both versions must leave the same bytes
in every case. --quick measures times of lines and programs alone and writes no file. Fails where a bound does not hold: 100,000 lines of the example's stage E
within 10 s, a ratio of CPU times above 1.5 at 16,384 nodes, a growth of instructions above 20 from 1,024 to 16,384 nodes, and those of views.py, own.py, either_case.py and loads.py.
Needs rt, gcc, cargo and valgrind.
"""
import argparse
import os
import platform
import re
import statistics
import subprocess
import sys
import tempfile
import time
from pathlib import Path
from either_case import either_case
from loads import loads
from measure import ROOT, Bounds, build, collected, count, hot, millions, run, spread, times, wrapped
from own import own
from plot import plot
from stores import ALL, FIVE, WITH_LABELS, by_level, deep, flat, table, week
from views import views
from where import where

FEW, MOST = 1024, 16384
LINES = 100_000
SECONDS_BOUND, RATIO_BOUND, GROWTH_BOUND = 10, 1.5, 20
COUNTED_LINES = 5_000

POLICY_AND_TREE = """\
(subject staff)
(subject SHA)
(isa SHA staff)
(rule accept read //* staff)
(rule deny read //note/* staff)
(rule accept position //note/* staff)
(rule accept update //room/* staff)
(root school)
(child (mon (lesson (class (10B)) (room (R12)) (note (ill)))))
"""
STAGE_E = ["(user SHA)", "(view)", "(update //room R14)", "(query //lesson/*)", "(rename //note/* cold)"]


def full(capacity):
    return capacity


def room_for_one_a_chain(capacity):
    """Nodes of the deep tree that leave room for one node under each node on level 1."""
    return 1 + (capacity - 1) // 12 * 11


# name, shape, nodes for a capacity, state, line
CASES = [
    ("view, 64 subjects, 128 rules `//*`, all applying", deep, full, ALL, "(view)"),
    ("view, 64 subjects, 128 rules with labels", deep, full, WITH_LABELS, "(view)"),
    ("sheet, 64 subjects, 128 rules with labels", week, full, WITH_LABELS, "(sheet zz)"),
    ("query, 16 steps `//*`", deep, full, FIVE, "(query " + "//*" * 16 + ")"),
    ("query, nested brackets", deep, full, FIVE, "(query //*[*//*[*//*[*//zz]]])"),
    ("query, `//*[5000]`", flat, full, FIVE, "(query //*[5000])"),
    ("append to every node on level 1", deep, room_for_one_a_chain, FIVE, "(append /school/* (x))"),
    ("remove every node on level 6", deep, full, FIVE, "(remove /school/*/*/*/*/*/*)"),
    ("rename every node", deep, full, FIVE, "(rename //* x)"),
    ("user, which only checks state and table", deep, full, FIVE, "(user s0)"),
]


def store_of(case, capacity):
    _, shape, nodes, state, _ = case
    return state, table(by_level(shape(nodes(capacity))), capacity)


def example(lines):
    return POLICY_AND_TREE + "".join(STAGE_E[i % len(STAGE_E)] + "\n" for i in range(lines))


def program_times(work, programs, runs):
    """CPU and wall seconds of each program on the example's lines, medians; both must print the same."""
    (work / "lines").write_text(example(LINES))
    cpu, wall, answers = [[], []], [[], []], [None, None]
    for _ in range(runs):
        for k, program in enumerate(programs):
            with open(work / "lines") as lines, open(work / "answers", "w") as out:
                began = time.monotonic()
                child = subprocess.Popen([program], stdin=lines, stdout=out)
                _, status, used = os.wait4(child.pid, 0)
                child.returncode = status
                wall[k].append(time.monotonic() - began)
            if status != 0:
                sys.exit(f"FAILED: {program}")
            cpu[k].append(used.ru_utime + used.ru_stime)
            answers[k] = (work / "answers").read_bytes()
    if answers[0] != answers[1]:
        sys.exit("FAILED: the programs print different answers")
    return [statistics.median(x) for x in cpu], [statistics.median(x) for x in wall]


def machine(runs):
    model = re.search(r"model name\s*: (.*)", Path("/proc/cpuinfo").read_text())
    return (
        f"{model.group(1) if model else platform.machine()}, {os.cpu_count()} cores, load {os.getloadavg()[0]:.1f} at the start; "
        f"{run('rustc', '--version').strip()}; {runs} runs a case."
    )


HEAD = """\
# Benchmark

Written by `bash bench/run`. The Rattle library (`rt lib`) and program beside the straightforward Rust version of docs/src (opt-level 3), both
through the same C call, turn by turn in one process, from the same bytes; both left the same bytes in every case. A time is the median of CPU times; the ratio
is Rattle over Rust, so below 1 Rattle is faster. Instructions are counted by callgrind, which other work on the machine does not disturb, with the C library
kept from `rep stosb` and `rep movsb`, which callgrind would count once a byte. Growth is from a full table of 1,024 records to one of 16,384, 16 times as many.

The tree is deep (chains under the root, a node a level down to level 11; a label a level), for `//*[5000]` flat, for the sheet a week of five days with eight
periods, whose rooms are all looked at, since none has the wanted label. Queries and changes run for one subject under
five rules `//*`, one a right, so that selecting and changing show; the first three rows have 64 subjects, 128 isa lines and 128 rules, all of subjects that the
user is. The append starts with 15,016 records, so that a node for each of 1,365 places fits. On a loaded machine times move from run
to run, by more than the quartiles of one run show; the counts do not.

"""


def lines_text(rows, spreads):
    """The section on lines."""
    text = f"\n\n## One line on a full table\n\nAt {MOST:,} records, ms of CPU (median, and quartiles) and millions of instructions; growth of CPU time and of "
    text += f"instructions from {FEW:,} records.\n\n"
    text += "| line | Rattle ms | Rust ms | ratio | Rattle instr. | Rust instr. | ratio | growth Rattle | growth Rust |\n|---|---|---|---|---|---|---|---|---|\n"
    for (name, few, most, few_i, most_i), quartiles in zip(rows, spreads):
        ms = list(map(spread, most, quartiles))
        text += f"| {name} | {ms[0]} | {ms[1]} | {most[0] / most[1]:.2f} | {millions(most_i[0])} | {millions(most_i[1])} | {most_i[0] / most_i[1]:.2f} "
        text += f"| {most[0] / few[0]:.1f}, {most_i[0] / few_i[0]:.1f} | {most[1] / few[1]:.1f}, {most_i[1] / few_i[1]:.1f} |\n"
    return text


def program_text(cpu, wall, counts):
    """The section on the program."""
    text = f"\n## The program\n\nThe example of document 01, its stage E lines repeated to {LINES:,} lines; at most {SECONDS_BOUND} s are allowed. "
    text += f"Instructions are of {COUNTED_LINES:,} lines.\n\n"
    text += "| | Rattle | Rust | ratio |\n|---|---|---|---|\n"
    text += f"| CPU seconds | {cpu[0]:.2f} | {cpu[1]:.2f} | {cpu[0] / cpu[1]:.2f} |\n"
    text += f"| seconds | {wall[0]:.2f} | {wall[1]:.2f} | {wall[0] / wall[1]:.2f} |\n"
    text += f"| lines a CPU second | {LINES / cpu[0]:,.0f} | {LINES / cpu[1]:,.0f} | |\n"
    return text + f"| instructions (millions) | {millions(counts[0])} | {millions(counts[1])} | {counts[0] / counts[1]:.2f} |\n"


def above_text(above):
    text = f"\n## Where the ratio is above {RATIO_BOUND}\n\n"
    return text + ("".join(f"- {name}: {share} of Rattle's instructions.\n" for name, share in above) or "Nowhere.\n")


def lines(work, libraries, bounds, runs, quick):
    """Each case through both libraries: rows and quartiles for the report, and the cases above the bound with their functions."""
    rows, spreads, above = [], [], []
    for case in CASES:
        name, line = case[0], case[-1]
        stores = [store_of(case, capacity) for capacity in (FEW, MOST)]
        (few, _), (most, quartiles) = (times(work, libraries, store, line, runs) for store in stores)
        ratio = most[0] / most[1]
        bounds.hold(ratio <= RATIO_BOUND, f"{name}: {most[0]:.2f} ms, Rust {most[1]:.2f} ms, ratio {ratio:.2f}, at most {RATIO_BOUND}")
        if quick:
            continue
        few_i = [count(work, library, stores[0], line) for library in libraries]
        most_i = [count(work, library, stores[1], line) for library in reversed(libraries)][::-1]
        growth = most_i[0] / few_i[0]
        bounds.hold(growth <= GROWTH_BOUND, f"{name}: {MOST:,} nodes against {FEW:,}, {growth:.2f} times the instructions, at most {GROWTH_BOUND}")
        if ratio > RATIO_BOUND:
            above.append((name, hot(work)))
        rows.append((name, few, most, few_i, most_i))
        spreads.append(quartiles)
    return rows, spreads, above


def arguments():
    options = argparse.ArgumentParser(description=__doc__, formatter_class=argparse.RawDescriptionHelpFormatter)
    options.add_argument("--archive")
    options.add_argument("--program")
    options.add_argument("--runs", type=int, default=31)
    options.add_argument("--quick", action="store_true")
    return options.parse_args()


def main():
    options, bounds = arguments(), Bounds()
    with tempfile.TemporaryDirectory() as folder:
        work = Path(folder)
        about = machine(options.runs)
        (rattle, rust, view_alone), programs = build(work, options.archive, options.program)
        rows, spreads, above = lines(work, [rattle, rust], bounds, options.runs, options.quick)
        cpu, wall = program_times(work, programs, 3 if options.quick else 7)
        bounds.hold(wall[0] <= SECONDS_BOUND, f"{LINES:,} lines of the program: {wall[0]:.2f} s, at most {SECONDS_BOUND}; CPU {cpu[0]:.2f} s, Rust {cpu[1]:.2f} s")
        bounds.hold(cpu[0] <= RATIO_BOUND * cpu[1], f"the program: ratio {cpu[0] / cpu[1]:.2f}, at most {RATIO_BOUND}")
        if not options.quick:
            counts = [collected(work, [], [program], example(COUNTED_LINES)) for program in reversed(programs)][::-1]
            if cpu[0] > RATIO_BOUND * cpu[1]:
                above.append(("the program", hot(work)))
            text = HEAD + about + lines_text(rows, spreads) + program_text(cpu, wall, counts) + above_text(above)
            views_text, view_rows = views(work, [rattle, view_alone], bounds)
            text += views_text + own(work, rattle, bounds) + either_case(work, rattle, bounds) + where(work, rattle)
            text += loads(work, [rattle, rust], bounds) + "\n![CPU times and growth](benchmark.svg)\n"
            (ROOT / "docs/BENCHMARK.md").write_text(wrapped(text))
            (ROOT / "docs/benchmark.svg").write_text(plot(rows, FEW, MOST, view_rows))
    sys.exit(bounds.failed)


main()
