"""What the benches measure with: builds, CPU times turn by turn, and callgrind's counts."""
import os
import re
import subprocess
import sys
import textwrap
from pathlib import Path

ROOT = Path(__file__).resolve().parent.parent
# callgrind counts `rep stosb` and `rep movsb` once a byte: with this the C library sets and copies by vector instructions while it counts
NO_REP = "glibc.cpu.x86_rep_stosb_threshold=1000000000:glibc.cpu.x86_rep_movsb_threshold=1000000000"

# the library's calls
LINE, LOAD_XML = "timetable_line", "timetable_load_xml"


def run(*command, **options):
    done = subprocess.run([str(word) for word in command], stdout=subprocess.PIPE, stderr=subprocess.STDOUT, text=True, **options)
    if done.returncode != 0:
        sys.exit(f"{done.stdout}\nFAILED: {' '.join(str(word) for word in command)}")
    return done.stdout


class Bounds:
    """Prints whether each bound holds, and remembers a failure."""

    def __init__(self):
        self.failed = False

    def hold(self, holds, text):
        self.failed = self.failed or not holds
        print(("" if holds else "FAILED: ") + "store: " + text, flush=True)


def build(work, archive, program):
    """The driver; the Rattle library, the straightforward one and the view alone as shared objects; the two programs, Rattle first."""
    if archive is None:
        run(sys.executable, ROOT / "tests/build.py", "library")
        archive = ROOT / "target/staticlib/liblouvretansy.a"
    if program is None:
        run(sys.executable, ROOT / "tests/build.py", "program")
        program = ROOT / "target/bin/timetable"
    source = ROOT / "docs/src"
    run("cargo", "build", "--quiet", "--release", "--offline", "--bins", "--examples", "--manifest-path", source / "Cargo.toml")
    run("gcc", "-O2", "-Wall", "-Wextra", "-Werror", "-o", work / "store", ROOT / "bench/store.c", "-ldl")
    run("gcc", "-shared", "-o", work / "rattle.so", "-Wl,--whole-archive", archive, "-Wl,--no-whole-archive")
    release = source / "target/release"
    libraries = [work / "rattle.so", release / "examples/libshared.so", release / "examples/libplain_view.so"]
    return libraries, [Path(program), release / "timetable"]


def lend(work, store, given, call):
    """The driver's command for a call with a text, on the state and table of a store."""
    for name, content in zip(("state", "table", "given"), (*store, given.encode())):
        (work / name).write_bytes(content)
    return [work / "store", call, work / "state", work / "table", work / "given"]


def times(work, libraries, store, given, runs, call=LINE):
    """The CPU milliseconds of a call in each library: of the median run, and of the quartiles."""
    out = run(*lend(work, store, given, call), runs, *libraries)
    found = [[int(word) / 1e6 for word in words.split()[:3]] for words in out.splitlines()]
    return [x[0] for x in found], [x[1:] for x in found]


def returned(work, library, store, given, call=LINE):
    """The number that a call returns."""
    return int(run(*lend(work, store, given, call), 1, library).split()[-1])


def collected(work, options, command, text=""):
    """The instructions that callgrind counts; its output file stays in `work`."""
    output = [f"--callgrind-out-file={work / 'callgrind'}", f"--log-file={work / 'log'}"]
    run("valgrind", "--tool=callgrind", *output, *options, *command, input=text, env=dict(os.environ, GLIBC_TUNABLES=NO_REP))
    return int(re.search(r"Collected : (\d+)", (work / "log").read_text()).group(1))


def count(work, library, store, given, call=LINE):
    """The instructions of one call."""
    return collected(work, [f"--toggle-collect={call}"], [*lend(work, store, given, call), 1, library])


def hot(work):
    """The three functions with most of the instructions counted last. callgrind names a recursive call apart, by `'2`."""
    shares = {}
    for share, name in re.findall(r"^ *[\d,]+ \( *([\d.]+)%\) +\S*?:(\S.*?)(?:'\d+)?(?: \[.*)?$", run("callgrind_annotate", work / "callgrind"), re.M):
        shares[name] = shares.get(name, 0) + float(share)
    return ", ".join(f"`{name}` {share:.0f} %" for name, share in sorted(shares.items(), key=lambda item: -item[1])[:3])


def spread(median, quartiles):
    """Milliseconds as the report writes them."""
    return f"{median:.2f} ({quartiles[0]:.2f} to {quartiles[1]:.2f})"


def wrapped(text):
    """The report with its paragraphs in lines of at most 120 columns."""
    blocks = [block if block[0] in "|#!" else textwrap.fill(block, 120, break_long_words=False, break_on_hyphens=False) for block in text.strip("\n").split("\n\n")]
    return "\n\n".join(blocks) + "\n"


def millions(instructions):
    return f"{instructions / 1e6:.1f}"
