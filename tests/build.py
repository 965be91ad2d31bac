#!/usr/bin/env python3
"""build.py [--proved] [PART..]: puts what rt builds in crates/CRATE/out where the tests, the benches and the Makefile look for it. Without parts it makes all.

    program   target/bin/timetable
    library   target/staticlib/liblouvretansy.a
    trials    target/staticlib/libtrials.a, the lower crate for tests and benches
    mir       target/mir/CRATE.json: what the compiler was given of each library of the repository

rt proves what has changed, and nothing is built of what is not proved. A part whose files are made from the crates as they now are is left as it is. With
--proved, right after `rt ci` passed, the program and the libraries that it proved and left are taken, where rt itself would prove the libraries once more.
"""
import argparse
import glob
import hashlib
import os
import shutil
import subprocess
import sys

ROOT = os.path.dirname(os.path.dirname(os.path.abspath(__file__)))
TARGET = os.path.join(ROOT, "target")
PROGRAM = os.path.join(TARGET, "bin", "timetable")
ARCHIVE = os.path.join(TARGET, "staticlib", "liblouvretansy.a")
TRIALS = os.path.join(TARGET, "staticlib", "libtrials.a")
MIR = os.path.join(TARGET, "mir")


def crates():
    """The crates of crates.txt: whether each is a library for other crates, and those that it names."""
    found = {}
    for line in open(os.path.join(ROOT, "crates.txt"), encoding="utf-8"):
        name, colon, below = line.split("#")[0].partition(":")
        if colon:
            name, *kind = name.split()
            found[name] = ("staticlib" not in kind and not os.path.isfile(folder(name, "src", "main.rt")), below.split())
    return found


def folder(crate, *path):
    return os.path.join(ROOT, "crates", crate, *path)


def source_sum():
    """A sum of all that is built from, and of the kit's version."""
    made = hashlib.sha256(subprocess.run(["rt", "version"], capture_output=True, check=True).stdout)
    for path in [os.path.join(ROOT, "crates.txt")] + sorted(
        path for part in ("src", "specs", "proofs") for path in glob.glob(folder("*", part, "**", "*"), recursive=True) if os.path.isfile(path)
    ):
        with open(path, "rb") as file:
            made.update(repr((os.path.relpath(path, ROOT), file.read())).encode())
    return made.hexdigest()


def run(crate, *command):
    """Runs it in the crate's folder; shows what rt says of whole crates, and all of it where it fails."""
    said = []
    with subprocess.Popen(command, cwd=folder(crate), stdin=subprocess.DEVNULL, stdout=subprocess.PIPE, stderr=subprocess.STDOUT, text=True, errors="replace") as started:
        for line in started.stdout:
            said.append(line)
            if line.startswith(("rt: ", "logic=")):
                print(line, end="", file=sys.stderr, flush=True)
    if started.returncode:
        sys.exit(f"{''.join(said)}\nFAILED: {' '.join(command[:3])} in crates/{crate}")


def below(crate):
    """The libraries of the repository that a crate rests on."""
    return {one for name in crates()[crate][1] if name in crates() for one in {name} | below(name)}


def is_left(crate):
    """Whether its library is one that `rt ci` left: rt puts a stamp beside those that other commands made."""
    return os.path.isdir(folder(crate, "out", "rlib", f"{crate}.rlib")) and not os.path.exists(folder(crate, "out", "rlib", "stamp"))


def over_left(crate, path):
    """The static library over the libraries that `rt ci` left."""
    kit = os.path.dirname(os.path.dirname(os.path.realpath(shutil.which("rt"))))
    words = ["--crate-name", crate, "src/lib.rt", "--crate-type", "staticlib", "--extern", f"std={kit}/rlibs/std.rlib", "-L", f"dependency={kit}/rlibs"]
    for name in crates()[crate][1]:
        words += ["--extern", f"{name}={folder(name, 'out', 'rlib')}/{name}.rlib" if name in crates() else f"{name}={kit}/rlibs/{name}.rlib"]
    for name in sorted(below(crate)):
        words += ["-L", f"dependency={folder(name, 'out', 'rlib')}"]
    words += ["--antt-project", f"{kit}/rattle/logic/antt-project.json", "--logic-built", f"{kit}/logic_built", "--toolchain", f"{kit}/toolchain"]
    run(crate, f"{kit}/bin/rattle", "build", *words, "--backend", "llvm", "-o", path)


def make_archive(crate, path, proved):
    if proved and all(map(is_left, below(crate))):
        over_left(crate, path)
        return
    run(crate, "rt", "lib")
    shutil.copyfile(folder(crate, "out", f"lib{crate}.a"), path)


def make_program(proved):
    made = folder("timetable", "out", "timetable")
    if not proved or not os.path.isfile(made):
        run("timetable", "rt", "run")
    shutil.copyfile(made, PROGRAM + ".new")
    os.chmod(PROGRAM + ".new", 0o755)
    os.replace(PROGRAM + ".new", PROGRAM)


def make_mir(proved):
    shutil.rmtree(MIR, ignore_errors=True)
    os.mkdir(MIR)
    for crate, (is_library, _) in crates().items():
        if is_library:
            if not proved or not is_left(crate):
                run(crate, "rt", "lib")
            shutil.copyfile(folder(crate, "out", "rlib", f"{crate}.rlib", "toolchain", "mir.json"), os.path.join(MIR, f"{crate}.json"))


PARTS = {
    "program": (PROGRAM, make_program),
    "library": (ARCHIVE, lambda proved: make_archive("louvretansy", ARCHIVE, proved)),
    "trials": (TRIALS, lambda proved: make_archive("trials_c", TRIALS, proved)),
    "mir": (MIR, make_mir),
}


def build(parts=tuple(PARTS), proved=False):
    """Makes these parts."""
    if shutil.which("rt") is None:
        sys.exit("FAILED: rt is missing; it comes with the Rattle kit")
    now = source_sum()
    for part in parts:
        path, make = PARTS[part]
        stamp = os.path.join(TARGET, "built", part)
        for name in (os.path.dirname(path), os.path.dirname(stamp)):
            os.makedirs(name, exist_ok=True)
        if os.path.exists(path) and os.path.isfile(stamp) and open(stamp).read() == now:
            continue
        make(proved)
        with open(stamp, "w") as file:
            file.write(now)


if __name__ == "__main__":
    given = argparse.ArgumentParser(description=__doc__, formatter_class=argparse.RawDescriptionHelpFormatter)
    given.add_argument("--proved", action="store_true")
    given.add_argument("parts", nargs="*", metavar="PART", help=", ".join(PARTS))
    words = given.parse_args()
    unknown = [part for part in words.parts if part not in PARTS]
    if unknown:
        given.error(f"no part {unknown[0]}")
    build(words.parts or PARTS, words.proved)
