#!/usr/bin/env python3
"""office.py [--kills N] [ARCHIVE]: tests of the companion `timetable-office`, each command as a user runs it, and what
goes wrong with it. The library is made from the archive, target/staticlib/liblouvretansy.a unless another is named. So
many runs are killed, 30 if no number is given. Needs gcc.
"""

import argparse
import ast
import collections
import contextlib
import csv
import errno
import glob
import importlib
import io
import json
import os
import random
import re
import resource
import shlex
import shutil
import signal
import sqlite3
import subprocess
import sys
import tempfile
import time
import tomllib
import unittest
from unittest import mock
from xml.etree import ElementTree

sys.path.insert(0, os.path.dirname(os.path.abspath(__file__)))
import timetable  # noqa: E402
import vectors  # noqa: E402
import week  # noqa: E402

ROOT = timetable.ROOT
OFFICE = os.path.join(ROOT, "office")
sys.path.insert(0, OFFICE)
from timetable_office import __version__, cli, completions, refusals  # noqa: E402
from timetable_office.documents import explain_document  # noqa: E402
from timetable_office.errors import InputError  # noqa: E402
from timetable_office.export import export_document, export_lines, policy_lines  # noqa: E402
from timetable_office.formats import LOG_FORMATS, VIEW_FORMATS  # noqa: E402
from timetable_office.library import (  # noqa: E402
    LINE_MAXIMUM,
    RECORDS_MAXIMUM,
    SHEET_BYTES,
    Library,
    Refused,
    Session,
)
from timetable_office.lines import split_lines  # noqa: E402
from timetable_office.replace import replace_policy  # noqa: E402
from timetable_office.runs import run_lines  # noqa: E402
from timetable_office.state import read_policy  # noqa: E402
from timetable_office.store import Store  # noqa: E402
from timetable_office.tree import (  # noqa: E402
    WHOLE_YEAR,
    Node,
    all_year,
    make_record,
    read_table,
    read_view,
    read_windows,
    subtree_end,
    tree_text,
)
from timetable_office.views import log_in, view_of  # noqa: E402

ARCHIVE = os.path.join(ROOT, "target", "staticlib", "liblouvretansy.a")
SECONDS = 60
COLUMNS = 120
# A label that stands nowhere but in the tree.
NOTE = "Zx9-hidden-note"
SETTING_UP = timetable.EXAMPLE[:-1]
POLICY = SETTING_UP[:7]
VIEW = "(root school)\n(child (mon (lesson (class (10B)) (room (R12)) (note (RESTRICTED)))))\n(end 9)\n"
OUTLINE = (
    "school\n  mon\n    lesson\n      class\n        10B\n      room\n        R12\n      note\n        RESTRICTED\n"
)
EDITOR = [
    "(subject editor)",
    "(rule accept read //* editor)",
    "(rule accept insert //* editor)",
    "(rule accept delete //* editor)",
]

# A library that passes every call on to another. Lines that begin with a text are answered by it, or refused with 2.
OLDER = """
#include <dlfcn.h>
#include <stddef.h>
#include <string.h>
typedef long call(void *, size_t, void *, size_t, const char *, size_t, void *, size_t);
static void *found(const char *name) { return dlsym(dlopen(%s, RTLD_NOW), name); }
size_t timetable_state_bytes(void) { return ((size_t (*)(void))found("timetable_state_bytes"))(); }
long timetable_line(void *s, size_t sn, void *t, size_t tn, const char *l, size_t ln, void *a, size_t an) {
    const char *begins = %s, *answers = %s;
    if (ln < strlen(begins) || memcmp(l, begins, strlen(begins)) != 0)
        return ((call *)found("timetable_line"))(s, sn, t, tn, l, ln, a, an);
    memcpy(a, answers, strlen(answers));
    return *answers ? (long)strlen(answers) : -2;
}
long timetable_load_xml(void *s, size_t sn, void *t, size_t tn, const char *x, size_t xn, void *a, size_t an) {
    return ((call *)found("timetable_load_xml"))(s, sn, t, tn, x, xn, a, an);
}
"""

library_file = ""
library: Library
kills = 30


def text_of(lines):
    return "".join(line + "\n" for line in lines)


def read_page(name):
    with open(os.path.join(ROOT, name), encoding="utf-8") as file:
        return file.read()


def listed(lines):
    return split_lines("lines", b"".join(line + b"\n" for line in lines))


def make_library(folder, archive):
    """A shared library of the archive's functions, made by the command of office/README.md."""
    path = os.path.join(folder, "liblouvretansy.so")
    command = re.search(r"^    (gcc -shared (?:.*\\\n)*.*)$", read_page("office/README.md"), re.M)[1]
    places = {"office/timetable_office/liblouvretansy.so": path, "target/staticlib/liblouvretansy.a": archive}
    for place, here in places.items():
        command = command.replace(place, shlex.quote(here))
    subprocess.run(["bash", "-c", command], check=True)
    return path


def in_this_process(folder, words, given=b""):
    """Runs a command of the companion from a folder: its status, its standard output and its standard error."""
    streams = [io.TextIOWrapper(io.BytesIO(data)) for data in (given, b"", b"")]
    saved = sys.stdin, sys.stdout, sys.stderr, os.getcwd()
    sys.stdin, sys.stdout, sys.stderr = streams
    os.chdir(folder)
    try:
        status = cli.main(words)
    except SystemExit as ended:
        status = ended.code
    finally:
        sys.stdin, sys.stdout, sys.stderr = saved[:3]
        os.chdir(saved[3])
    for stream in streams[1:]:
        stream.flush()
    return status, streams[1].buffer.getvalue().decode(), streams[2].buffer.getvalue().decode()


class Office(unittest.TestCase):
    """A folder of its own for each test, and the command run in it."""

    def setUp(self):
        self.folder = tempfile.mkdtemp()
        self.addCleanup(shutil.rmtree, self.folder)
        self.store = self.path("store")

    def path(self, name):
        return os.path.join(self.folder, name)

    def write(self, name, data):
        with open(self.path(name), "wb") as file:
            file.write(data.encode() if isinstance(data, str) else data)
        return self.path(name)

    def read(self, name="store"):
        with open(self.path(name), "rb") as file:
            return file.read()

    def command(self, words, before=()):
        # -S: the standard library alone
        return [*before, sys.executable, "-S", "-m", "timetable_office", *words]

    def environment(self, **changes):
        environment = {**os.environ, "PYTHONPATH": OFFICE, "TIMETABLE_LIBRARY": library_file, **changes}
        return {name: value for name, value in environment.items() if value is not None}

    def in_a_process(self, words, given=b"", before=(), environment=None, **more):
        """The same in a process of its own."""
        if "stdout" not in more:
            more["stdout"] = subprocess.PIPE
        environment = self.environment(**(environment or {}))
        run = subprocess.run(
            self.command(words, before),
            input=given,
            stderr=subprocess.PIPE,
            cwd=self.folder,
            env=environment,
            timeout=SECONDS,
            **more,
        )
        return run.returncode, (run.stdout or b"").decode(), run.stderr.decode()

    def office(self, *words, given="", status=0, says="", process=False, **more):
        """Runs a command: its status and what it says on standard error are as wanted. Returns what it prints."""
        if isinstance(given, list):
            given = text_of(given)
        given = given.encode() if isinstance(given, str) else given
        ended, printed, self.errors = (
            self.in_a_process(words, given, **more) if process or more else in_this_process(self.folder, words, given)
        )
        self.assertEqual(ended, status, self.errors)
        self.assertNotIn("Traceback", self.errors)
        self.assertIn(says, self.errors)
        if status == 0 and not says:
            self.assertEqual(self.errors, "")
        return printed

    def school(self, lines=(), records=64):
        """A store with the school of document 01, and these lines after it."""
        self.office("new", "store", "--records", str(records), says="an empty store")
        self.office("run", "-q", "store", given=SETTING_UP + list(lines))

    @contextlib.contextmanager
    def unchanged(self):
        """The folder has the same files with the same bytes before and after."""
        before = {name: self.read(name) for name in os.listdir(self.folder)}
        yield
        self.assertEqual({name: self.read(name) for name in os.listdir(self.folder)}, before)

    def make_other(self, source):
        """Another library, other.so."""
        self.write("other.c", source)
        words = ["gcc", "-shared", "-fPIC", "-o", self.path("other.so"), self.path("other.c"), "-ldl"]
        subprocess.run(words, check=True)

    def holds(self, data):
        """Whether any file of the folder has these bytes."""
        return any(data in self.read(name) for name in os.listdir(self.folder))


class Package(Office):
    def test_version_and_help(self):
        self.assertEqual(self.office("--version", process=True), f"timetable-office {__version__}\n")
        for command in ("new", "run", "load", "policy", "show", "sheets", "log", "export"):
            self.assertIn(command, self.office("--help"))
            self.assertIn("STORE", self.office(command, "--help"))

    def test_a_wrong_command_line(self):
        self.office(status=2, says="usage:")
        self.office("paint", "store", status=2, says="usage:")
        self.office("show", "store", status=2, says="--as")

    def test_the_installed_command(self):
        with open(os.path.join(OFFICE, "pyproject.toml"), "rb") as file:
            project = tomllib.load(file)["project"]
        self.assertEqual(project["dependencies"], [])
        module, _, function = project["scripts"]["timetable-office"].partition(":")
        self.assertTrue(callable(getattr(importlib.import_module(module), function)))

    def test_the_man_page(self):
        """It names every command and every option that the help has, and no other."""
        page = read_page("office/timetable-office.1").replace("\\-", "-")
        commands = re.search(r"\.SH COMMANDS\n(.*?)\.SH ", page, re.S)[1]
        options = set(re.findall(r"--[a-z]+(?:-[a-z]+)*", re.search(r"\.SH OPTIONS\n(.*?)\.SH ", page, re.S)[1]))
        named = re.findall(r"^\.TP\n\.B (\w+)$", commands, re.M)
        told = set(re.findall(r"--[a-z]+(?:-[a-z]+)*", self.office("--help")))
        for command in named:
            told |= set(re.findall(r"--[a-z]+(?:-[a-z]+)*", self.office(command, "--help")))
        self.assertEqual(options, told)
        self.assertEqual(named, re.findall(r"^    (\w+)  ", self.office("--help"), re.M))
        for status, _ in re.findall(r"^  (\d+)  (.*)$", self.office("--help"), re.M):
            self.assertIn(f"\n.B {status}\n", page)

    def test_the_sources(self):
        """Columns, type hints, docstrings, and nothing imported from outside the standard library."""
        folder = os.path.join(OFFICE, "timetable_office")
        for name in sorted(os.listdir(folder)):
            if not name.endswith(".py"):
                continue
            with open(os.path.join(folder, name), encoding="ascii") as file:
                source = file.read()
            self.assertLessEqual(max(map(len, source.split("\n"))), COLUMNS, name)
            tree = ast.parse(source)
            self.assertTrue(ast.get_docstring(tree), name)
            for node in ast.walk(tree):
                if isinstance(node, ast.ImportFrom | ast.Import):
                    modules = (
                        [node.module] if isinstance(node, ast.ImportFrom) else [alias.name for alias in node.names]
                    )
                    for module in modules:
                        self.assertIn(module.partition(".")[0], sys.stdlib_module_names | {"timetable_office"}, name)
                if isinstance(node, ast.FunctionDef):
                    self.assertIsNotNone(node.returns, f"{name}: {node.name}")
                    self.assertTrue(node.name.startswith("_") or ast.get_docstring(node), f"{name}: {node.name}")


class Completions(Office):
    """What the shells complete is what the help tells, for every command."""

    def told(self, *command):
        """The options that the help of a command tells."""
        rows = re.findall(r"^  (-.*?)(?:  .*)?$", self.office(*command, "--help"), re.M)
        return {name for row in rows for name in re.findall(r"(?<!\S)--?[a-z]+(?:-[a-z]+)*", row)}

    def commands(self):
        return re.findall(r"^    (\w+)  ", self.office("--help"), re.M)

    def completed(self, *words):
        """What bash completes after these words; the last one may be begun."""
        script = r"""
            source ./completion
            compopt() { :; }
            COMP_WORDS=("$@")
            COMP_CWORD=$(($# - 1))
            read -r _ _ function _ < <(complete -p timetable-office)
            "$function"
            printf '%s\n' "${COMPREPLY[@]}"
        """
        self.write("completion", self.office("--completions", "bash"))
        command = ["bash", "-c", script, "bash", "timetable-office", *words]
        run = subprocess.run(command, capture_output=True, cwd=self.folder, text=True)
        self.assertEqual(run.stderr, "")
        return set(run.stdout.split())

    def test_bash(self):
        os.mkdir(self.path("pages"))
        self.write("plan.xml", "")
        commands = self.commands()
        self.assertEqual(self.completed(""), set(commands))
        self.assertEqual(self.completed("lo"), {"load", "log"})
        self.assertEqual(self.completed("-"), self.told())
        for command in commands:
            self.assertEqual(self.completed(command, "-"), self.told(command), command)
        self.assertEqual(self.completed("show", "--format", ""), set(VIEW_FORMATS))
        self.assertEqual(self.completed("log", "store", "--format", "=", "js"), {"json"})
        self.assertEqual(self.completed("log", "--format", "="), set(LOG_FORMATS))
        self.assertEqual(self.completed("show", "--as", ""), set())
        for command in ("publish", "sheets"):
            self.assertEqual(self.completed(command, "--out", "p"), {"pages"})
        self.assertEqual(self.completed("sheets", "--room", ""), set())
        self.assertEqual(self.completed("map", "--out", "p"), {"pages", "plan.xml"})
        self.assertEqual(self.completed("load", "store", "pl"), {"plan.xml"})
        self.assertEqual(self.completed("--completions", "b"), {"bash"})

    def test_zsh_and_fish(self):
        """The options of each command, and what is given to them, as read off the scripts."""
        zsh, fish = self.office("--completions", "zsh"), self.office("--completions", "fish")
        self.assertEqual(re.findall(r"^            '(\w+):", zsh, re.M), self.commands())
        self.assertEqual(re.findall(r"subcommand -a (\w+) ", fish), self.commands())
        of_zsh = dict(re.findall(r"^            (\w+)\)\n(.*?);;$", zsh, re.M | re.S))
        of_zsh[""] = zsh.partition("case")[0]
        for command in ("", *self.commands()):
            words = [command] if command else []
            names = re.findall(r"^ +(?:'\*')?(--[a-z-]+)'|\{(-[a-z]),(--[a-z-]+)\}'", of_zsh[command], re.M)
            self.assertEqual({name for row in names for name in row if name}, self.told(*words), command)
            place = f"'__fish_seen_subcommand_from {command}'" if command else "__fish_use_subcommand"
            rows = re.findall(rf"^complete -c timetable-office -n {place} (-[sl] .*)$", fish, re.M)
            names = {name for row in rows for name in re.findall(r"-([sl]) ([a-z-]+)", row.partition(" -d ")[0])}
            told = {("l", name[2:]) if name.startswith("--") else ("s", name[1:]) for name in self.told(*words)}
            self.assertEqual(names, told, command)
        formats = " ".join(LOG_FORMATS)
        self.assertIn(f":FORMAT:({formats})'", of_zsh["log"])
        self.assertIn("--out'=[the folder]:DIR:_files -/'", of_zsh["publish"])
        self.assertIn(f"from log' -l format -x -a '{formats}'", fish)

    def test_what_is_given(self):
        """Every word that stands for what is given is known as a file, a folder or something else."""
        values = {
            word.value: (word.is_file(), word.is_folder())
            for command in completions.commands_of(cli.make_parser())
            for word in command.words
        }
        files = {"FILE", "FILE.xml", "FILE.html", "STORE", "STORE|FILE"}
        others = {None, "SHELL", "SECONDS", "N", "NAME", "ROOM", "FORMAT", "PATH", "D"}
        self.assertEqual(set(values), files | {"DIR"} | others)
        self.assertEqual({value for value, (file, _) in values.items() if file}, files)
        self.assertEqual({value for value, (_, folder) in values.items() if folder}, {"DIR"})

    def test_installed(self):
        """`make install-office`: the command, with the library beside it, its man page and the completions."""
        prefix = self.path("opt")
        os.makedirs(os.path.join(prefix, "lib"))
        make = ["make", "--silent", "-C", ROOT, f"PREFIX={prefix}", f"PYTHON={sys.executable}"]
        subprocess.run([*make, "install-office"], check=True)
        version = ".".join(__version__.split(".")[:2])
        shutil.copy(library_file, os.path.join(prefix, "lib", f"liblouvretansy.so.{version}"))
        environment = {**self.environment(TIMETABLE_LIBRARY=None, PYTHONPATH=None), "PYTHONDONTWRITEBYTECODE": "1"}
        words = [os.path.join(prefix, "bin", "timetable-office"), "new", "store"]
        run = subprocess.run(words, capture_output=True, cwd=self.folder, env=environment, text=True)
        self.assertEqual((run.returncode, run.stderr), (0, "store: an empty store for 16,384 nodes\n"))
        share = os.path.join(prefix, "share")
        for shell, name in (
            ("bash", "bash-completion/completions/timetable-office"),
            ("zsh", "zsh/site-functions/_timetable-office"),
            ("fish", "fish/vendor_completions.d/timetable-office.fish"),
        ):
            with open(os.path.join(share, name), encoding="ascii") as file:
                self.assertEqual(file.read(), self.office("--completions", shell))
        with open(os.path.join(share, "man/man1/timetable-office.1"), encoding="ascii") as file:
            self.assertEqual(file.read(), read_page("office/timetable-office.1"))
        subprocess.run([*make, "uninstall"], check=True)
        left = [name for folder, _, names in os.walk(prefix) for name in names]
        self.assertEqual(left, [])


class Refusals(Office):
    """The one table of refusals, against the pages that have one."""

    def test_header(self):
        page = read_page("include/timetable.h")
        rows = re.findall(r"TIMETABLE_REFUSED_(\w+) = (\d+)", page)
        self.assertEqual([(int(number), name) for name, number in rows], [refusal[:2] for refusal in refusals.TABLE])
        rows = re.findall(r'case TIMETABLE_REFUSED_(\w+):\s+return ((?:"[^"]*"\s*)+);', page)
        texts = [(name, "".join(re.findall(r'"([^"]*)"', text))) for name, text in rows]
        self.assertEqual(texts, [refusal[1:] for refusal in refusals.TABLE])

    def test_readme(self):
        page = read_page("README.md").replace("\n  ", " ")
        rows = re.findall(r"^- \*\*(\d+)\*\* (.*?)(?: \(library alone\))?; for example `", page, re.M)
        self.assertEqual(
            [(int(number), text) for number, text in rows], [(one.number, one.reason) for one in refusals.TABLE]
        )

    def test_man_page(self):
        section = re.search(r"^\.SH REFUSALS\n(.*?)^\.SH ", read_page("docs/timetable.1"), re.M | re.S)[1]
        rows = re.findall(r"^\.B (\d+)\n((?:[^.\n].*\n)+)", section, re.M)
        self.assertEqual(
            sorted((int(number), text.replace("\n", " ").strip()) for number, text in rows),
            [(one.number, one.reason) for one in refusals.TABLE],
        )

    def test_constants(self):
        self.assertTrue(all(getattr(refusals, refusal.constant) == refusal.number for refusal in refusals.TABLE))
        self.assertIn("does not know", refusals.reason(99))


class Readme(Office):
    def test_its_blocks(self):
        """Files, console sessions with what they print, and Python; each block of another kind is an error."""
        page = read_page("office/README.md")
        self.assertLessEqual(max(map(len, page.split("\n"))), COLUMNS)
        self.make_command()
        seen = set()
        for kind, content in re.findall(r"^```(\S+)\n(.*?)^```$", page, re.M | re.S):
            seen.add(kind)
            if kind.endswith((".lines", ".xml")):
                self.write(kind, content)
            elif kind == "console":
                for command, wanted in re.findall(r"^\$ (.*)\n((?:(?!\$ ).*\n)*)", content, re.M):
                    self.assertEqual(self.any_time(self.shell(command)), self.any_time(wanted), command)
            else:
                self.assertEqual(kind, "python")
                exec(content, {})
        self.assertEqual(seen, {"school.lines", "rooms.lines", "terms.lines", "week.xml", "console", "python"})

    def test_the_examples_of_the_man_page(self):
        """Every command is done, with the policy and the file of examples/, and the last ones give the store again."""
        self.make_command()
        for name in ("policy.lines", "week.xml", "doors.lines"):
            self.write(name, read_page(f"examples/{name}"))
        page = read_page("office/timetable-office.1").replace("\\-", "-")
        examples = re.findall(r"^\.EX\n(.*?)^\.EE$", page, re.M | re.S)
        self.assertEqual(len(examples), 4)
        for command in "".join(examples).splitlines():
            printed = self.shell(f"{command}; echo status $?")
            self.assertEqual(printed.splitlines()[-1], "status 0", printed)
        self.assertIn("view-SHA~7.html", os.listdir(self.path("www")))
        self.assertEqual(set(os.listdir(self.path("doors"))), {"sheet-R12~4.txt", "sheet-hall.txt"})
        self.assertEqual(self.office("export", "again"), self.office("export", "school"))

    def make_command(self):
        """The installed command, for what `shell` runs."""
        self.write("timetable-office", f'#!/bin/sh\nexec {shlex.quote(sys.executable)} -S -m timetable_office "$@"\n')
        os.chmod(self.path("timetable-office"), 0o700)

    def shell(self, command):
        """What a command prints, on both streams."""
        environment = self.environment(PATH=f"{self.folder}:{os.environ['PATH']}")
        words = ["bash", "-c", f"exec 2>&1; {command}"]
        return subprocess.run(words, stdout=subprocess.PIPE, cwd=self.folder, env=environment).stdout.decode()

    def any_time(self, printed):
        """A log whenever and by whomever it was written; other texts as they are."""
        if "time (UTC)" not in printed:
            return printed
        return re.sub(r" +", " ", re.sub(r"\d{4}-\d\d-\d\d \d\d:\d\d:\d\d +\S+", "TIME ACCOUNT", printed))


class Binding(Office):
    def test_lines_and_refusals(self):
        session = library.session(records=16)
        self.assertEqual(session.line(b"(subject staff)"), b"(ok)\n")
        with self.assertRaises(Refused) as caught:
            session.line(b"(view)")
        self.assertEqual((caught.exception.number, str(caught.exception)), (3, "refused 3: " + refusals.reason(3)))
        self.assertTrue(session.is_store())
        self.assertFalse(Session(library, session.state, b"abc").is_store())
        other = session.copy()
        other.line(b"(root school)")
        self.assertEqual(session.table, bytes(4 + 32 * 16))
        self.assertEqual(read_table(other.table), [Node(0, "school")])

    def test_every_list_of_the_program(self):
        """The lists of tests/vectors are answered as the program answers them, and what they leave is a store."""
        names = vectors.lists(".in")
        exported = 0
        for name in names:
            with self.subTest(name):
                given = split_lines(name, vectors.read(name + ".in"))
                run = run_lines(library.session(records=1024), given, keep_going=True)
                printed = b"".join(map(cli.answer_text, run.answered))
                self.assertEqual(printed, vectors.read(name + ".out"))
                self.assertEqual(sum(lines for _, lines in run.log), len(given.lines))
                session = Session(library, run.state, run.table)
                self.check_store(session)
                exported += self.is_exported(session)
        self.assertGreater(exported, len(names) * 9 // 10)

    def check_store(self, session):
        """The library takes it, its policy can be replaced by itself, and a view has the nodes that a query lists."""
        self.assertTrue(session.is_store())
        same = replace_policy(session, listed(policy_lines(session)))
        self.assertEqual((same.state, same.table), (session.state, session.table))
        for subject in read_policy(session.state).subjects if read_table(session.table) else ():
            hits = re.findall(rb"\(hit ([0-9]+) (.*)\)\n", log_in(session, subject).line(b"(query //*)"))
            nodes = [Node(int(level), label.decode()) for level, label in hits]
            self.assertEqual(read_view(view_of(session, subject)), nodes)

    def is_exported(self, session):
        """Whether there are lines for it; they give it again. Not where a part is too large, or a window nobody's."""
        try:
            lines = export_lines(session)
        except InputError as error:
            self.assertRegex(str(error), "does not fit a child line|so no line gives it this window")
            return False
        again = run_lines(library.session(records=session.records), listed(lines))
        self.assertEqual((again.state[1:], again.table), (session.state[1:], session.table))
        return True

    def test_no_library(self):
        self.office("new", "store", "--library", "none.so", process=True, status=3, says="there is no library at")
        self.office(
            "new", "store", environment={"TIMETABLE_LIBRARY": "none.so"}, status=3, says="TIMETABLE_LIBRARY names it"
        )
        self.office(
            "new",
            "store",
            environment={"TIMETABLE_LIBRARY": None},
            status=3,
            says="was not found: name it with --library",
        )
        self.write("text.so", "no library")
        self.office("new", "store", "--library", "text.so", status=3, says="cannot be loaded as a library")
        self.assertFalse(os.path.exists(self.store))

    def test_another_library(self):
        self.make_other("int other;")
        self.office("new", "store", "--library", "other.so", status=3, says="is another library, or of another version")
        self.school()
        states, line = "unsigned long timetable_state_bytes(void)", "long timetable_line(void) { return -2; }"
        load = "long timetable_load_xml(void) { return -2; }"
        for source, says in (
            (f"{states} {{ return 8; }} {line} {load}", "other.so is of another version: its states have 8 bytes"),
            (f"{states} {{ return 68880; }} {line} {load}", "of another version: it does not take the usual lines"),
            (f"{states} {{ return 68880; }} {line}", "of another version: it has no timetable_load_xml"),
        ):
            self.make_other(source)
            with self.unchanged():
                for words in (("run", "store"), ("load", "store", "-")):
                    self.office(*words, "--library", "other.so", process=True, status=3, says=says)

    def test_where_it_is_looked_for(self):
        self.office(
            "new", "a", "--library", library_file, environment={"TIMETABLE_LIBRARY": "none.so"}, says="an empty store"
        )
        shutil.copytree(OFFICE, self.path("office"), ignore=shutil.ignore_patterns("*.so"))
        nowhere = {"TIMETABLE_LIBRARY": None, "PYTHONPATH": self.path("office")}
        self.office("new", "b", environment=nowhere, status=3, says="was not found")
        self.office("new", "c", environment={**nowhere, "LD_LIBRARY_PATH": os.path.dirname(library_file)}, says="empty")
        shutil.copy(library_file, self.path("office/timetable_office/liblouvretansy.so"))
        self.office("new", "b", environment=nowhere, says="an empty store")

    def test_too_small_a_stack(self):
        self.school()
        limit = ["bash", "-c", 'ulimit -s 1024 && exec "$@"', "bash"]
        self.office("show", "store", "--as", "SHA", before=limit, status=3, says="ulimit -s 8192")


class New(Office):
    def test_the_file(self):
        self.office("new", "store", says="store: an empty store for 16,384 nodes", preexec_fn=lambda: os.umask(0))
        self.assertEqual(os.stat(self.store).st_mode & 0o777, 0o600)
        self.assertEqual(os.listdir(self.folder), ["store"])

    def test_a_file_is_never_replaced(self):
        self.school()
        with self.unchanged():
            self.office("new", "store", status=3, says="is there already")

    def test_records(self):
        for number in ("0", "16385", "many"):
            self.office("new", "store", "--records", number, status=2, says="--records")
        self.office("new", "store", "--records", "2", says="for 2 nodes")
        full = ["(root a)", "(child (b))", "(child (c))"]
        self.office(
            "run", "store", given=full, status=1, says="standard input:3: refused 11: the whole of it needs more"
        )
        self.assertIn("the table has 2 records, and 2 are in use", self.errors)

    def test_odd_names(self):
        for name in ("a store", "50%?mode=ro#x", "d\u00e9j\u00e0", "-x"):
            self.office("new", "--", name, says="an empty store")
            self.office("run", "-q", "--", name, given="(subject a)\n(root r)\n")
            self.assertTrue(os.path.exists(self.path(name)))
            self.assertEqual(self.office("export", "--", name), "(subject a)\n(root r)\n")

    def test_a_folder_that_is_not_there(self):
        self.office("new", "none/store", status=3, says="none/store cannot be made: No such file")


class RunLines(Office):
    def test_answers(self):
        self.school()
        self.assertEqual(self.office("run", "store", given="(user SHA)\n(view)\n", process=True), "(ok)\n" + VIEW)
        self.write("work", "(user SHA)\n(update //room R14)\n")
        self.assertEqual(self.office("run", "store", "work"), "(ok)\n(done 1 1)\n")
        self.assertEqual(self.office("run", "store", "-", "--quiet", given="(user SHA)\n(view)\n"), "")
        self.assertEqual(self.office("run", "store", given=""), "")

    def test_the_first_refused_line_ends_it(self):
        self.school()
        self.write("work", "(user SHA)\n(update //room R14)\n(rename //class note)\n(view)\n")
        with self.unchanged():
            self.assertEqual(
                self.office("run", "store", "work", status=1, says="work:3: refused 9: RESTRICTED is a new label"), ""
            )
            self.assertIn("(note is a word that the rules use", self.errors)
        self.assertIn("timetable-office: store is as it was\n", self.errors)

    def test_a_mistyped_login_prints_no_view(self):
        """The second view would be that of staff, under the name of the web."""
        self.office("new", "store", "--records", "64", says="an empty store")
        self.office("run", "store", "-q", given=["(subject web)"] + SETTING_UP)
        with self.unchanged():
            printed = self.office(
                "run",
                "store",
                given=["(user staff)", "(view)", "(user wbe)", "(view)"],
                status=1,
                says="standard input:3: refused 5",
            )
        self.assertEqual(printed, "")
        self.assertIn("no subject is declared as wbe; did you mean web?", self.errors)

    def test_a_refused_deny_stops_the_tree(self):
        self.office("new", "store", says="an empty store")
        with self.unchanged():
            lines = [line.replace("deny read", "deny raed") for line in SETTING_UP]
            self.office("run", "store", given=lines, status=1, says="standard input:5: refused 2")

    def test_a_login_ends_with_its_run(self):
        self.school(["(user SHA)", "(view)"])
        with self.unchanged():
            self.office(
                "run",
                "store",
                given="(view)\n",
                status=1,
                says="refused 8: nobody has logged in yet (put a (user NAME) line",
            )
        self.office("run", "store", "-q", given="(child (tue))\n")
        self.assertIn("(child (tue))\n(end 10)", self.office("show", "store", "--as", "SHA", "--format", "lines"))

    def test_keep_going(self):
        self.school()
        lines = ["(user SHA)", "(rename //class note)", "(update //room R14)", "oops"]
        self.assertEqual(
            self.office("run", "store", "--keep-going", given=lines, status=1, says=":2: refused 9"),
            "(ok)\n(refused 9)\n(done 1 1)\n(refused 2)\n",
        )
        self.assertIn("standard input:4: refused 2", self.errors)
        self.assertIn("R14", self.office("show", "store", "--as", "SHA"))

    def test_a_refused_login_that_is_passed_over(self):
        self.school()
        lines = ["(user nobody)", "(user staff)", "(user wbe)"]
        self.office("run", "store", "--keep-going", given=lines, status=1, says="no subject is declared as nobody)\n")
        self.assertIn("standard input:3: refused 5", self.errors)
        self.assertIn("no subject is declared as wbe; staff is still logged in)", self.errors)

    def test_json(self):
        self.school()
        told = json.loads(self.office("run", "store", "--json", given="(user SHA)\n(view)\n"))
        self.assertEqual(
            (told["kept"], told["lines"][1]), (True, {"line": 2, "form": "view", "answer": VIEW.splitlines()})
        )
        told = json.loads(
            self.office("run", "store", "--json", given="(user SHA)\n(find //x[0])\n", status=1, says=":2: refused 4")
        )
        self.assertEqual((told["kept"], told["lines"][-1]["refused"]), (False, 4))

    def test_what_editors_do_to_files(self):
        self.office("new", "store", says="an empty store")
        with self.unchanged():
            for data, line, number, advice in (
                (b"(subject a)\r\n", 1, 1, "the line ends with CR LF, as Windows writes it"),
                (b"(subject a)\n(subject b)\r\n", 2, 1, "the line ends with CR LF"),
                (b"\xef\xbb\xbf(subject a)\n", 1, 1, "the file begins with a byte order mark"),
                ("(subject a)\n".encode("utf-16"), 1, 1, "the file is saved as UTF-16"),
                ("(subject a)\n(subject Zo\u00eb)\n".encode(), 2, 1, "byte 12 of the line: \u00eb)"),
                (b"(subject Zo\xeb)\n", 1, 1, "byte 12 of the line: \\xeb)"),
                (b"(subject\ta)\n", 1, 1, "byte 9 of the line: '\\t')"),
                (b"(root r)\n(child (day" + b" (lesson)" * 200 + b"))\n", 2, 1, "the line has 1,813 bytes; give this"),
                (b"(subject a)\n\n", 2, 2, "the line is empty)"),
                (b"# subjects\n", 1, 2, "a list of lines has no comments)"),
                (b"(subject a) \n", 1, 2, "a space stands before or after the form)"),
                (b"(subject  a)\n", 1, 2, "two spaces stand together)"),
                (b"(root r)\n(child (day)\n", 2, 2, "parentheses: 2 are opened and 1 is closed)"),
                (b"(view)\n", 1, 3, "there is no root yet)"),
                (b"(root r)\n(subject a)\n", 2, 3, "the policy is fixed once the root is there"),
                (b"(subject a)\n(subject a)\n", 2, 5, "a is declared already)"),
                (b"(root r)\n(child (RESTRICTED))\n", 2, 9, "RESTRICTED stands for hidden labels"),
                (b"(root r)\n(child (a (restricted)))\n", 2, 9, "RESTRICTED stands for hidden labels"),
                (b"(subject SHA)\n(subject sha)\n", 2, 5, "sha is declared already, as SHA: names have no case"),
                (b"(subject a)\n(root r)\n(user a)\n(child (b))\n", 4, 3, "child lines come before the first user"),
            ):
                says = f"standard input:{line}: refused {number}: {refusals.reason(number)} ({advice}"
                self.office("run", "store", given=data, status=1, says=says)
        self.assertEqual(
            self.office(
                "run",
                "store",
                given="(subject a)\n(subject b)",
                says="standard input:2: note: the last line has no line feed",
            ),
            "(ok)\n(ok)\n",
        )

    def test_a_list_that_cannot_be_read(self):
        self.school()
        self.office("run", "store", "none", status=3, says="none cannot be read: No such file")
        self.office("run", "store", ".", status=3, says=". cannot be read: Is a directory")
        before = ["bash", "-c", 'exec "$@" 0>/dev/null', "bash"]
        self.office("run", "store", before=before, status=3, says="standard input cannot be read: Bad file descriptor")


class Load(Office):
    """The solver's file."""

    FILE = (
        b"<school>\n  <mon>\n    <lesson>\n      <class>10B</class>\n      <room>R12</room>\n"
        b"      <note>ill</note>\n    </lesson>\n  </mon>\n</school>\n"
    )

    def rules(self, records=64, name="store"):
        """A store with the policy of document 01's school and no tree."""
        self.office("new", name, "--records", str(records), says="an empty store")
        self.office("run", "-q", name, given=POLICY)

    def contents(self, name):
        with Store(self.path(name)) as store:
            return store.read()

    def refused(self, data, number, *, place=None, words="", records=64):
        """The file is refused: with the number in words, with the place and what is wrong there, or with advice."""
        with self.unchanged():
            self.office("load", "store", "-", given=data, status=1, says=f"standard input: refused {number}: ")
        first, *others = self.errors.splitlines()
        wanted = f"standard input: refused {number}: {refusals.reason(number)}"
        self.assertEqual(others.pop(), "timetable-office: store is as it was")
        if place:
            self.assertEqual((first, others), (wanted, [f"standard input:{place}: {words}"]), data)
        else:
            self.assertEqual((first, others), (f"{wanted} ({words})", []), data)

    def test_in_place_of_lines(self):
        """State and table are those that the lines leave; the log has one entry, without labels."""
        self.school()
        self.rules(name="loaded")
        self.write("week.xml", self.FILE)
        self.assertEqual(
            self.office("load", "loaded", "week.xml", process=True, says="loaded: 9 nodes from week.xml\n"), ""
        )
        self.assertEqual(self.contents("loaded"), self.contents("store"))
        self.assertEqual(self.office("show", "loaded", "--as", "SHA"), OUTLINE)
        self.assertEqual(self.office("export", "loaded"), text_of(SETTING_UP))
        *_, last = json.loads(self.office("log", "loaded", "--json"))
        del last["time"], last["account"]
        nothing = dict.fromkeys(("user", "refused", "selected", "done"))
        self.assertEqual(last, {"run": 3, "command": "load", "form": "xml", "lines": 1, **nothing})
        for label in ("school", "lesson", "10B", "ill"):
            self.assertNotIn(label, self.office("log", "loaded"))
        self.office("run", "loaded", "-q", given="(child (tue))\n")
        self.office("policy", "loaded", given=EDITOR, says="loaded: 1 subject, 0 isa lines, 3 rules over 10 nodes")

    def test_line_ends_and_other_blanks(self):
        for data in (self.FILE.replace(b"\n", b"\r\n"), b" \t\r" + self.FILE.replace(b"\n", b"\r"), self.FILE[:-1]):
            with self.subTest(data=data):
                self.rules()
                self.office("load", "store", "-", given=data, says="store: 9 nodes from standard input\n")
                self.assertEqual(self.office("show", "store", "--as", "SHA"), OUTLINE)
                os.unlink(self.store)

    def test_the_root_alone(self):
        self.rules()
        self.office("load", "store", "-", given=b"<school/>", says="store: 1 node from")
        self.office("policy", "store", given=EDITOR, says="over 1 node")
        self.assertEqual(self.office("show", "store", "--as", "editor"), "school\n")

    def test_outside_the_kind(self):
        self.rules()
        declared = b'<?xml version="1.0" encoding="UTF-8"?>\n'
        for data, place, words in (
            (b"", "1:1", "there is no element"),
            (b"\n \n", "3:1", "there is no element"),
            (b"<a>\n  <b>\n</a>\n", "3:3", "mismatched tag: <b> of line 2 is still open"),
            (b"<b>\n</B>", "2:3", "mismatched tag: <b> of line 1 is still open; a closing tag has the same capitals"),
            (b"<a>\n  <b/>\n", "3:1", "the document ends, and <a> of line 1 is still open"),
            (b"<a/>\n<b/>", "2:1", "junk after document element"),
            (b"<a>\n <10B/></a>", "2:3", "a name does not begin with a digit, hyphen or full stop"),
            (b"<a></.b></a>", "1:6", "a name does not begin with a digit, hyphen or full stop"),
            (b"<a>x & y</a>", "1:7", "not well-formed (invalid token)"),
            (b"<a>\0</a>", "1:4", "not well-formed (invalid token)"),
            (b"<a", "1:1", "unclosed token"),
            (b"<a>\n  <b c='d'/>\n</a>", "2:3", "attributes are not taken"),
            (b"<a>\n<!-- c --></a>", "2:1", "a comment is not taken"),
            (declared + self.FILE, "1:1", "an XML declaration is not taken"),
            (declared.replace(b"UTF-8", b"none") + self.FILE, "1:1", "an XML declaration is not taken"),
            (b"<!DOCTYPE a [<!ENTITY e 'x'>]><a>&e;</a>", "1:1", "a document type declaration is not taken"),
            (b"<a><?p?></a>", "1:4", "a processing instruction is not taken"),
            (b"<a>x<![CDATA[y]]></a>", "1:5", "a CDATA section is not taken"),
            (b"<a>x&amp;y</a>", "1:5", "an entity or a character reference is not taken"),
            (b"<a>&#65;</a>", "1:4", "an entity or a character reference is not taken"),
            (b"<a>R 12</a>", "1:5", "a text with a blank inside is not taken"),
            (b"<a>\nR\n12</a>", "2:2", "a text with a blank inside is not taken"),
            (b"<a><b /></a>", "1:4", "a tag with a blank inside is not taken"),
            (b"<a><b\n></b></a>", "1:4", "a tag with a blank inside is not taken"),
            (b"<a><b></b ></a>", "1:7", "a tag with a blank inside is not taken"),
            (b"<a>x>y</a>", "1:5", f"a text {self.LABEL}"),
            ("<a>\n\u00e9\u00e9<b/>Zo\u00eb</a>".encode(), "2:1", f"a text {self.LABEL}"),
            ("<a><b/>\n<z\u00eb/></a>".encode(), "2:3", f"a name {self.LABEL}"),
            (b"<a:b/>", "1:3", f"a name {self.LABEL}"),
            (b"<a>%s</a>" % (b"L" * 25), "1:4", "a label has 25 bytes, and no label has more than 24"),
            (b"<a><%s/></a>" % (b"L" * 1025), "1:5", "a label has 1,025 bytes, and no label has more than 24"),
            (b"\xef\xbb\xbf<a/>", "1:1", "the file begins with a byte order mark: save it as plain text without one"),
            (self.FILE.decode().encode("utf-16"), "1:1", "the file is saved as UTF-16: save it as plain ASCII text"),
            (b"<a>" * 100_000, "1:300001", "the document ends, and <a> of line 1 is still open"),
        ):
            self.refused(data, 14, place=place, words=words)

    LABEL = "is a label: letters, digits, hyphens, underscores and full stops of ASCII alone"

    def test_a_name_or_a_level_that_is_not_taken(self):
        self.rules()
        words = "RESTRICTED stands for hidden labels and cannot be given, in whatever case"
        self.refused(b"<a>\n  <b/> RESTRICTED</a>", 9, place="2:8", words=words)
        self.refused(b"<a>\n  <b/> Restricted</a>", 9, place="2:8", words=words)
        self.refused(b"<a><RESTRICTED/></a>", 9, place="1:5", words=words)
        for depth in (12, 100_000):
            deep = b"<a>\n" * depth + b"x" + b"</a>" * depth
            self.refused(deep, 10, place="13:1" if depth == 12 else "13:2", words="this would be a node of level 12")

    def test_no_room(self):
        self.rules(records=8)
        words = "the document has 9 nodes, texts too, and the store has 8 records; "
        hint = "make one by `timetable-office new STORE --records 9`, or with room to spare"
        self.refused(self.FILE, 11, words=words + hint)
        os.unlink(self.store)
        self.rules(records=16_384)
        words = "the document has 16,385 nodes, and no store has more than 16,384 records"
        self.refused(b"<a>" + b"<b/>" * 16_384 + b"</a>", 11, words=words)
        full = b"<a>" + b"<b/>" * 16_383 + b"</a>"
        self.office("load", "store", "-", given=full, says="store: 16,384 nodes from")

    def test_a_store_with_a_tree(self):
        self.school()
        words = "the store has a tree already; `export --policy` prints its rules, to be given to a new store"
        self.refused(self.FILE, 3, words=words)
        self.refused(b"<a", 3, words=words)

    def test_json(self):
        self.rules()
        self.write("week.xml", b"<a>\n<b>\n</a>")
        with self.unchanged():
            told = json.loads(self.office("load", "store", "week.xml", "--json", status=1, says="week.xml: refused 14"))
        wanted = {"file": "week.xml", "kept": False, "refused": 14, "reason": refusals.reason(14)}
        wanted |= {"advice": "mismatched tag: <b> of line 2 is still open", "line": 3, "column": 3}
        self.assertEqual(told, wanted)
        told = json.loads(self.office("load", "store", "-", "--json", given=self.FILE, says="9 nodes"))
        self.assertEqual(told, {"file": "standard input", "kept": True, "nodes": 9})
        told = json.loads(self.office("load", "store", "-", "--json", given=self.FILE, status=1, says="refused 3"))
        self.assertEqual((told["refused"], "line" in told), (3, False))

    def test_files_that_cannot_be_read_or_answers_that_cannot_be_written(self):
        self.rules()
        with self.unchanged():
            self.office("load", "store", status=2, says="FILE.xml")
            self.office("load", "store", "none.xml", status=3, says="none.xml cannot be read: No such file")
            self.office("load", "store", ".", status=3, says=". cannot be read: Is a directory")
            with open("/dev/full", "wb") as full:
                words = ("load", "store", "-", "--json")
                self.office(*words, given=self.FILE, stdout=full, status=3, says="cannot be written: No space left")

    def test_what_is_told_agrees_with_the_library(self):
        """Random documents: where the library refuses with 14 something is found, and nowhere else."""
        rand = random.Random(20261116)
        seen = collections.Counter()
        for _ in range(4000):
            data = random_document(rand)
            session = library.session(records=8)
            try:
                session.load_xml(data)
                number = 0
            except Refused as refused:
                number = refused.number
            seen[number] += 1
            advice = explain_document(data, refusals.NO_DOCUMENT, session)
            self.assertEqual(advice is not None, number == refusals.NO_DOCUMENT, data)
            if advice is not None:
                seen[re.sub("[0-9]+ bytes|<.*>", "..", advice.words)] += 1
            if number in (0, refusals.NO_DOCUMENT):
                for other in (refusals.BAD_LABEL, refusals.TOO_DEEP, refusals.TABLE_FULL):
                    self.assertIsNone(explain_document(data, other, session), data)
            else:
                self.assertIsNotNone(explain_document(data, number, session), data)
        self.assertGreater(min(seen[number] for number in (0, 9, 10, 11, 14)), 10)
        self.assertGreater(len(seen), 20)


def random_document(rand):
    """A document, often with something that is not taken, or a row of pieces."""
    taken = ["<a>", "</a>", "<b>", "</b>", "<c/>", "x", " ", "\n", "RESTRICTED", "10B", "\r\n", "L" * 24, "<A>", "</A>"]
    not_taken = ["<!--c-->", "<?p q?>", "<![CDATA[x]]>", "&amp;", "&#65;", "<a b='c'>", "<a >", "</a >", "<c />"]
    not_taken += ["<10B/>", "M" * 25, "<!DOCTYPE a>", "<?xml version='1.0'?>", "\ufeff", "\u00e9", "<x:y/>", "</>"]
    not_taken += ["<", ">", "&"]
    if rand.random() < 0.3:
        pieces = [rand.choice(taken if rand.random() < 0.9 else not_taken) for _ in range(rand.randint(0, 9))]
    else:
        pieces = random_element(rand, rand.choice((1, 2, 3, 13)))
        for _ in range(rand.choice((0, 0, 0, 1, 2))):
            pieces.insert(rand.randint(0, len(pieces)), rand.choice(taken + not_taken))
    data = bytearray("".join(pieces), "utf-8")
    if data and rand.random() < 0.2:
        data[rand.randrange(len(data))] = rand.randrange(256)
    return bytes(data)


def random_element(rand, depth):
    """The tags and texts of an element that is taken."""
    name = rand.choice("ab")
    inside = [piece for _ in range(rand.randint(0, 2)) for piece in rand.choice((["<c/>"], ["\n"], ["<c/>", "10B"]))]
    if depth > 1:
        inside += random_element(rand, depth - 1)
    elif rand.random() < 0.1:
        inside = ["RESTRICTED"]
    return [f"<{name}>", *inside, f"</{name}>"]


class Show(Office):
    def test_formats(self):
        self.school()
        with self.unchanged():
            self.assertEqual(self.office("show", "store", "--as", "SHA", process=True), OUTLINE)
            self.assertEqual(self.office("show", "store", "--as", "SHA", "--format", "lines"), VIEW)
            told = json.loads(self.office("show", "store", "--as", "SHA", "--json"))
            rows = list(csv.DictReader(io.StringIO(self.office("show", "store", "--as", "SHA", "--format", "csv"))))
        self.assertEqual((told["reader"], told["shown"]), ("SHA", 9))
        lesson = told["tree"]["children"][0]["children"][0]
        self.assertEqual([child["label"] for child in lesson["children"]], ["class", "room", "note"])
        self.assertEqual(
            lesson["children"][2]["children"], [{"label": "RESTRICTED", "restricted": True, "children": []}]
        )
        self.assertEqual(len(rows), 9)
        self.assertEqual(
            rows[8],
            {
                "number": "9",
                "parent": "8",
                "level": "4",
                "label": "RESTRICTED",
                "path": "/school/mon/lesson/note/RESTRICTED",
            },
        )

    def test_exactly_that_reader(self):
        self.school(["(user SHA)", "(view)"])
        with self.unchanged():
            for name, says in (
                ("SAH", "did you mean SHA?"),
                ("MEI", "no subject is declared as MEI"),
                ("", "cannot be a name"),
                ("SHA) (x", "cannot be a name"),
                ("a\n(view)", "cannot be a name"),
            ):
                self.assertEqual(self.office("show", "store", f"--as={name}", status=1, says=says), "")

    def test_a_reader_in_either_case(self):
        """The name as it was declared is told, whatever the case in which it is typed."""
        self.school()
        with self.unchanged():
            for form in VIEW_FORMATS:
                shown = [self.office("show", "store", "--as", name, "--format", form) for name in ("SHA", "sha", "Sha")]
                self.assertEqual(shown, shown[:1] * 3)
            self.assertEqual(json.loads(self.office("show", "store", "--as", "sha", "--json"))["reader"], "SHA")

    def test_nothing_to_show(self):
        self.office("new", "store", says="an empty store")
        self.office("run", "store", "-q", given="(subject guest)\n")
        self.assertEqual(self.office("show", "store", "--as", "guest", status=1, says="no tree yet"), "")
        self.office("run", "store", "-q", given="(root school)\n")
        self.assertEqual(self.office("show", "store", "--as", "guest", says="guest is shown nothing"), "")
        told = json.loads(self.office("show", "store", "--as", "guest", "--json", says="nothing"))
        self.assertEqual((told["shown"], told["tree"]), (0, None))

    def test_a_full_output(self):
        self.school()
        with open("/dev/full", "wb") as full:
            self.office("show", "store", "--as", "SHA", stdout=full, status=3, says="cannot be written: No space left")
            with self.unchanged():
                self.office(
                    "run",
                    "store",
                    given="(user SHA)\n(update //room R14)\n",
                    stdout=full,
                    status=3,
                    says="No space left",
                )

    def test_closed_streams(self):
        self.school()
        with self.unchanged():
            for words, closed, says in (
                ("show store --as SHA", ">&-", "standard output is closed"),
                ("run store", "<&-", "standard input cannot be read: it is closed"),
            ):
                before = ["bash", "-c", f'exec "$@" {closed}', "bash"]
                self.office(*words.split(" "), before=before, status=3, says=says)
            before = ["bash", "-c", 'exec "$@" 2>&-', "bash"]
            self.assertEqual(self.office("show", "store", "--as", "nobody", before=before, status=1), "")


def expected_sheet(nodes, room):
    """The sheet of a room as document 02 tells it, from the nodes of a view."""

    def children(number):
        end = subtree_end(nodes, number)
        return [k for k in range(number + 1, end) if nodes[k].level == nodes[number].level + 1]

    def lesson(day, period):
        periods = children(day)
        beside = children(periods[period]) if period < len(periods) else []
        rooms = [k for k in beside if nodes[k].label.lower() == room.lower()]
        return nodes[children(rooms[0])[0]].label if rooms and children(rooms[0]) else ""

    def row(begin, labels):
        return f"{begin} " + "".join(f"{label[:13]:13}|" for label in (labels + [""] * 5)[:5]) + "\n"

    days = children(0)[:5] if nodes else []
    rows = [row(period + 1, [lesson(day, period) for day in days]) for period in range(8)]
    return row(" ", [nodes[day].label for day in days]) + "".join(rows)


class Sheets(Office):
    """The sheets of room doors."""

    def doors(self, rules="", changed=("", "")):
        """A store with the week of examples/doors.lines, these rules after its own, and a part of it changed."""
        given = read_page("examples/doors.lines").replace("(root school)\n", f"{rules}(root school)\n")
        self.office("new", "store", "--records", "128", says="an empty store")
        self.office("run", "-q", "store", given=given.replace(*changed))

    def sheets(self, *words, says="sheets of store", **more):
        return self.office("sheets", "store", *words, "--out", "doors", says=says, **more)

    def files(self, folder="doors"):
        """The files of a folder, each with its text."""
        return {name: self.read(os.path.join(folder, name)).decode() for name in os.listdir(self.path(folder))}

    def nodes(self, name):
        return read_view(self.office("show", "store", "--as", name, "--format", "lines").encode())

    def test_every_room(self):
        self.doors()
        before = self.read()
        told = json.loads(self.sheets("--as", "door", "--json", process=True))
        self.assertEqual(self.errors, "doors: 3 sheets of store for door\n")
        files = {"R12": "sheet-R12~4.txt", "hall": "sheet-hall.txt", "R20": "sheet-R20~4.txt"}
        rows = [{"room": room, "file": file, "blank": False} for room, file in files.items()]
        self.assertEqual(
            told, {"folder": self.path("doors"), "reader": "door", "day": 1, "sheets": rows, "dropped": []}
        )
        wanted = {file: expected_sheet(self.nodes("door"), room) for room, file in files.items()}
        self.assertEqual(self.files(), wanted)
        self.assertEqual(self.read(), before)
        self.assertEqual(sorted(os.listdir(self.folder)), ["doors", "store"])
        answers = self.office("run", "store", given="(user door)\n(sheet R12)\n(sheet hall)\n(sheet R20)\n")
        self.assertEqual(answers, "(ok)\n" + "".join(wanted.values()))

    def test_what_the_reader_sees(self):
        """No label that is hidden from the reader is in a file, and none depends on what is hidden."""
        made = []
        for changed in (
            ("", ""),
            ("(child (mon", "(child (counselling (p1 (R12 (Kim)))))\n(child (mon"),
            ("(child (mon", "(child (mon (counselling (R12 (Kim)))"),
            ("(R12 (counselling))", "(counselling (Kim))"),
        ):
            self.doors(changed=changed)
            for name in ("staff", "door"):
                self.sheets("--as", name)
                made.append(self.files())
            os.unlink(self.store)
        self.assertTrue(all(door == made[1] for door in made[1::2]))
        self.assertTrue(all(staff != made[0] for staff in made[2::2]))
        self.assertIn("counselling", "".join(made[0].values()))
        self.assertNotRegex("".join(made[1].values()), "counsel|exam|interview|Kim")

    def test_rooms_that_are_shown(self):
        self.doors("(rule deny read //hall door)\n(rule accept position //hall door)\n")
        self.sheets("--as", "door", says="2 sheets of store for door")
        self.assertEqual(set(self.files()), {"sheet-R12~4.txt", "sheet-R20~4.txt"})
        self.sheets("--as", "door", "--room", "RESTRICTED", says="no longer there: sheet-R12~4.txt, sheet-R20~4.txt")
        (text,) = self.files().values()
        self.assertEqual(text, expected_sheet(self.nodes("door"), "RESTRICTED"))
        self.assertIn("assembly", text)

    def test_a_solvers_week(self):
        lines = ["(subject door)", "(rule accept read //* door)", "(rule deny read //lesson door)"]
        self.office("new", "store", says="an empty store")
        self.office("run", "-q", "store", given=lines)
        self.office("load", "store", "-", given=week.document_of(week.week()), says="nodes from")
        told = json.loads(self.sheets("--as", "door", "--json"))["sheets"]
        nodes = self.nodes("door")
        self.assertEqual({sheet["room"] for sheet in told}, {node.label for node in nodes if node.level == 3})
        self.assertGreater(len(told), 30)
        wanted = {sheet["file"]: expected_sheet(nodes, sheet["room"]) for sheet in told}
        self.assertEqual(self.files(), wanted)

    def test_rooms_that_are_named(self):
        self.doors()
        self.sheets("--as", "door", "--room", "hall", "--room", "R21", "--room", "hall", says="2 sheets of store")
        self.assertIn("doors: note: the sheet of R21 is blank\n", self.errors)
        self.assertNotIn("hall is blank", self.errors)
        self.assertEqual(set(self.files()), {"sheet-hall.txt", "sheet-R21~4.txt"})
        names = [".", "..", "-x", "con", "sheet", "A" * 24, "R-12", "R12"]
        self.sheets("--as", "door", *(f"--room={name}" for name in names), says="8 sheets of store")
        files = list(self.files())
        self.assertEqual(len({file.lower() for file in files}), len(names))
        self.assertTrue(all(re.fullmatch(r"sheet-[A-Za-z0-9,_~-]+\.txt", file) for file in files), files)

    def test_a_room_in_either_case(self):
        """R12 and r12 are one room: one sheet, called what the reader is shown first."""
        self.doors(changed=("(p2 (R12", "(p2 (r12"))
        told = json.loads(self.sheets("--as", "DOOR", "--json"))
        self.assertEqual(told["reader"], "door")
        self.assertEqual([sheet["room"] for sheet in told["sheets"]], ["R12", "hall", "R20"])
        files = self.files()
        self.assertEqual(files["sheet-R12~4.txt"], expected_sheet(self.nodes("door"), "r12"))
        self.sheets("--as", "door", "--room", "r12", "--room", "R12", "--room", "Restricted", says="2 sheets of store")
        self.assertEqual(set(self.files()), {"sheet-R12~4.txt", "sheet-RESTRICTED~3ff.txt"})
        self.assertEqual(self.files()["sheet-R12~4.txt"], files["sheet-R12~4.txt"])

    def test_the_root_is_hidden(self):
        self.doors("(rule deny read /school door)\n")
        self.sheets("--as", "door", status=1, says="no room is shown to door")
        self.assertFalse(os.path.exists(self.path("doors")))
        self.sheets("--as", "door", "--room", "R12", says="the sheet of R12 is blank")
        self.assertEqual(list(self.files().values()), [expected_sheet([], "R12")])

    def test_nothing_to_write(self):
        self.doors()
        self.sheets("--as", "door")
        before = self.files()
        for words, says in (
            (["--as", "Doro"], "did you mean door?"),
            (["--as", "door", "--room", "R12", "--room", "*"], "'*' cannot be a room: refused 2"),
            (["--as", "door", "--room", "$"], "'$' cannot be a room: refused 2"),
            (["--as", "door", "--room", "R12)(view"], "cannot be a room: refused 2"),
            (["--as", "door", "--room", "x" * 25], "cannot be a room: refused 2"),
            (["--as", "door", "--room", "R12)\n(view"], "cannot be a room: refused 1"),
        ):
            self.assertEqual(self.sheets(*words, status=1, says=says), "")
            self.assertIn("doors is as it was, and nothing is published", self.errors)
            self.assertEqual(self.files(), before)
        self.sheets(status=2, says="--as")
        self.office("sheets", "store", "--as", "door", status=2, says="--out")
        self.office("new", "empty", says="an empty store")
        self.office("run", "-q", "empty", given="(subject door)\n")
        self.office("sheets", "empty", "--as", "door", "--out", "none", status=1, says="no tree yet")
        self.assertEqual(sorted(os.listdir(self.folder)), ["doors", "empty", "store"])

    def test_what_is_in_the_way(self):
        """Sheets alone are replaced, and by sheets alone; on an error the old ones stay."""
        self.doors()
        self.sheets("--as", "door")
        self.office("publish", "store", "--out", "www", says="2 views")
        pages = self.files("www")
        self.office("sheets", "store", "--as", "door", "--out", "www", status=3, says="such as index.html")
        self.office("publish", "store", "--out", "doors", status=3, says="such as sheet-R12~4.txt")
        before = self.files()
        for name, text in (("R12.txt", before["sheet-R12~4.txt"]), ("sheet-x.txt", "mine"), ("sheet-x.html", "mine")):
            self.write(os.path.join("doors", name), text)
            self.sheets("--as", "staff", status=3, says="has files that were not published")
            os.unlink(self.path(os.path.join("doors", name)))
            self.assertEqual(self.files(), before)
        full = OSError(errno.ENOSPC, "No space left on device")
        for step in ("fsync", "chmod", "rename"):
            with mock.patch.object(os, step, side_effect=full):
                self.sheets("--as", "staff", status=3, says="nothing is published: No space left")
            self.assertEqual(self.files(), before)
        self.assertEqual(self.files("www"), pages)
        self.assertEqual(sorted(os.listdir(self.folder)), ["doors", "store", "www"])
        self.sheets("--as", "staff")
        self.assertNotEqual(self.files(), before)

    def test_an_older_library(self):
        """One that refuses sheets with 2, that finds no name in another case, or to which `$` is the login name alone,
        and is this one in all else, is told before anything is done."""
        self.doors()
        for begins, answers, tells in (
            ("(sheet", "", "it does not take the usual lines"),
            ("(user B", "", "it does not take the usual lines"),
            ("(view)", "(root r)\n(child (c))\n(end 2)\n", "its views are not those of this one"),
        ):
            self.make_other(OLDER % tuple(map(json.dumps, (library_file, begins, answers))))
            told = {"process": True, "status": 3, "says": f"other.so is of another version: {tells}"}
            with self.unchanged():
                self.sheets("--as", "door", "--library", "other.so", **told)
                self.office("show", "store", "--as", "door", "--library", "other.so", **told)

    def test_the_smallest_table(self):
        session = library.session(records=1)
        for line in (b"(subject door)", b"(root school)", b"(user door)"):
            session.line(line)
        self.assertEqual(len(session.line(b"(sheet R12)")), SHEET_BYTES)


class Days(Office):
    """Windows by date: days for what is shown, published and printed, and windows in what is told and exported."""

    CALENDAR = [
        "(subject door)",
        "(subject office)",
        "(subject web)",
        "(rule accept read //* door)",
        "(rule accept read //* office)",
        "(rule accept update //* office)",
        "(rule accept read //* web)",
        "(rule deny read //hall web)",
        "(root school)",
        "(child (mon (p1 (hall (7A-PE))) (p2 (R12 (10B-maths)))))",
        "(user office)",
        "(window //hall 1 154)",
        "(window //R12 8 366)",
        "(window //p2 5 9)",
    ]
    NOTE = "store: note: some nodes are shown on some days alone; this is day 1, and --day D is another\n"

    def calendar(self):
        self.office("new", "store", "--records", "64", says="an empty store")
        self.office("run", "-q", "store", given=self.CALENDAR)

    def shown(self, *words, says=""):
        return self.office("show", "store", "--as", "door", *words, says=says).split()

    def test_show(self):
        self.calendar()
        whole = ["school", "mon", "p1", "hall", "7A-PE", "p2", "R12", "10B-maths"]
        with self.unchanged():
            self.assertEqual(self.shown(says=self.NOTE), whole[:5])
            for day, wanted in ((1, whole[:5]), (7, whole[:6]), (8, whole), (9, whole), (10, whole[:5])):
                self.assertEqual(self.shown("--day", str(day)), wanted, day)
            self.assertEqual(self.shown("--day", "155"), whole[:3])
        for day in ("0", "367", "x", "-1"):
            self.office("show", "store", "--as", "door", f"--day={day}", status=2, says="days run from 1 to 366")
        self.office("new", "empty", "--records", "64", says="an empty store")
        self.office("show", "empty", "--as", "door", "--day", "3", status=1, says="no tree yet")

    def test_nothing_is_said_without_windows(self):
        self.school()
        self.assertEqual(self.office("show", "store", "--as", "SHA", "--day", "3"), OUTLINE)
        self.assertEqual(self.office("show", "store", "--as", "SHA"), OUTLINE)

    def test_a_day_ends_with_its_run(self):
        self.calendar()
        asked = ["(day 8)", "(user door)", "(find //R12)"]
        self.assertEqual(self.office("run", "store", given=asked), "(ok)\n(ok)\n(hit 3 R12)\n")
        self.assertEqual(self.office("run", "store", given=asked[1:]), "(ok)\n(none)\n")
        self.office("run", "store", given=["(child (tue))"])
        says = "child lines come before the first user or day line of a run"
        self.office("run", "store", given=["(day 3)", "(child (wed))"], status=1, says=says)

    def test_refused_days(self):
        self.calendar()
        for line, says in (
            ("(day 367)", "(367 is no day of a year)"),
            ("(window //p1 0 5)", "(0 is no day of a year)"),
            ("(window //p1 9 8)", "(day 9 comes after day 8)"),
        ):
            says = f"refused 15: {refusals.reason(15)} {says}"
            self.office("run", "store", given=["(user office)", line], status=1, says=says)

    def test_publish_and_sheets(self):
        self.calendar()
        self.office("publish", "store", "--out", "www", says=self.NOTE)
        publish = ("publish", "store", "--out", "www", "--json")
        told = json.loads(self.office(*publish, "--day", "8", says="3 views of store"))
        self.assertNotIn("note", self.errors)
        self.assertEqual((told["day"], [reader["shown"] for reader in told["readers"]]), (8, [8, 8, 6]))
        self.assertEqual(told["store"], json.loads(self.office(*publish, says="views of store"))["store"])
        self.assertIn(" for day 8, publication", self.publish_page("--day", "8"))
        self.assertNotIn(" for day", self.publish_page())
        sheets = ("sheets", "store", "--as", "door", "--out", "doors")
        told = json.loads(self.office(*sheets, "--day", "8", "--json", says="2 sheets of store"))
        self.assertEqual((told["day"], [sheet["room"] for sheet in told["sheets"]]), (8, ["hall", "R12"]))
        self.office(*sheets, says="1 sheet of store")
        self.assertIn(self.NOTE, self.errors)

    def publish_page(self, *words):
        self.office("publish", "store", "--out", "www", *words, says="views of store")
        return self.read(os.path.join("www", "view-door.html")).decode()

    def test_why(self):
        self.calendar()
        told = self.office("why", "store", "--as", "door", "//10B-maths")
        self.assertIn("is shown to door", told)
        self.assertTrue(
            told.endswith(
                "  there on days 5 to 9 alone, as /school/mon/p2 is\n"
                "  there on days 8 to 366 alone, as /school/mon/p2/R12 is\n"
            )
        )
        self.assertTrue(self.office("why", "store", "--as", "web", "//p2").endswith("  there on days 5 to 9 alone\n"))
        (node,) = json.loads(self.office("why", "store", "--as", "web", "//hall", "--json"))["nodes"]
        self.assertEqual(node["windows"], [{"path": "/school/mon/p1/hall", "days": [1, 154]}])
        self.assertNotIn("days", self.office("why", "store", "--as", "door", "//mon"))
        self.office("map", "store", "--out", "map.html", says="8 nodes by 3 subjects")
        self.office("check", "store", says="0 findings in 5 rules over 8 nodes")

    def test_export(self):
        self.calendar()
        lines = self.office("export", "store")
        self.assertEqual(
            lines.splitlines()[-4:],
            [
                "(user office)",
                "(window /*/*[1]/*[2]/*[1] 8 366)",
                "(window /*/*[1]/*[2] 5 9)",
                "(window /*/*[1]/*[1]/*[1] 1 154)",
            ],
        )
        self.office("new", "again", "--records", "64", says="an empty store")
        self.office("run", "again", "-q", given=lines)
        with Store(self.store) as store, Store(self.path("again")) as again:
            self.assertEqual(again.read(), store.read())
        self.office("export", "store", "--xml", status=1, says="some nodes are shown on some days alone")
        self.office("policy", "store", given=self.office("export", "store", "--policy"), says="over 8 nodes")
        with Store(self.store) as store, Store(self.path("again")) as again:
            self.assertEqual(again.read(), store.read())
        self.office("policy", "store", given=["(subject a)", "(rule accept read //* a)"], says="over 8 nodes")
        self.office("export", "store", status=1, says="R12, node 7, is shown on days 8 to 366 alone")

    def test_windows_in_a_table(self):
        self.calendar()
        with Store(self.store) as store:
            table = store.read().table
        windows = [WHOLE_YEAR, WHOLE_YEAR, WHOLE_YEAR, (1, 154), WHOLE_YEAR, (5, 9), (8, 366), WHOLE_YEAR]
        self.assertEqual(read_windows(table), windows)
        self.assertEqual(set(read_windows(all_year(table))), {WHOLE_YEAR})
        self.assertEqual(read_table(all_year(table)), read_table(table))


class Log(Office):
    def test_who_gave_which_form(self):
        self.school(["(user SHA)", "(update //room R14)", "(find //none)"])
        self.office(
            "run",
            "store",
            "--keep-going",
            given=["(user SHA)", "(rename //class note)", "nonsense"],
            status=1,
            says="refused",
        )
        first, *told = json.loads(self.office("log", "store", "--json", process=True))
        self.assertEqual((first["command"], first["form"], first["lines"]), ("new", None, 0))
        self.assertEqual([entry["form"] for entry in told[:5]], ["subject", "isa", "rule", "root", "child"])
        self.assertEqual([entry["lines"] for entry in told[:5]], [2, 1, 4, 1, 1])
        seen = [
            (entry["run"], entry["user"], entry["form"], entry["refused"], entry["selected"], entry["done"])
            for entry in told[5:]
        ]
        wanted = [
            (2, "SHA", "user", None, None, None),
            (2, "SHA", "update", None, 1, 1),
            (2, "SHA", "find", None, 0, None),
        ]
        wanted += [
            (3, "SHA", "user", None, None, None),
            (3, "SHA", "rename", 9, None, None),
            (3, "SHA", None, 2, None, None),
        ]
        self.assertEqual(seen, wanted)
        self.assertTrue(
            all(
                re.fullmatch(r"\d{4}-\d\d-\d\dT\d\d:\d\d:\d\d\+00:00", entry["time"]) and entry["account"]
                for entry in told
            )
        )

    def test_no_label(self):
        self.school(["(user SHA)", "(query //R12)", "(update //room R14)"])
        for form in ("text", "json", "csv"):
            printed = self.office("log", "store", "--format", form)
            self.assertIn("update", printed)
            for label in ("R12", "R14", "10B", "ill", "school", "lesson", "//"):
                self.assertNotIn(label, printed)


class Export(Office):
    def again(self, lines):
        """The lines, run into another store of the same size, give the same lines."""
        self.office("new", "again", "--records", "64", says="an empty store")
        self.office("run", "again", "-q", given=lines)
        self.assertEqual(self.office("export", "again"), lines)
        self.assertEqual(self.contents("again"), self.contents("store"))

    def contents(self, name):
        with contextlib.closing(sqlite3.connect(self.path(name))) as connection:
            return connection.execute("SELECT state, tree FROM contents").fetchone()

    def test_the_school(self):
        self.school(["(user SHA)", "(update //room R14)"])
        with self.unchanged():
            lines = self.office("export", "store", process=True)
            self.assertEqual(lines, text_of(SETTING_UP).replace("R12", "R14"))
            self.assertEqual(self.office("export", "store", "--policy"), text_of(POLICY))
        self.again(lines)

    def test_stores_that_are_not_full(self):
        self.office("new", "store", "--records", "64", says="an empty store")
        self.assertEqual(self.office("export", "store"), "")
        for line in (*POLICY, "(root r)"):
            self.office("run", "store", "-q", given=[line])
        self.assertEqual(self.office("export", "store"), text_of([*POLICY, "(root r)"]))

    def test_only_the_root_is_left(self):
        self.office("new", "store", "--records", "64", says="an empty store")
        self.office("run", "store", "-q", given=[*EDITOR, "(root r)", "(child (a))", "(user editor)", "(remove //a)"])
        self.assertEqual(self.office("export", "store"), text_of([*EDITOR, "(root r)"]))

    def large(self, policy):
        """A session whose second and third day do not fit a line; an editor put them in under another policy."""
        session = library.session(records=2000)
        lessons = [f"(lesson (class (c{k})) (room (R{k})))" for k in range(60)]
        lines = [
            *EDITOR,
            "(root school)",
            "(child (mon))",
            "(child (tue))",
            "(child (wed))",
            "(child (thu))",
            "(user editor)",
        ]
        lines += [f"(append /school/{day} {lesson})" for day in ("tue", "wed") for lesson in lessons]
        lines += ["(append //tue/lesson[30]/class (x" + " (y)" * 200 + "))"]
        run = run_lines(session, split_lines("large", text_of(lines).encode()))
        fresh = library.session(records=2)
        run_lines(fresh, split_lines("policy", text_of([*policy, "(root school)", "(child (x))"]).encode()))
        return Session(library, fresh.state, run.table)

    def test_days_that_do_not_fit_a_line(self):
        session = self.large(["(subject guest)", *EDITOR])
        lines = export_lines(session)
        self.assertLessEqual(max(map(len, lines)), LINE_MAXIMUM)
        self.assertIn(b"(user editor)", lines)
        again = library.session(records=2000)
        run = run_lines(again, listed(lines))
        self.assertEqual((run.state, run.table), (session.state, session.table))

    def test_two_who_each_may_add_to_a_day(self):
        read = [f"(rule accept read //* {name})" for name in ("a", "b", "c")]
        places = (("//tue", "b"), ("//tue//*", "b"), ("//wed", "a"), ("//wed//*", "a"))
        rules = [f"(rule accept insert {path} {name})" for path, name in places]
        session = self.large(["(subject a)", "(subject b)", "(subject c)", *read, *rules])
        lines = export_lines(session)
        self.assertEqual([line for line in lines if line.startswith(b"(user ")], [b"(user b)", b"(user a)"])
        run = run_lines(library.session(records=2000), listed(lines))
        self.assertEqual((run.state, run.table), (session.state, session.table))

    def test_days_that_no_lines_give(self):
        for policy, says in (
            (["(subject a)", "(rule accept read //* a)"], "tue, number 2 below the root, does not fit"),
            ([*EDITOR, "(rule deny insert //wed editor)"], "wed, number 3 below the root, does not fit"),
            ([*EDITOR, "(rule deny read //mon editor)"], "tue, number 2 below the root, does not fit"),
        ):
            with self.assertRaises(InputError) as caught:
                export_lines(self.large(policy))
            self.assertIn("the tree is not exported: " + says, str(caught.exception))

    def loaded(self, document, policy=POLICY, records=64):
        """A session with this policy and the tree of this document."""
        session = library.session(records=records)
        run_lines(session, split_lines("policy", text_of(policy).encode()))
        session.load_xml(document)
        return session

    def test_the_document(self):
        self.school(["(user SHA)", "(update //room R14)"])
        with self.unchanged():
            document = self.office("export", "store", "--xml")
        self.office("new", "again", "--records", "64", says="an empty store")
        self.office("run", "again", "-q", given=self.office("export", "store", "--policy"))
        self.office("load", "again", "-", given=document, says="9 nodes")
        self.assertEqual(self.contents("again")[1], self.contents("store")[1])
        self.assertEqual(self.office("export", "again"), self.office("export", "store"))
        self.office("export", "store", "--xml", "--policy", status=2, says="not allowed with")
        self.office("new", "empty", "--records", "64", says="an empty store")
        self.office("export", "empty", "--xml", status=1, says="no tree yet")

    def test_a_week_that_no_lines_give(self):
        """What cannot be exported by lines is given again by the policy and the document."""
        session = self.loaded(week.document_of(week.week(classes=24)), records=RECORDS_MAXIMUM)
        with self.assertRaises(InputError) as caught:
            export_lines(session)
        self.assertIn("`export --xml` a document for `load`", str(caught.exception))
        lines = [line.decode() for line in policy_lines(session)]
        again = self.loaded(export_document(session), lines, RECORDS_MAXIMUM)
        self.assertEqual((again.state, again.table), (session.state, session.table))

    def test_a_wrong_document_is_not_printed(self):
        session = self.loaded(b"<r><a>b</a></r>")
        with mock.patch("timetable_office.export._element", return_value=ElementTree.fromstring("<r><b>b</b></r>")):
            self.assertRaisesRegex(InputError, "does not give the same tree again", export_document, session)

    def test_documents_of_trees(self):
        """Every tree has the document that it should, or is told not to have one."""
        for tree, told in (
            ("", "<r></r>\n"),
            ("(a)", "<r>a</r>\n"),
            ("(a) (b)", "<r>\n  <a></a>\n  <b></b>\n</r>\n"),
            ("(1) (b)", "<r>1<b></b>\n</r>\n"),
            ("(b (2)) (1)", "<r>\n  <b>2</b>1</r>\n"),
            ("(1 (b))", "1 is the root or has nodes below it"),
            ("(1) (2)", "1 and 2 are neighbours"),
            ("(b) (.x) (-y)", ".x and -y are neighbours"),
        ):
            session = library.session(records=16)
            parts = re.findall(r"\([^() ]+(?: \([^()]+\))?\)", tree)
            lines = [*EDITOR, "(root r)", *(f"(child {part})" for part in parts)]
            run_lines(session, split_lines("tree", text_of(lines).encode()))
            if told.startswith("<"):
                self.assertEqual(export_document(session).decode(), told)
            else:
                with self.assertRaisesRegex(InputError, "the tree has no document: " + re.escape(told)):
                    export_document(session)

    def test_random_documents(self):
        rand, made = random.Random(20261117), 0
        for _ in range(200):
            nodes = [Node(0, "r")]
            for _ in range(rand.randint(0, 40)):
                nodes.append(Node(rand.randint(1, min(nodes[-1].level + 1, 11)), rand.choice(["a", "b.c", "_-", "7"])))
            ends = [*(node.level for node in nodes[1:]), 0]
            texts = [(node, node.label == "7") for node in nodes]
            bad = any(no_name and end > node.level for (node, no_name), end in zip(texts, ends))
            bad |= any(
                one and two and before.level == node.level for (before, one), (node, two) in zip(texts, texts[1:])
            )
            table = b"".join(make_record(*node) for node in nodes)
            state = self.loaded(b"<r/>").state
            session = Session(library, state, (len(nodes).to_bytes(4, "little") + table).ljust(4 + 32 * 64, b"\0"))
            self.assertTrue(session.is_store())
            if bad:
                self.assertRaises(InputError, export_document, session)
            else:
                made += 1
                self.assertEqual(self.loaded(export_document(session)).table, session.table)
        self.assertGreater(made, 20)
        self.assertLess(made, 180)

    def test_random_trees(self):
        rand = random.Random(20261116)
        for _ in range(30):
            nodes = [Node(0, "r")]
            for _ in range(rand.randint(0, 400)):
                level = rand.randint(1, min(nodes[-1].level + 1, 11))
                nodes.append(Node(level, "L" * rand.randint(1, 24)))
            text = tree_text(nodes)
            self.assertEqual(
                read_view(b"(root x)\n(child " + text + b")\n(end %d)\n" % (len(nodes) + 1))[1:],
                [Node(node.level + 1, node.label) for node in nodes],
            )
            session = library.session(records=500)
            for line in [*EDITOR, "(root r)"]:
                session.line(line.encode())
            state = session.state
            session.line(b"(user editor)")
            last = [1] * 13
            above = [b"/*"]
            for before, node in zip(nodes, nodes[1:]):
                last[node.level] = last[node.level] + 1 if node.level <= before.level else 1
                del above[node.level :]
                session.line(b"(append " + above[-1] + b" (" + node.label.encode() + b"))")
                above.append(above[-1] + b"/*[%d]" % last[node.level])
            self.assertEqual(read_table(session.table), nodes)
            lines = export_lines(Session(library, state, session.table))
            again = run_lines(library.session(records=500), listed(lines))
            self.assertEqual(again.table, session.table)


class NewPolicy(Office):
    RULES = ["(subject web)", "(rule accept position //* web)", "(rule accept read /school web)"]

    def test_new_rules_over_the_tree(self):
        self.school(["(user SHA)", "(update //room R14)"])
        self.write("rules", text_of(self.RULES))
        self.office(
            "policy", "store", "rules", process=True, says="store: 1 subject, 0 isa lines, 2 rules over 9 nodes"
        )
        self.assertEqual(
            self.office("export", "store"), text_of(self.RULES) + text_of(SETTING_UP[7:]).replace("R12", "R14")
        )
        self.assertTrue(self.office("show", "store", "--as", "web").startswith("school\n  RESTRICTED\n"))
        self.office("show", "store", "--as", "SHA", status=1, says="no subject is declared as SHA")
        self.assertFalse(self.holds(b"position //note"))
        told = json.loads(self.office("log", "store", "--json"))
        self.assertEqual(
            [(entry["command"], entry["form"], entry["lines"]) for entry in told[-2:]],
            [("policy", "subject", 1), ("policy", "rule", 2)],
        )

    def test_an_edited_policy(self):
        self.school()
        rules = self.office("export", "store", "--policy").replace("deny", "accept")
        self.office("policy", "store", given=rules, says="2 subjects, 1 isa line, 4 rules over 9 nodes")
        self.assertIn("ill", self.office("show", "store", "--as", "SHA"))

    def test_refused_lines(self):
        self.school()
        with self.unchanged():
            self.office(
                "policy",
                "store",
                given=[*self.RULES, "(rule deny read //note[1] web)"],
                status=1,
                says="standard input:4: refused 6",
            )
            self.office(
                "policy",
                "store",
                given=[*self.RULES, "(root school)"],
                status=1,
                says="standard input:4: a root line does not belong in a policy",
            )
            self.office(
                "policy", "store", given=[*self.RULES, "(user web)"], status=1, says="standard input:4: refused 3"
            )

    def test_before_the_tree(self):
        self.office("new", "store", "--records", "9", says="an empty store")
        self.office("run", "store", "-q", given=POLICY)
        self.office("policy", "store", given=self.RULES, says="over 0 nodes")
        self.office("run", "store", "-q", given="(subject b)\n", status=1, says="refused 3")
        self.office("run", "store", "-q", given="(root school)\n(child (x))\n")
        self.assertEqual(self.office("show", "store", "--as", "web"), "school\n  RESTRICTED\n")


class NoTrace(Office):
    def test_a_removed_note(self):
        for words in ((["(remove //note/*)"]), (["(rename //note/* cold)"]), (["(remove //lesson)"])):
            with self.subTest(words=words):
                self.folder = tempfile.mkdtemp()
                self.addCleanup(shutil.rmtree, self.folder)
                self.office("new", "store", "--records", "9000", says="an empty store")
                rules = [*EDITOR, "(rule accept update //* editor)", "(root school)"]
                tree = [f"(child (day{k} (lesson (room (R{k})) (note ({NOTE})))))" for k in range(400)]
                self.office("run", "store", "-q", given=rules + tree)
                self.assertTrue(self.holds(NOTE.encode()))
                self.office("run", "store", "-q", given=["(user editor)", *words])
                self.assertEqual(os.listdir(self.folder), ["store"])
                self.assertFalse(self.holds(NOTE.encode()))
                self.assertNotIn(NOTE, self.office("export", "store"))

    def test_labels_that_come_and_go(self):
        """Runs that add, rename and remove labels that are used once, and new policies: only what is there is found."""
        rand = random.Random(20261116)
        self.office("new", "store", "--records", "600", says="an empty store")
        rules = [*EDITOR, "(rule accept update //* editor)"]
        self.office("run", "store", "-q", given=[*rules, "(root school)", "(child (day))"])
        there, gone = [], []
        for turn in range(25):
            lines = ["(user editor)"]
            for _ in range(rand.randint(1, 40)):
                label = f"{rand.getrandbits(96):024x}"
                kind = rand.choice(("append", "append", "rename", "remove")) if there else "append"
                if kind == "append":
                    lines.append(f"(append /school/day ({label}))")
                else:
                    old = there.pop(rand.randrange(len(there)))
                    gone.append(old)
                    lines.append(f"({kind} //{old}" + (f" {label})" if kind == "rename" else ")"))
                there += [label] if kind != "remove" else []
            self.office("run", "store", "-q", given=lines)
            word = f"{rand.getrandbits(96):024x}"
            self.office("policy", "store", given=[*rules, f"(rule deny read //{word} editor)"], says="store")
            kept = self.read()
            # a label may lie across two pages of the database, and half of it then in each
            found = {
                label: label[:12].encode() in kept or label[12:].encode() in kept for label in [*gone, *there, word]
            }
            self.assertEqual([label for label in gone if found[label]], [])
            self.assertTrue(all(found[label] for label in [*there, word]))
            gone.append(word)
        self.assertEqual(os.listdir(self.folder), ["store"])
        self.assertGreater(len(gone), 100)

    def test_a_store_that_another_program_gave_a_write_ahead_log(self):
        self.school([f"(child (note ({NOTE})))"])
        with contextlib.closing(sqlite3.connect(self.store)) as connection:
            self.assertEqual(connection.execute("PRAGMA journal_mode = WAL").fetchone(), ("wal",))
            connection.execute("UPDATE contents SET one = one")
        self.office("policy", "store", given=EDITOR, says="store: 1 subject")
        self.office("run", "store", "-q", given=["(user editor)", "(remove //note)"])
        self.assertEqual(os.listdir(self.folder), ["store"])
        self.assertFalse(self.holds(NOTE.encode()))

    def test_a_note_of_a_run_that_failed(self):
        self.school()
        self.office("run", "store", "-q", given=[f"(child (note ({NOTE})))", "oops"], status=1, says="refused 2")
        self.assertFalse(self.holds(NOTE.encode()))
        self.office(
            "run",
            "store",
            "-q",
            "--keep-going",
            given=[f"(chold (note ({NOTE})))", f"(user {NOTE})"],
            status=1,
            says="refused 2",
        )
        self.assertFalse(self.holds(NOTE.encode()))


class Faults(Office):
    def test_no_store(self):
        for words in (
            ("run", "store"),
            ("show", "store", "--as", "a"),
            ("log", "store"),
            ("export", "store"),
            ("policy", "store"),
        ):
            self.office(*words, status=3, says="there is no store store; `timetable-office new store` makes one")
        self.assertEqual(os.listdir(self.folder), [])
        self.office("log", ".", status=3, says=". is not a file")

    def test_open_to_others(self):
        self.school()
        os.chmod(self.store, 0o644)
        self.office("show", "store", "--as", "SHA", status=3, says="`chmod 600 store` closes it")

    def test_other_files(self):
        for data, says in (
            (b"", "is not a timetable store"),
            (b"(subject a)\n" * 100, "is not a timetable store, or its first bytes are damaged"),
        ):
            self.write("store", data)
            os.chmod(self.store, 0o600)
            self.office("log", "store", status=3, says=says)
        os.unlink(self.store)
        with contextlib.closing(sqlite3.connect(self.store)) as connection:
            connection.execute("CREATE TABLE contents (state)")
        os.chmod(self.store, 0o600)
        self.office("log", "store", status=3, says="is not a timetable store")

    def test_a_later_format(self):
        self.school()
        with contextlib.closing(sqlite3.connect(self.store)) as connection:
            connection.execute("PRAGMA user_version = 3")
        self.office(
            "log", "store", status=3, says="store has format 3; this version of timetable-office knows format 2"
        )

    def test_a_store_without_windows(self):
        self.school()
        with contextlib.closing(sqlite3.connect(self.store)) as connection:
            connection.execute("PRAGMA user_version = 1")
        self.office("log", "store", status=3, says="store was made by a version before 0.6.0")
        self.assertIn("`timetable-office export store`", self.errors)

    def test_damaged_bytes(self):
        """A few bytes overwritten anywhere: what is shown and kept is right, or there is a clear message."""
        self.school(records=300)
        good = self.read()
        rand = random.Random(7)
        places = [0, 18, 100, good.index(b"R12") + 1, good.index(b"staff"), len(good) - 1] + [
            rand.randrange(len(good)) for _ in range(max(200, 5 * kills))
        ]
        told = 0
        for place in places:
            bad = bytearray(good)
            for offset in range(min(8, len(bad) - place)):
                bad[place + offset] ^= rand.randrange(1, 256)
            self.write("store", bytes(bad))
            status, printed, errors = in_this_process(self.folder, ["show", "store", "--as", "SHA"])
            again, _, other_errors = in_this_process(self.folder, ["run", "-q", "store"], b"(child (tue))\n")
            self.assertEqual(again, status, other_errors)
            if status == 0:
                self.assertEqual(printed, OUTLINE)
                self.assertEqual(self.office("export", "store"), text_of([*SETTING_UP, "(child (tue))"]))
            else:
                told += 1
                self.assertEqual((status, printed), (3, ""))
                for said in (errors, other_errors):
                    self.assertRegex(said, "store (is damaged|is not a timetable store|has format)")
                self.assertEqual((os.listdir(self.folder), self.read()), (["store"], bytes(bad)))
        self.assertGreater(told, len(places) // 4)
        print(f"{len(places)} damages: {told} told, the others in bytes that no view and no run depends on")
        for size in (100, 5000, len(good) // 2):
            self.write("store", good[:size])
            self.office("show", "store", "--as", "SHA", status=3, says="store is")
            self.office("run", "store", given="(child (tue))\n", status=3, says="store is")
            self.assertEqual(self.read(), good[:size])

    def test_other_labels(self):
        """Bytes that would be a store too: the check sum tells."""
        self.school()
        good = self.read()
        for old, new in ((b"R12", b"R13"), (b"ill", b"fit"), (b"SHA", b"SHE")):
            self.write("store", good.replace(old, new))
            says = "store is damaged: the stored bytes are not those that were written"
            self.office("export", "store", status=3, says=says)

    def test_damaged_text(self):
        """A byte that is no text in the schema or the log, and a format of the schema that SQLite does not know."""
        self.school()
        good = self.read()
        schema = good.index(b"CREATE TABLE contents")
        for place in [*range(schema - 16, schema + 60), 47]:
            self.write("store", good[:place] + b"\xb6" + good[place + 1 :])
            self.office("show", "store", "--as", "SHA", status=3, says="store is damaged: ")
        place = good.rindex(b"+00:00")
        self.write("store", good[:place] + b"\xb6" + good[place + 1 :])
        self.assertEqual(self.office("show", "store", "--as", "SHA"), OUTLINE)
        self.office("log", "store", status=3, says="store is damaged: Could not decode")

    def test_bytes_that_are_no_store(self):
        """Bytes with a right check sum that the library refuses with 13."""
        self.school()
        with contextlib.closing(sqlite3.connect(self.store)) as connection, connection:
            state, tree = connection.execute("SELECT state, tree FROM contents").fetchone()
            tree = tree[:4] + b"\1" + tree[5:]
            digest = __import__("hashlib").sha256(state + tree).digest()
            connection.execute("UPDATE contents SET tree = ?, digest = ?", (tree, digest))
        self.office("show", "store", "--as", "SHA", status=3, says="refused 13")

    def test_a_read_only_folder(self):
        self.school()
        os.chmod(self.folder, 0o500)
        self.addCleanup(os.chmod, self.folder, 0o700)
        # the account root writes everywhere, unless it gives that up
        before = ["setpriv", "--bounding-set", "-dac_override,-dac_read_search"] if os.getuid() == 0 else []
        with self.unchanged():
            self.office(
                "run",
                "store",
                given="(child (tue))\n",
                before=before,
                status=3,
                says="the file or its folder is read-only; the store is as it was",
            )
            self.office("new", "other", before=before, status=3, says="other cannot be made: Permission denied")
            self.office("publish", "store", "--out", "www", before=before, status=3, says="Permission denied")
            rooms = ["--as", "SHA", "--room", "room", "--out", "doors"]
            self.office("sheets", "store", *rooms, before=before, status=3, says="Permission denied")
            self.office("map", "store", "--out", "map.html", before=before, status=3, says="Permission denied")
            self.assertEqual(self.office("show", "store", "--as", "SHA", before=before), OUTLINE)
            os.chmod(self.store, 0o400)
            self.office("run", "store", given="(child (tue))\n", before=before, status=3, says="read-only")
            self.assertEqual(self.office("show", "store", "--as", "SHA", before=before), OUTLINE)
            os.chmod(self.store, 0o600)

    def test_the_store_of_another_account(self):
        self.school()
        os.chmod(self.store, 0)
        before = ["setpriv", "--bounding-set", "-dac_override,-dac_read_search"] if os.getuid() == 0 else []
        says = "store cannot be read by this account"
        self.office("show", "store", "--as", "SHA", process=True, before=before, status=3, says=says)

    def test_no_room_on_the_disk(self):
        """Files may not grow beyond 40,000 bytes: SQLite's journal does not fit, nor does a new store."""
        self.school(records=3000)

        def small_files():
            resource.setrlimit(resource.RLIMIT_FSIZE, (40_000, 40_000))

        tree = ["(child (day" + " (lesson (room (R12)))" * 40 + "))"] * 10
        before = self.read()
        self.office("run", "store", "-q", given=tree, preexec_fn=small_files, status=3, says="the store is as it was")
        self.office("log", "store")
        self.assertEqual(self.read(), before)
        self.assertEqual(os.listdir(self.folder), ["store"])
        self.office("new", "other", preexec_fn=small_files, status=3, says="other cannot be made: File too large")
        self.assertEqual(os.listdir(self.folder), ["store"])

    @contextlib.contextmanager
    def small_disk(self, kilobytes):
        """A folder on a disk of its own, or nothing where mounting one is not permitted."""
        folder = self.path("disk")
        os.mkdir(folder)
        mount = ["mount", "-t", "tmpfs", "-o", f"size={kilobytes}k", "tmpfs", folder]
        if subprocess.run(mount, stderr=subprocess.DEVNULL).returncode:
            yield None
            return
        self.folder, outside = folder, self.folder
        self.store = self.path("store")
        try:
            yield folder
        finally:
            self.folder = outside
            subprocess.run(["umount", folder], check=True)

    def leave_free(self, kilobytes):
        """Fills the disk, and leaves so much."""
        with contextlib.suppress(FileNotFoundError):
            os.unlink(self.path("filling"))
        there = os.statvfs(self.folder)
        with open(self.path("filling"), "wb") as file:
            file.write(bytes(there.f_bavail * there.f_frsize - 1024 * kilobytes))

    def files(self):
        """Every file below the folder with its bytes, the filling left out."""
        found = {}
        for folder, _, names in os.walk(self.folder):
            for name in names:
                with open(os.path.join(folder, name), "rb") as file:
                    found[os.path.relpath(os.path.join(folder, name), self.folder)] = file.read()
        return {name: data for name, data in found.items() if name != "filling"}

    def test_a_small_disk(self):
        """Each command that writes, with more and more room: it says so and leaves all as it was, or it is done."""
        with self.small_disk(1024) as folder:
            if folder is None:
                print("no disk is mounted here: files that may not grow stand for a full one")
                return
            self.office("new", "empty", "--records", "500", says="an empty store")
            self.office("run", "empty", "-q", given=POLICY)
            self.school(records=1000)
            self.office("publish", "store", "--out", "www", says="2 views")
            week = b"<school>" + b"<mon>10B</mon>" * 240 + b"</school>"
            failed = collections.Counter()
            for words, given in (
                (["run", "store", "-q"], b"(child (tue (lesson (room (R12)))))\n" * 60),
                (["load", "empty", "-"], week),
                (["policy", "store"], text_of(EDITOR).encode()),
                (["publish", "store", "--out", "www"], b""),
                (["sheets", "store", "--as", "editor", *(f"--room=R{k}" for k in range(8)), "--out", "doors"], b""),
                (["map", "store", "--out", "map.html"], b""),
                (["new", "other"], b""),
            ):
                for free in range(0, 1000, 8):
                    self.leave_free(free)
                    before = self.files()
                    status, _, errors = in_this_process(self.folder, words, given)
                    if status == 0:
                        break
                    self.assertEqual((status, self.files()), (3, before), errors)
                    self.assertRegex(errors, "full|No space left")
                    failed[words[0]] += 1
                self.assertEqual(status, 0)
                self.assertNotEqual(self.files(), before)
            self.assertGreaterEqual(min(failed.values()), 2)
            self.assertEqual(len(failed), 7)
            self.leave_free(0)
            with open(self.path("printed"), "wb") as printed:
                says = "the answer cannot be written: No space left"
                self.office("show", "store", "--as", "editor", stdout=printed, status=3, says=says)
        told = ", ".join(f"{command} {count}" for command, count in failed.items())
        print(f"a disk of 1,024 KiB: failed for want of room and left all as it was, then done: {told}")

    def test_writers_at_once(self):
        """Commands that start together: each is done whole, or says that the store is in use."""
        self.office("new", "store", "--records", "9000", says="an empty store")
        self.office("run", "store", "-q", given=[*EDITOR, "(root school)", "(child (day))"])
        done, busy = [], 0
        rounds = max(2, kills // 50)
        for turn in range(rounds):
            started = []
            for number in range(4):
                label = f"w{turn}-{number}"
                wait = "0" if number % 2 else str(SECONDS)
                lines = self.write(label, f"(child ({label}))\n" * 20)
                words = self.command(["run", "-q", "--wait", wait, "store", lines])
                run = subprocess.Popen(words, stderr=subprocess.PIPE, cwd=self.folder, env=self.environment())
                started.append((label, run))
            for number, (label, run) in enumerate(started):
                errors = run.communicate(timeout=2 * SECONDS)[1].decode()
                if run.returncode == 0:
                    done.append(label)
                else:
                    self.assertEqual((run.returncode, number % 2), (3, 1), errors)
                    self.assertIn("store is in use by another command; waited 0 seconds", errors)
                    busy += 1
        labels = collections.Counter(node.label for node in self.stored())
        self.assertEqual(labels, {"school": 1, "day": 1} | {label: 20 for label in done})
        with Store(self.store) as store:
            runs = [entry.lines for entry in store.entries() if entry.form == "child"]
        self.assertEqual(runs, [1] + [20] * len(done))
        self.assertGreaterEqual(len(done), 2 * rounds)
        print(f"{4 * rounds} writers, four at once: {len(done)} done, {busy} told that the store is in use")

    def stored(self):
        with Store(self.store) as store:
            return read_table(store.session(library).table)

    def test_two_writers(self):
        self.school()
        with contextlib.closing(sqlite3.connect(self.store, isolation_level=None)) as other:
            other.execute("BEGIN IMMEDIATE")
            # the file is not read by this process: that would give its lock up
            self.office(
                "run",
                "store",
                "--wait",
                "0.2",
                given="(child (tue))\n",
                process=True,
                status=3,
                says="store is in use by another command; waited 0.2 seconds",
            )
            self.assertEqual(self.office("show", "store", "--as", "SHA", process=True), OUTLINE)
            waiting = subprocess.Popen(
                self.command(["run", "store"]),
                stdin=subprocess.PIPE,
                stdout=subprocess.PIPE,
                cwd=self.folder,
                env=self.environment(),
            )
            waiting.stdin.write(b"(child (tue))\n")
            waiting.stdin.close()
            time.sleep(0.5)
            self.assertIsNone(waiting.poll())
            other.execute("ROLLBACK")
            self.assertEqual((waiting.wait(SECONDS), waiting.stdout.read()), (0, b"(ok)\n"))
            waiting.stdout.close()
        self.assertIn("tue", self.office("show", "store", "--as", "SHA"))

    def kill(self, words, moment, journal):
        """Kills a command: so many seconds after its start, or after SQLite's journal has appeared."""
        streams = {"stdout": subprocess.DEVNULL, "stderr": subprocess.DEVNULL}
        run = subprocess.Popen(self.command(words), **streams, cwd=self.folder, env=self.environment())
        while journal and run.poll() is None and not os.path.exists(self.store + "-journal"):
            time.sleep(0.0005)
        time.sleep(moment)
        run.send_signal(signal.SIGKILL)
        run.wait(SECONDS)

    def nodes_and_runs(self):
        """How many nodes the store has, and how many child lines its log tells of, after it was opened and checked."""
        with Store(self.store) as store:
            lines = sum(entry.lines for entry in store.entries() if entry.form == "child")
            return len(read_table(store.session(library).table)), lines

    def test_killed_runs(self):
        """kill -9 at random moments: the store opens, as it was before the run or as it is after it."""
        rand = random.Random(time.time_ns())
        days, records = 60, 12_000
        remove = ["(user editor)", "(remove //day)"]
        self.office("new", "store", "--records", str(records), says="an empty store")
        self.office("run", "store", "-q", given=[*EDITOR, "(root school)"])
        self.write("work", f"(child (day (lesson (room ({NOTE})))))\n" * days)
        begun = time.monotonic()
        self.office("run", "store", "work", "-q", process=True)
        needed = time.monotonic() - begun
        kept = journals = 0
        for turn in range(kills):
            nodes, lines = self.nodes_and_runs()
            if nodes + 4 * days > records:
                self.office("run", "store", "-q", given=remove)
                nodes = 1
            journal = turn % 2 == 1
            moment = rand.expovariate(250) if journal else rand.uniform(0.3, 1) * needed
            self.kill(["run", "-q", "store", "work"], moment, journal)
            journals += os.path.exists(self.store + "-journal")
            after = self.nodes_and_runs()
            self.assertIn(after, ((nodes, lines), (nodes + 4 * days, lines + days)))
            kept += after[1] > lines
        print(f"{kills} runs killed: {kept} had been done, the others left no mark; {journals} journals seen")
        os.unlink(self.path("work"))
        self.office("run", "store", "-q", given="(child (%s))\n" % NOTE)
        self.assertTrue(self.holds(NOTE.encode()))
        self.office("run", "store", "-q", given=[*remove, "(remove //%s)" % NOTE])
        self.assertEqual(os.listdir(self.folder), ["store"])
        self.assertFalse(self.holds(NOTE.encode()))
        self.assertEqual(self.office("show", "store", "--as", "editor"), "school\n")

    def test_killed_loads(self):
        """The same for the solver's file: the whole tree is there, or no tree."""
        rand = random.Random(time.time_ns())
        self.office("new", "store", "--records", "16384", says="an empty store")
        self.office("run", "store", "-q", given=EDITOR)
        empty = self.read()
        nodes = 16_000
        self.write("week.xml", b"<school>" + b"<mon/>" * (nodes - 1) + b"</school>")
        loads = max(6, kills // 5)
        begun = time.monotonic()
        self.office("load", "store", "week.xml", process=True, says="16,000 nodes")
        needed = time.monotonic() - begun
        kept = journals = 0
        for turn in range(loads):
            for name in glob.glob("store*", root_dir=self.folder):
                os.unlink(self.path(name))
            self.write("store", empty)
            os.chmod(self.store, 0o600)
            journal = turn % 2 == 1
            moment = rand.expovariate(250) if journal else rand.uniform(0.3, 1) * needed
            self.kill(["load", "store", "week.xml"], moment, journal)
            journals += os.path.exists(self.store + "-journal")
            there = len(self.stored())
            self.assertIn(there, (0, nodes))
            kept += there > 0
            if there == 0:
                self.office("load", "store", "week.xml", says="16,000 nodes")
            else:
                self.office("run", "store", "-q", given="(child (tue))\n")
            self.assertEqual(sorted(os.listdir(self.folder)), ["store", "week.xml"])
        print(f"{loads} loads killed: {kept} had been done, the others left no mark; {journals} journals seen")

    def test_interrupted(self):
        self.school()
        os.mkfifo(self.path("lines"))
        before = self.read()
        words = self.command(["run", "store", "lines"])
        # a shell that runs the tests in the background has them ignore it
        listening = {"preexec_fn": lambda: signal.signal(signal.SIGINT, signal.SIG_DFL)}
        run = subprocess.Popen(words, stderr=subprocess.PIPE, cwd=self.folder, env=self.environment(), **listening)
        # it is open as soon as the command reads it
        with open(self.path("lines"), "wb"):
            run.send_signal(signal.SIGINT)
            self.assertIn(b"interrupted; store is as it was", run.communicate(timeout=SECONDS)[1])
        self.assertEqual((run.returncode, self.read()), (130, before))


def main():
    global library_file, library, kills
    parser = argparse.ArgumentParser(description=__doc__)
    parser.add_argument("--kills", type=int, default=kills)
    parser.add_argument("archive", nargs="?", default=ARCHIVE)
    options = parser.parse_args()
    kills = options.kills
    archive = os.path.abspath(options.archive)
    if not os.path.exists(archive):
        sys.exit(f"FAILED: {archive} is missing; `python3 tests/build.py library` makes it")
    with tempfile.TemporaryDirectory() as folder:
        library_file = os.environ["TIMETABLE_LIBRARY"] = make_library(folder, archive)
        library = Library(library_file)
        done = unittest.main(argv=sys.argv[:1], exit=False, verbosity=1).result
    sys.exit(0 if done.wasSuccessful() else 1)


if __name__ == "__main__":
    main()
