#!/usr/bin/env python3
"""pages.py [ARCHIVE] [--kills N] [--browser] [--pictures DIR]: tests of the pages for readers and of how they are
published.

The library is made from the archive, target/staticlib/liblouvretansy.a unless another is named. Needs gcc. --kills says
how many publications are killed (40). With --browser the pages are also opened in headless Chromium and checked by tidy
(Debian's chromium and tidy); --pictures keeps the pictures that are taken there.
"""

import argparse
import base64
import contextlib
import csv
import errno
import fcntl
import functools
import hashlib
import io
import itertools
import json
import os
import random
import re
import resource
import shutil
import signal
import stat
import subprocess
import sys
import tempfile
import time
import unittest
from datetime import datetime
from html.parser import HTMLParser
from pathlib import Path
from unittest import mock

sys.path.insert(0, os.path.dirname(os.path.abspath(__file__)))
import timetable  # noqa: E402
import week  # noqa: E402
from office import ARCHIVE, COLUMNS, OFFICE, SECONDS, in_this_process, make_library  # noqa: E402

from timetable_office import folders, publish  # noqa: E402
from timetable_office.decisions import Decider  # noqa: E402
from timetable_office.errors import OutputError  # noqa: E402
from timetable_office.folders import file_stem  # noqa: E402
from timetable_office.library import Library  # noqa: E402
from timetable_office.maps import Foot, map_page  # noqa: E402
from timetable_office.pages import Publication, Row, index, lesson_level, page, view_html  # noqa: E402
from timetable_office.places import node_paths  # noqa: E402
from timetable_office.publish import publish_views  # noqa: E402
from timetable_office.state import read_policy  # noqa: E402
from timetable_office.store import Store  # noqa: E402
from timetable_office.tree import RESTRICTED, Node, read_table, read_view  # noqa: E402
from timetable_office.views import view_of  # noqa: E402

KILLS = 40
POLICY = timetable.EXAMPLE[:7]
EXAMPLE = timetable.EXAMPLE[:9]
PUBLICATION = Publication(datetime(2026, 11, 16, 7, 5, 9), "0123456789ab")
MARK = "ba9876543210"
VOID = {"meta", "input", "link", "br", "hr", "img"}
HEADINGS = {"h1": 0, "h2": 1, "h3": 2}
LABEL_BYTES = "abcxyzABCXYZ0189-_."

library: Library
kills = KILLS
pictures = None


def nodes_of(text):
    """The nodes of a tree that is written `(label tree ...)`."""
    level = -1
    nodes = []
    for part in re.findall(r"\([^ ()]+|\)", text):
        if part == ")":
            level -= 1
        else:
            level += 1
            nodes.append(Node(level, part[1:]))
    return nodes


def week_nodes(lessons=20, seed=1):
    """A week of five days with eight periods, and so many lessons in each."""
    rand = random.Random(seed)
    nodes = [Node(0, "school")]
    for day in ("mon", "tue", "wed", "thu", "fri"):
        nodes.append(Node(1, day))
        for period in range(1, 9):
            nodes.append(Node(2, f"p{period}"))
            for number in range(lessons):
                fields = [("class", f"{7 + number // 4}{'ABCD'[number % 4]}"), ("room", f"R{rand.randint(1, 40)}")]
                fields.append(("teacher", rand.choice(["SHA", "MEI", "WBE", "KLO", "TRI", "PEM"])))
                if rand.random() < 0.15:
                    fields.append(("note", RESTRICTED))
                nodes.append(Node(3, "lesson"))
                nodes += [node for name, value in fields for node in (Node(4, name), Node(5, value))]
    return nodes


def solver_nodes():
    """The week of 24 classes that tests/week.py writes, notes shown as RESTRICTED."""

    def walk(tree, level, above):
        yield Node(level, RESTRICTED if above == "note" else tree[0])
        for child in tree[1]:
            yield from walk(child, level + 1, tree[0])

    return list(walk(week.week(), 0, ""))


def random_nodes(rand, deepest, most):
    """A tree of random labels, no deeper than a level."""
    nodes = [Node(0, "school")]
    for _ in range(rand.randint(0, most)):
        label = RESTRICTED if rand.random() < 0.1 else rand.choice(["mon", "p1", "lesson", "class", "10B", "a.b", "-"])
        nodes.append(Node(rand.randint(1, min(nodes[-1].level + 1, deepest)), label))
    return nodes


class Page(HTMLParser):
    """A page read back: the nodes in `main`, and what else a test asks for. Every tag has to be closed in its order."""

    def __init__(self, text):
        super().__init__(convert_charrefs=True)
        self.stack, self.tags, self.found, self.texts = [], [], [], {}
        self.feed(text)
        self.close()
        assert not self.stack, self.stack
        periods = any(tag == "h3" for tag, _ in self.tags)
        self.kind = dict(self.attributes("body")[0])["class"]
        base = 0 if self.kind == "outline" else 2 if periods else 1
        self.nodes = [
            Node(HEADINGS[inner] if inner in HEADINGS else base + lists + bold, label)
            for inner, lists, bold, label in self.found
        ]

    def attributes(self, wanted):
        return [attributes for tag, attributes in self.tags if tag == wanted]

    def text(self, tag):
        return " ".join("".join(self.texts.get(tag, [])).split())

    def handle_starttag(self, tag, attributes):
        self.tags.append((tag, attributes))
        if tag not in VOID:
            self.stack.append((tag, dict(attributes)))

    def handle_endtag(self, tag):
        assert self.stack and self.stack[-1][0] == tag, (tag, self.stack)
        self.stack.pop()

    def handle_data(self, data):
        open_tags = [tag for tag, _ in self.stack]
        for tag in set(open_tags):
            self.texts.setdefault(tag, []).append(data)
        if "main" in open_tags and data.strip():
            restricted = self.stack[-1][1].get("class") == "restricted"
            assert restricted == (data == RESTRICTED), data
            inner = open_tags[-2] if restricted else open_tags[-1]
            self.found.append((inner, open_tags.count("ul"), "b" in open_tags, data))


class Pages(unittest.TestCase):
    def check(self, nodes, name="SHA"):
        """The page holds these nodes and no others, in their order."""
        read = Page(page(name, nodes, MARK, PUBLICATION))
        self.assertEqual(read.text("main").split(), [node.label for node in nodes])
        self.assertEqual(read.nodes, nodes)
        return read

    def test_the_example(self):
        session = store_of(EXAMPLE)
        answer = view_of(session, "SHA")
        read = Page(view_html("SHA", answer, PUBLICATION))
        self.assertEqual(read.nodes, read_view(answer))
        self.assertEqual(read.text("main"), "school mon lesson class 10B room R12 note RESTRICTED")
        self.assertEqual(read.text("title"), "Timetable for SHA")
        mark = hashlib.sha256(answer).hexdigest()[:12]
        restricted = "RESTRICTED stands where something is that SHA may not read."
        shown = f"Shown to SHA: 9 nodes, view {mark}."
        published = "Published 16 November 2026, 07:05:09 UTC, publication 0123456789ab."
        self.assertEqual(read.text("footer"), f"{restricted} {shown} {published}")

    def test_every_tree(self):
        self.assertEqual(self.check(week_nodes()).kind, "week")
        self.check([Node(0, "school")])
        rand = random.Random(20)
        kinds = set()
        for _ in range(600):
            kinds.add(self.check(random_nodes(rand, rand.choice([4, 5, 5, 6, 11]), rand.choice([3, 8, 60]))).kind)
        self.assertEqual(kinds, {"outline", "list", "columns", "week"})

    def test_the_shape(self):
        """Timetables, with the level of their lessons, and what is next to them and is none."""
        for level, text in (
            (2, "(school (mon (lesson (class (10B)) (room (R12)) (note (RESTRICTED)))))"),
            (3, "(school (mon (p1 (lesson (class (10B))))))"),
            (2, "(school (mon (lesson (class (10B)))) (tue))"),
            (3, "(school (mon (p1 (lesson (class (10B)))) (p2)) (tue))"),
            (2, "(school (mon (lesson (class (10B) (10C)) (note)) (lesson)))"),
            (2, "(a (b (c (d (e)))))"),
            (3, "(school (mon (p1 (R12 (10B) (lesson (class (10B) (x)) (n)))) (p2)) (tue (p1) (p2 (R3 (a (b (c)))))))"),
            (3, "(school (mon (p1 (R12 (10B-maths))) (p2)) (tue (p1) (p2)))"),
            (None, "(school (mon (p1 (R12)) (p2)) (tue (p1) (p2)))"),
            (None, "(school (mon (p1 (R12 (10B) (lesson (class (10B))))) (p2)) (tue (p2) (p1)))"),
            (None, "(school (mon (p1 (R12 (10B) (lesson (class (10B))))) (p1)) (tue (p1) (p1)))"),
            (None, "(school (mon (p1 (R12 (10B) (lesson (class (10B)))))) (tue (p1)))"),
            (None, "(school (mon (p1 (R12 (10B) (lesson (class (10B))))) (p2)))"),
            (None, "(school (mon (p1 (R12 (10B) (lesson (class (10B))))) (p2)) (tue))"),
            (None, "(school)"),
            (None, "(school (mon (lesson (class))))"),
            (None, "(school (mon (p1 (lesson (class (10B (x)))))))"),
            (None, "(school (mon (lesson (class (10B))) (lesson (room))))"),
            (None, "(school (mon (p1 (lesson (class (10B))))) (tue (lesson (class (10B)))))"),
            (None, "(school (mon (p1 (lesson (class (10B))) (lesson (class)))))"),
        ):
            nodes = nodes_of(text)
            self.assertEqual(lesson_level(nodes), level, text)
            self.assertEqual(self.check(nodes).kind == "outline", level is None)
        self.assertIsNone(lesson_level([]))

    def test_the_solvers_week(self):
        """A grid of days and periods, with the words of rooms and lessons set apart, for whoever sees all or less."""
        nodes = solver_nodes()
        self.assertGreater(len(nodes), 6_000)
        for seen in (nodes, [node for node in nodes if node.level <= 4 and node.label != "lesson"]):
            read = self.check(seen)
            self.assertEqual((lesson_level(seen), read.kind), (3, "week"))
        texts = page("SHA", nodes, MARK).count('<li class="text">')
        self.assertEqual(texts, sum(node.label == "lesson" for node in nodes))

    def test_the_layout(self):
        lesson, empty = "(p1 (lesson (class (10B))))", "(p1)"
        for kind, days in (
            ("list", [f"(mon {lesson})"]),
            ("week", [f"(mon {lesson})", f"(tue {empty})"]),
            ("list", [f"(mon {lesson})", "(tue)"]),
            ("list", [f"(mon {lesson} (p2))", "(tue (p2) (p1))"]),
            ("week", [f"(d{k} {lesson})" for k in range(7)]),
            ("list", [f"(d{k} {lesson})" for k in range(8)]),
            ("columns", ["(mon (lesson (class (10B))))", "(tue)"]),
        ):
            self.assertEqual(self.check(nodes_of(f"(school {' '.join(days)})")).kind, kind, days)
        text = page("SHA", nodes_of(f"(school (mon {lesson} (p2)) (tue {empty} (p2)))"), MARK)
        self.assertIn(":root { --rows: 3; }", text)

    def test_restricted(self):
        for text, count in (("(RESTRICTED (RESTRICTED (RESTRICTED (RESTRICTED (RESTRICTED)))))", 5), ("(a (b))", 0)):
            read = self.check(nodes_of(text))
            shown = [one for one in read.attributes("span") if ("class", "restricted") in one]
            # the others are in the foot, to say what it means, and among the links to days
            self.assertEqual(len(shown), count + (1 if count else 0))
            self.assertEqual("may not read" in read.text("footer"), count > 0)
        rule = re.search(r"\.restricted \{([^}]*)\}", Path(OFFICE, "timetable_office", "page.css").read_text())[1]
        self.assertIn("border: 1px dashed", rule)
        self.assertIn("font-style: italic", rule)

    def test_nothing_shown(self):
        read = Page(page("SHA", [], MARK, PUBLICATION))
        self.assertEqual(read.text("main"), "Nothing is shown to SHA.")
        self.assertIn("Shown to SHA: 0 nodes", read.text("footer"))
        self.assertEqual(read.attributes("form") + read.attributes("script"), [])

    def test_escaping(self):
        """Labels cannot have such bytes; if they could, they would still be text."""
        for bad in ("<script>alert(1)</script>", "</main></style>", '"><img/src=x', "&amp;", "'&lt;", "<!--", "]]>"):
            shapes = ["({} ({} ({} ({} ({})))))", "({} ({} ({} ({} ({} ({}))))))", "({} ({} ({})))"]
            for nodes in map(nodes_of, shapes):
                nodes = [Node(node.level, bad) for node in nodes]
                read = self.check(nodes, name=bad)
                self.assertEqual(len(read.attributes("script")), 1)
                self.assertEqual(read.attributes("img"), [])
                self.assertEqual(read.text("title"), " ".join(f"Timetable for {bad}".split()))
            row = Row(bad, bad, bad, bad)
            self.assertEqual(dict(Page(index([row], PUBLICATION)).attributes("a")[0])["href"], bad)

    def test_by_itself(self):
        """A page needs nothing from outside: no file, no address, no style or script but its own."""
        for nodes in (week_nodes(1), nodes_of("(a (b))"), []):
            text = page("SHA", nodes, MARK, PUBLICATION)
            self.assertEqual(re.findall(r"https?:|//[a-z]|@import|url\(|\bsrc=|<link", text), [])
            read = Page(text)
            hrefs = [value for _, attributes in read.tags for key, value in attributes if key == "href"]
            self.assertTrue(all(re.fullmatch(r"#day-[0-9]+", href) for href in hrefs))
            ids = [value for _, attributes in read.tags for key, value in attributes if key == "id"]
            self.assertEqual(len(ids), len(set(ids)))
            self.assertLessEqual({href[1:] for href in hrefs}, set(ids))
            (allowed,) = [dict(one)["content"] for one in read.attributes("meta") if "Policy" in str(one)]
            for tag in ("style", "script") if nodes else ("style",):
                digest = hashlib.sha256("".join(read.texts[tag]).encode()).digest()
                self.assertIn(f"{tag}-src 'sha256-{base64.b64encode(digest).decode()}'", allowed)
            self.assertIn("default-src 'none'", allowed)
            # without JavaScript there is no filter box
            self.assertTrue(all(("hidden", None) in one for one in read.attributes("form")))
            self.assertEqual([one for one in read.tags if any(key.startswith("on") for key, _ in one[1])], [])
            text.encode("ascii")

    def test_the_view_alone(self):
        """Two stores that differ in what SHA is not shown, and in nothing else, give SHA the same files."""
        made = []
        for hidden in ("ill", "on-leave-till-easter"):
            session = store_of([*POLICY, "(root school)", f"(child (mon (lesson (note ({hidden})))))"])
            answer = view_of(session, "SHA")
            files = {}
            with tempfile.TemporaryDirectory() as folder, mock.patch.object(publish, "Publication") as drawn:
                drawn.return_value = PUBLICATION
                publish_views(lambda: session, ["SHA"], os.path.join(folder, "www"), 0)
                for path in Path(folder, "www").iterdir():
                    files[path.name] = path.read_bytes()
            made.append((session.table, answer, files))
        self.assertNotEqual(made[0][0], made[1][0])
        self.assertEqual(made[0][1:], made[1][1:])

    def test_the_index(self):
        rows = [row_of(name) for name in ("a", "B")]
        read = Page(index(rows, PUBLICATION))
        hrefs = [dict(one)["href"] for one in read.attributes("a")]
        self.assertEqual(hrefs, [file for row in rows for file in row[1:]])
        self.assertEqual(read.text("tbody"), "a HTML CSV JSON B HTML CSV JSON")

    def test_the_sources(self):
        for name in ("page.css", "page.js"):
            text = Path(OFFICE, "timetable_office", name).read_text("ascii")
            self.assertLessEqual(max(map(len, text.split("\n"))), COLUMNS, name)
            self.assertIn(f'"{name}"', Path(OFFICE, "pyproject.toml").read_text())


def row_of(name):
    """The row of a reader in the index."""
    return Row(name, *(file_stem("view", name) + ending for ending in (".html", ".csv", ".json")))


def mark_of(text):
    """The mark of the publication that a page is of."""
    return re.search(r"publication <code>([0-9a-f]{12})</code>", text)[1]


def store_of(lines, records=64):
    """A session that was given these lines."""
    session = library.session(records)
    for line in lines:
        session.line(line.encode())
    return session


class Publishing(unittest.TestCase):
    def setUp(self):
        self.folder = os.path.realpath(tempfile.mkdtemp())
        self.addCleanup(shutil.rmtree, self.folder)
        self.out = os.path.join(self.folder, "www")

    def office(self, *words, given="", status=0, says=""):
        """Runs a command in this process, from the test's own folder."""
        ended, printed, errors = in_this_process(self.folder, words, given.encode())
        self.assertEqual(ended, status, errors)
        self.assertIn(says, errors)
        return printed

    def store(self, lines=EXAMPLE):
        self.office("new", "store", "--records", "64")
        self.office("run", "-q", "store", given="".join(line + "\n" for line in lines))

    def files(self, folder=None):
        """Every file below a folder, with its bytes."""
        top = Path(folder or self.folder)
        return {str(path.relative_to(top)): path.read_bytes() for path in sorted(top.rglob("*")) if path.is_file()}

    def whole(self):
        """The readers of the folder, which is one whole publication, and its mark."""
        files = {name: data.decode("ascii") for name, data in self.files(self.out).items()}
        read = Page(files["index.html"])
        links = [dict(one)["href"] for one in read.attributes("a")]
        self.assertEqual(sorted(files), sorted(["index.html", *links]))
        marks = {mark_of(text) for name, text in files.items() if name.endswith(".html")}
        self.assertEqual(len(marks), 1)
        views = {}
        for html, rows, data in zip(*[iter(links)] * 3):
            nodes = Page(files[html]).nodes
            views[json.loads(files[data])["reader"]] = nodes
            labels = [row["label"] for row in csv.DictReader(io.StringIO(files[rows]))]
            self.assertEqual(labels, [node.label for node in nodes])
            self.assertEqual(json.loads(files[data])["shown"], len(nodes))
        return views, marks.pop()

    def test_every_view(self):
        self.store()
        self.office("publish", "store", "--out", "www", says="www: 2 views of store\n")
        for name, nodes in self.whole()[0].items():
            self.assertEqual(nodes, read_view(self.office("show", "store", "--as", name, "--format", "lines").encode()))
            stem = os.path.join(self.out, file_stem("view", name))
            shown = self.office("show", "store", "--as", name, "--format", "csv")
            self.assertEqual(Path(f"{stem}.csv").read_text(), shown)
            shown = self.office("show", "store", "--as", name, "--format", "json")
            self.assertEqual(json.loads(Path(f"{stem}.json").read_text()), json.loads(shown))
            shown = Page(self.office("show", "store", "--as", name, "--format", "html"))
            self.assertEqual(shown.nodes, nodes)
            self.assertIn(shown.text("footer").removesuffix("."), Page(Path(f"{stem}.html").read_text()).text("footer"))
        self.assertEqual(sorted(os.listdir(self.folder)), ["store", "www"])

    def test_again(self):
        self.store()
        self.office("publish", "store", "--out", "www")
        os.chmod(self.out, 0o2751)
        before = self.whole()
        printed = self.office("publish", "store", "--out", "www", "--as", "SHA", "--json", says="view-staff.csv")
        told = json.loads(printed)
        views, mark = self.whole()
        self.assertEqual((list(views), mark), (["SHA"], told["publication"]))
        self.assertEqual(views["SHA"], before[0]["SHA"])
        self.assertNotEqual(mark, before[1])
        self.assertEqual(stat.S_IMODE(os.stat(self.out).st_mode), 0o2751)
        self.assertEqual(told["readers"][0]["files"], ["view-SHA~7.html", "view-SHA~7.csv", "view-SHA~7.json"])
        with Store(os.path.join(self.folder, "store")) as store:
            self.assertEqual(told["store"], store.read().digest().hex())
        self.assertEqual(told["dropped"], ["view-staff.csv", "view-staff.html", "view-staff.json"])
        self.office("publish", "--out", "www/", "--as", "SHA", "--as", "Staff", "--as", "sha", "store")
        self.assertEqual(list(self.whole()[0]), ["staff", "SHA"])
        self.assertEqual(sorted(os.listdir(self.folder)), ["store", "www"])

    def test_nothing_to_publish(self):
        self.store()
        for _ in range(2):
            before = self.files()
            self.office("publish", "store", "--out", "www", "--as", "staff", "--as", "sah", status=1, says="SHA?")
            self.office("publish", "store", "--out", "www", "--as", "wbe", status=1, says="nothing is published")
            self.office("publish", "store", "--out", "www", "--as", "../x", status=1, says="cannot be a name")
            self.office("publish", "store", status=2, says="--out")
            self.assertEqual(self.files(), before)
            self.office("publish", "store", "--out", "www")
        self.office("new", "empty", "--records", "8")
        self.office("publish", "empty", "--out", "other", status=1, says="no subject")
        self.office("run", "empty", given="(subject SHA)\n")
        self.office("publish", "empty", "--out", "other", status=1, says="no tree yet")
        self.assertFalse(os.path.exists(os.path.join(self.folder, "other")))

    def test_shown_nothing(self):
        self.store(["(subject nobody)", "(root school)"])
        self.office("publish", "store", "--out", "www", says="nobody is shown nothing")
        self.assertIn("Nothing is shown to nobody.", Path(self.out, "view-nobody.html").read_text())

    def test_file_names(self):
        names = [".", "..", "INDEX", "con", "nul.html", "-x", "a.php", "a.", "SHA", "s-ha"]
        names += ["_", "a_b", "A" * 24, "a" * 23, "x.gz", "7"]
        self.store([*(f"(subject {name})" for name in names), "(root school)"])
        self.office("publish", "store", "--out", "www")
        stems = {file_stem("view", name) for name in names}
        files = os.listdir(self.out)
        self.assertEqual(len({file.lower() for file in files}), 1 + 3 * len(names))
        self.assertEqual({file.rpartition(".")[0] for file in files}, stems | {"index"})
        for name in names:
            self.assertEqual(json.loads(Path(self.out, file_stem("view", name) + ".json").read_text())["reader"], name)
        rand = random.Random(24)
        short = ["".join(letters) for size in (1, 2) for letters in itertools.product(LABEL_BYTES, repeat=size)]
        long = ["".join(rand.choices(LABEL_BYTES, k=rand.randint(3, 24))) for _ in range(20000)]
        tried = {*short, *long}
        self.assertEqual(len({file_stem("view", name).lower() for name in tried}), len(tried))
        for name in tried:
            self.assertRegex(file_stem("view", name), r"\Aview-[A-Za-z0-9,_~-]{1,31}\Z")
            self.assertTrue(publish._NAMES.fullmatch(file_stem("view", name) + ".csv"), name)
        for name in ("", "a/b", "a b", "x" * 25, "a\n", "\u00e9"):
            self.assertRaises(ValueError, file_stem, "view", name)

    def test_what_is_in_the_way(self):
        self.store()
        outside = Path(self.folder, "other")
        for name, text in (("notes.txt", "mine"), ("index.html", "<!DOCTYPE html>mine"), ("view-x.html", "mine")):
            outside.mkdir()
            (outside / name).write_text(text)
            before = self.files()
            self.office("publish", "store", "--out", "other", status=3, says=f"such as {name}")
            self.assertEqual(self.files(), before)
            shutil.rmtree(outside)
        self.office("publish", "store", "--out", "www")
        os.mkdir(os.path.join(self.out, "view-x.csv"))
        self.office("publish", "store", "--out", "www", status=3, says="such as view-x.csv")
        os.rmdir(os.path.join(self.out, "view-x.csv"))
        os.symlink("/etc/passwd", os.path.join(self.out, "view-x.csv"))
        self.office("publish", "store", "--out", "www", status=3, says="such as view-x.csv")
        os.unlink(os.path.join(self.out, "view-x.csv"))
        before = self.files()
        self.office("publish", "store", "--out", "store", status=3, says="is not a folder")
        self.office("publish", "store", "--out", "no/www", status=3, says="there is no folder")
        self.office("publish", "store", "--out", "/", status=3, says="cannot be made")
        self.office("publish", "store", "--out", ".", status=3, says="such as store")
        os.symlink("/nowhere", os.path.join(self.folder, ".www.publishing"))
        self.office("publish", "store", "--out", "www", status=3, says="is in the way")
        os.unlink(os.path.join(self.folder, ".www.publishing"))
        self.assertEqual(self.files(), before)
        self.assertEqual(sorted(os.listdir(self.folder)), ["store", "www"])

    def test_an_empty_folder_and_a_link(self):
        self.store()
        os.mkdir(self.out, 0o750)
        self.office("publish", "store", "--out", "www")
        self.assertEqual(stat.S_IMODE(os.stat(self.out).st_mode), 0o750)
        os.symlink("www", os.path.join(self.folder, "link"))
        mark = self.whole()[1]
        self.office("publish", "store", "--out", "link")
        self.assertTrue(os.path.islink(os.path.join(self.folder, "link")))
        self.assertNotEqual(self.whole()[1], mark)

    def test_a_full_disk(self):
        """A file that cannot grow stands for it: writing fails in the midst of the pages."""
        self.store()
        for _ in range(2):
            before = self.files()
            with self.file_size(6000):
                self.office("publish", "store", "--out", "www", status=3, says="as it was, and nothing is published")
            self.assertEqual(self.files(), before)
            self.assertNotIn(".www.publishing", os.listdir(self.folder))
            self.office("publish", "store", "--out", "www")
        for step in ("fsync", "chmod", "rename"):
            failing = mock.patch.object(os, step, side_effect=OSError(errno.ENOSPC, "No space left on device"))
            before = self.files()
            with failing:
                self.office("publish", "store", "--out", "www", status=3, says="nothing is published: No space left")
            self.assertEqual(self.files(), before)

    @contextlib.contextmanager
    def file_size(self, limit):
        was = resource.getrlimit(resource.RLIMIT_FSIZE)
        resource.setrlimit(resource.RLIMIT_FSIZE, (limit, was[1]))
        try:
            yield
        finally:
            resource.setrlimit(resource.RLIMIT_FSIZE, was)

    def test_no_exchange(self):
        """A file system that cannot exchange folders takes the first publication and keeps it."""
        session = store_of(EXAMPLE)
        function = mock.Mock(side_effect=lambda *_: folders.ctypes.set_errno(errno.EINVAL) or -1)
        with mock.patch.object(folders.ctypes, "CDLL", return_value=mock.Mock(renameat2=function)):
            publish_views(lambda: session, [], self.out, 0)
            function.assert_not_called()
            before = self.files()
            with self.assertRaisesRegex(OutputError, "as it was.*cannot exchange two folders in one step"):
                publish_views(lambda: session, [], self.out, 0)
            function.assert_called_once()
        self.assertEqual(self.files(), before)
        self.assertEqual(os.listdir(self.folder), ["www"])

    def test_the_old_pages_cannot_go(self):
        self.store()
        self.office("publish", "store", "--out", "www")
        mark = self.whole()[1]
        exchange = folders.exchange

        def exchange_with_more(new, old):
            Path(old, "mine.txt").write_text("mine")
            exchange(new, old)

        with mock.patch.object(folders, "exchange", exchange_with_more):
            self.office("publish", "store", "--out", "www", status=3, says="has all new files, but the old ones are")
        self.assertNotEqual(self.whole()[1], mark)
        kept = Path(self.folder, ".www.publishing", "pages", "mine.txt")
        self.assertEqual(kept.read_text(), "mine")
        self.office("publish", "store", "--out", "www", status=3, says="is what an earlier run left")
        kept.unlink()
        self.office("publish", "store", "--out", "www")
        self.assertEqual(sorted(os.listdir(self.folder)), ["store", "www"])

    def test_two_at_once(self):
        self.store()
        self.office("publish", "store", "--out", "www")
        work = Path(self.folder, ".www.publishing")
        work.mkdir(0o700)
        with (work / "lock").open("w") as held:
            fcntl.flock(held, fcntl.LOCK_EX)
            before = self.files()
            self.office("publish", "store", "--out", "www", "--wait", "0.1", status=3, says="command; waited 0.1")
            self.assertEqual(self.files(), before)
        self.office("publish", "store", "--out", "www")
        session = store_of(EXAMPLE)
        ten_times = lambda: [publish_views(lambda: session, [], self.out, SECONDS) for _ in range(10)]  # noqa: E731
        many = [self.fork(ten_times) for _ in range(4)]
        self.assertEqual([os.waitpid(child, 0)[1] for child in many], [0] * 4)
        self.whole()
        self.assertEqual(sorted(os.listdir(self.folder)), ["store", "www"])

    def test_the_newest_state(self):
        """A publication that has to wait reads the store after it has waited."""
        self.store()
        work = Path(self.folder, ".www.publishing")
        work.mkdir(0o700)
        with (work / "lock").open("w") as held:
            fcntl.flock(held, fcntl.LOCK_EX)
            words = [
                sys.executable,
                "-m",
                "timetable_office",
                "publish",
                "store",
                "--out",
                "www",
                "--wait",
                str(SECONDS),
            ]
            environment = {**os.environ, "PYTHONPATH": OFFICE}
            waiting = subprocess.Popen(words, cwd=self.folder, env=environment, stderr=subprocess.PIPE)
            time.sleep(1)
            self.office("run", "-q", "store", given="(user SHA)\n(update //room R99)\n")
        self.assertEqual((waiting.communicate()[1], waiting.returncode), (b"www: 2 views of store\n", 0))
        self.assertIn(Node(4, "R99"), self.whole()[0]["SHA"])

    def fork(self, work):
        child = os.fork()
        if child == 0:
            status = 1
            try:
                work()
                status = 0
            finally:
                os._exit(status)
        return child

    def test_always_there(self):
        """While pages are published again and again, a reader finds the folder at every moment."""
        session = store_of(EXAMPLE)
        publish_views(lambda: session, [], self.out, SECONDS)
        child = self.fork(lambda: [publish_views(lambda: session, [], self.out, SECONDS) for _ in range(30)])
        marks = set()
        while os.waitpid(child, os.WNOHANG) == (0, 0):
            text = Path(self.out, "index.html").read_text()
            marks.add(mark_of(text))
        self.assertGreater(len(marks), 10)

    def test_killed(self):
        """Publications of two stores in turn, each killed at some moment: the folder is the whole of one of them."""
        both = []
        names = ["S1", "S2", "S3", "S4"]
        for day in ("mon", "tue"):
            readers = [f"(subject {name})" for name in names]
            rules = [f"(rule accept read //* {name})" for name in names]
            lesson = "(lesson (class (10B)) (room (R12)))"
            child = f"(child ({day} {' '.join([lesson] * 8)}))"
            both.append(store_of([*readers, *rules, "(root school)", child], records=128))
        wanted = [{name: read_view(view_of(one, name)) for name in names} for one in both]
        begun = time.monotonic()
        for turn in (0, 1, 0, 1):
            os.waitpid(self.fork(functools.partial(publish_views, lambda: both[turn], [], self.out, SECONDS)), 0)
        needed = (time.monotonic() - begun) / 4
        rand = random.Random(9)
        held = 1
        done = killed = left = 0
        for turn in range(kills):
            child = self.fork(functools.partial(publish_views, lambda: both[turn % 2], [], self.out, SECONDS))
            time.sleep(rand.uniform(0, 1.5) * needed)
            os.kill(child, signal.SIGKILL)
            ended = os.waitpid(child, 0)[1]
            self.assertIn(ended, (0, signal.SIGKILL))
            killed += ended != 0
            # about half of them end before they are killed, however busy the machine is
            needed *= 0.9 if ended == 0 else 1.1
            left += os.path.exists(os.path.join(self.folder, ".www.publishing"))
            views = self.whole()[0]
            self.assertIn(views, (wanted[held], wanted[turn % 2]))
            done += views == wanted[turn % 2] != wanted[held]
            held = wanted.index(views)
        print(f"{kills} publications, {killed} killed: {done} had put new pages in place, {left} left a folder behind")
        self.assertGreater(killed, kills // 5)
        publish_views(lambda: both[0], [], self.out, SECONDS)
        self.assertEqual(self.whole()[0], wanted[0])
        self.assertEqual(os.listdir(self.folder), ["www"])

    def test_another_error_inside(self):
        self.store()
        with mock.patch.object(publish, "view_json", side_effect=KeyboardInterrupt):
            self.office("publish", "store", "--out", "www", status=130, says="interrupted")
        self.assertEqual(os.listdir(self.folder), ["store"])
        self.assertRaises(OutputError, publish_views, lambda: store_of(EXAMPLE), [], "/proc/www", 0)


class Browser:
    """Headless Chromium with one page, spoken to over a pipe."""

    def __init__(self):
        self.profile = tempfile.mkdtemp()
        read, self.to = os.pipe()
        self.come, write = os.pipe()
        words = ["chromium", "--headless", "--no-sandbox", "--disable-gpu", "--remote-debugging-pipe"]
        words += ["--no-first-run", "--hide-scrollbars", f"--user-data-dir={self.profile}", "about:blank"]
        # Chromium reads from file 3 and writes to file 4
        script = f'exec 3<&{read} 4>&{write}; exec "$@"'
        shell = ["bash", "-c", script, "bash", *words]
        self.process = subprocess.Popen(
            shell, pass_fds=(read, write), stdout=subprocess.DEVNULL, stderr=subprocess.DEVNULL
        )
        os.close(read)
        os.close(write)
        self.rest = b""
        self.number = 0
        self.session = None
        self.events = []
        target = self.ask("Target.createTarget", url="about:blank")["targetId"]
        self.session = self.ask("Target.attachToTarget", targetId=target, flatten=True)["sessionId"]
        for domain in ("Page", "Runtime", "Log", "Network"):
            self.ask(f"{domain}.enable")

    def close(self):
        self.process.kill()
        self.process.wait()
        os.close(self.to)
        os.close(self.come)
        shutil.rmtree(self.profile, ignore_errors=True)

    def message(self):
        while b"\0" not in self.rest:
            data = os.read(self.come, 1 << 16)
            if not data:
                raise EOFError("Chromium has ended")
            self.rest += data
        text, _, self.rest = self.rest.partition(b"\0")
        return json.loads(text)

    def ask(self, method, **parameters):
        self.number += 1
        asked = {"id": self.number, "method": method, "params": parameters}
        if self.session:
            asked["sessionId"] = self.session
        data = json.dumps(asked).encode() + b"\0"
        while data:
            data = data[os.write(self.to, data) :]
        while True:
            got = self.message()
            if got.get("id") == self.number:
                if "error" in got:
                    raise RuntimeError(got["error"])
                return got["result"]
            self.events.append(got)

    def run(self, script):
        got = self.ask("Runtime.evaluate", expression=script, returnByValue=True)
        if "exceptionDetails" in got:
            raise RuntimeError(got["exceptionDetails"])
        return got["result"].get("value")

    def open(self, path, width, height, fragment=""):
        """Opens a file. What it asks for over the network, and every complaint of the browser, is in `events`."""
        phone = width < 600
        self.ask("Emulation.setDeviceMetricsOverride", width=width, height=height, deviceScaleFactor=1, mobile=phone)
        self.ask("Page.navigate", url="about:blank")
        self.events = []
        self.ask("Page.navigate", url=Path(path).as_uri() + fragment)
        while self.run("document.readyState") != "complete" or self.run("location.href") == "about:blank":
            time.sleep(0.02)

    def complaints(self):
        """Addresses that were asked for, other than files, and what the browser has logged."""
        asked, logged = [], []
        for event in self.events:
            if event["method"] == "Network.requestWillBeSent":
                asked.append(event["params"]["request"]["url"])
            elif event["method"] in ("Log.entryAdded", "Runtime.exceptionThrown"):
                logged.append(event["params"])
        return [url for url in asked if not url.startswith("file:")], logged

    def words(self):
        """The words that are to be seen in `main`."""
        return self.run("document.querySelector('main').innerText").split()

    def picture(self, name):
        if pictures:
            data = self.ask("Page.captureScreenshot", format="png")["data"]
            Path(pictures, name).write_bytes(base64.b64decode(data))


class InTheBrowser(unittest.TestCase):
    @classmethod
    def setUpClass(cls):
        cls.browser = Browser()
        cls.addClassCleanup(cls.browser.close)

    def setUp(self):
        self.folder = tempfile.mkdtemp()
        self.addCleanup(shutil.rmtree, self.folder)

    def write(self, nodes, name="page.html"):
        path = os.path.join(self.folder, name)
        Path(path).write_text(page("SHA", nodes, MARK, PUBLICATION))
        return path

    def samples(self):
        rand = random.Random(4)
        yield "example", read_view(view_of(store_of(EXAMPLE), "SHA"))
        yield "week", week_nodes()
        yield "solver", solver_nodes()
        yield "door", [node for node in solver_nodes() if node.level <= 4 and node.label != "lesson"]
        yield "reader", week_nodes(1)
        yield "days", nodes_of("(school (mon (lesson (class (10B)) (note)) (lesson)) (tue (lesson (class (9A) (9B)))))")
        yield "outline", random_nodes(rand, 9, 300)
        yield "root", [Node(0, "school")]
        yield "long", [Node(node.level, "W" * 24) for node in week_nodes(2)]
        yield "deep", [Node(level, "W" * 24) for level in range(12)]
        chain = [Node(level, "W" * 24) for level in range(3, 12)]
        days = [[Node(1, day), Node(2, "p" * 24), *chain, *chain, Node(2, "q")] for day in ("D" * 24, "E" * 24)]
        yield "deep-week", [Node(0, "school"), *days[0], *days[1]]

    def test_what_is_seen(self):
        """On a desk and on a phone: the words are those of the view, nothing is cut off, and nothing is asked for."""
        for name, nodes in self.samples():
            path = self.write(nodes)
            for width, height in ((1280, 900), (960, 700), (390, 844), (320, 568)):
                self.browser.open(path, width, height)
                self.assertEqual(self.browser.words(), [node.label for node in nodes], name)
                self.assertLessEqual(self.browser.run("document.documentElement.scrollWidth"), width, name)
                self.assertEqual(self.browser.complaints(), ([], []))
                self.browser.picture(f"{name}-{width}.png")
        self.browser.open(self.write([]), 390, 844)
        self.assertEqual(" ".join(self.browser.words()), "Nothing is shown to SHA.")
        rows = [row_of(name) for name in ("staff", "SHA")]
        path = Path(self.folder, "index.html")
        path.write_text(index(rows, PUBLICATION))
        self.browser.open(path, 1280, 900)
        self.assertEqual(self.browser.complaints(), ([], []))
        self.browser.picture("index-1280.png")

    def lessons(self, nodes, words):
        """The lessons, each with its labels, in which or above which every word occurs."""
        above = {}
        found = []
        for node in nodes:
            above[node.level] = node.label
            if node.level == 3:
                found.append(([above[1], above[2], node.label], []))
            if node.level >= 3:
                found[-1][1].append(node.label)
        return [
            labels
            for heads, labels in found
            if all(any(word in label.lower() for label in heads + labels) for word in words.lower().split())
        ]

    def test_the_filter(self):
        nodes = week_nodes()
        path = self.write(nodes)
        lessons = "[...document.querySelectorAll('.lessons > li')]"
        seen = f"{lessons}.filter((one) => one.offsetHeight > 0).map((one) => one.innerText)"
        for width in (1280, 390):
            for words in ("10B", "mon 10b", "RESTRICTED", "p3 SHA", "R12", "nobody", "  tue  "):
                self.browser.open(path, width, 900)
                self.browser.run("document.getElementById('wanted').focus()")
                self.browser.ask("Input.insertText", text=words)
                wanted = self.lessons(nodes, words)
                self.assertEqual([text.split() for text in self.browser.run(seen)], wanted, words)
                said = f"{words.strip()}: {len(wanted)} of 800 lessons"
                self.assertEqual(self.browser.run("document.getElementById('found').innerText"), said)
                if width < 600 and words == "mon 10b":
                    self.assertEqual(self.browser.words()[:3], ["school", "mon", "p1"])
                    self.assertNotIn("tue", self.browser.words())
                self.browser.picture(f"filter-{words.strip().replace(' ', '-')}-{width}.png")
                self.browser.run("wanted.value = ''; wanted.dispatchEvent(new Event('input'))")
                self.assertEqual(self.browser.words(), [node.label for node in nodes])
        self.browser.open(path, 1280, 900, "#show=mon+10B")
        self.assertEqual(len(self.browser.run(seen)), 8)
        self.assertEqual(self.browser.complaints(), ([], []))

    def test_the_filter_of_an_outline(self):
        nodes = nodes_of("(school (a (b (c)) (d (e (f (g (h))))) (x)) (B2 (y (z))))")
        path = self.write(nodes)
        for words, seen in (
            ("a", "school a b c d e f g h x"),
            ("h", "school a d e f g h"),
            ("b", "school a b c B2 y z"),
            ("x a", "school a x"),
            ("q", "school"),
        ):
            self.browser.open(path, 390, 844)
            self.browser.run("document.querySelector('details').open = false")
            self.browser.run("document.getElementById('wanted').focus()")
            self.browser.ask("Input.insertText", text=words)
            self.assertEqual(self.browser.words(), seen.split(), words)

    def test_printed(self):
        """A reader's week is one sheet; a filter is told on it, and the box is not."""
        path = self.write(week_nodes(1))
        self.browser.open(path, 390, 844, "#show=7A")
        data = base64.b64decode(self.browser.ask("Page.printToPDF", preferCSSPageSize=True)["data"])
        self.assertEqual(len(re.findall(rb"/Type\s*/Page\b", data)), 1)
        self.browser.ask("Emulation.setEmulatedMedia", media="print")
        shown = self.browser.run("document.querySelector('header').innerText").split()
        self.browser.ask("Emulation.setEmulatedMedia", media="")
        self.assertEqual(" ".join(shown), "Timetable for SHA 7A: 40 of 40 lessons")

    def maps(self):
        """Sessions with a tree, each with the page of its map: the example, a solver's week, and 64 readers."""
        lines = ["(subject web)", *POLICY, "(rule accept read //* web)", "(rule deny read //lesson web)"]
        loaded = store_of(lines, 8192)
        loaded.load_xml(week.document_of(week.week()))
        many = store_of([*(f"(subject reader-{number})" for number in range(62)), *EXAMPLE])
        for name, session in (("example", store_of(EXAMPLE)), ("solver", loaded), ("many", many)):
            decider = Decider(session)
            foot = Foot("school", "2026-11-16 07:05 UTC", MARK)
            yield name, session, map_page(decider, decider.decide_all(), foot)

    def test_the_map(self):
        """What is seen of each row gives every reader's view; the filter and a click on a cell do what they say."""
        for name, session, text in self.maps():
            path = Path(self.folder, "map.html")
            path.write_text(text)
            nodes = read_table(session.table)
            readers = read_policy(session.state).subjects
            for width, height in ((1280, 900), (390, 844)):
                self.browser.open(path, width, height)
                self.assertEqual(self.browser.complaints(), ([], []))
                self.assertLessEqual(self.browser.run("document.documentElement.scrollWidth"), width, name)
                rows = self.browser.run("[...document.querySelectorAll('tbody tr')].map((row) => row.innerText)")
                labels, cells = zip(*(row.split("\t") for row in rows))
                self.assertEqual([label.strip() for label in labels], [node.label for node in nodes])
                for number, reader in enumerate(readers):
                    letters = [cell[number * len(cell) // len(readers) + 1] for cell in cells]
                    seen = [
                        node if letter == "R" else Node(node.level, RESTRICTED)
                        for node, letter in zip(nodes, letters)
                        if letter in "RP"
                    ]
                    self.assertEqual(seen, read_view(view_of(session, reader)), reader)
                self.browser.picture(f"map-{name}-{width}.png")
                self.click("tbody tr:last-child i:last-child")
                told = self.browser.run("document.getElementById('told').innerText").splitlines()
                self.assertEqual(told[0], f"{readers[-1]} on {node_paths(nodes)[-1]}")
                self.assertRegex(told[2], "^  read      (yes|no )  (no rule|rule [0-9]+: )")
                self.browser.run("document.getElementById('filter').focus()")
                self.browser.ask("Input.insertText", text="mon NOTE")
                shown = "[...document.querySelectorAll('tbody tr')].filter((row) => row.offsetHeight > 0).length"
                found = [path for path in node_paths(nodes) if "mon" in path and "note" in path]
                above = {path.rsplit("/", up)[0] for path in found for up in range(path.count("/"))}
                self.assertEqual(self.browser.run(shown), len(above), name)
                said = f"{len(found)} of {len(nodes)} nodes"
                self.assertEqual(self.browser.run("document.getElementById('count').innerText"), said)
                self.assertEqual(self.browser.complaints(), ([], []))

    def click(self, selector):
        """Clicks on the last letter of the element."""
        script = f"document.querySelector('{selector}').scrollIntoView({{block: 'center'}})"
        self.browser.run(script)
        box = self.browser.run(f"document.querySelector('{selector}').getBoundingClientRect().toJSON()")
        place = {"x": box["right"] - 4, "y": (box["top"] + box["bottom"]) / 2, "button": "left", "clickCount": 1}
        for kind in ("mousePressed", "mouseReleased"):
            self.browser.ask("Input.dispatchMouseEvent", type=kind, **place)

    def test_valid(self):
        """tidy has nothing to say."""
        texts = [page("SHA", nodes, MARK, PUBLICATION) for _, nodes in self.samples()]
        texts += [text for _, _, text in self.maps()]
        texts += [page("SHA", [], MARK), index([Row("a", "view-a.html", "view-a.csv", "view-a.json")], PUBLICATION)]
        for text in texts:
            run = subprocess.run(["tidy", "-q", "-e"], input=text.encode(), capture_output=True, timeout=SECONDS)
            self.assertEqual((run.stderr, run.returncode), (b"", 0))


def main():
    global library, kills, pictures
    parser = argparse.ArgumentParser(usage=__doc__)
    parser.add_argument("archive", nargs="?", default=ARCHIVE)
    parser.add_argument("--kills", type=int, default=KILLS)
    parser.add_argument("--browser", action="store_true")
    parser.add_argument("--pictures")
    options = parser.parse_args()
    if not os.path.exists(options.archive):
        sys.exit(f"FAILED: {options.archive} is missing; `python3 tests/build.py library` makes it")
    for tool in ("chromium", "tidy") if options.browser else ():
        if not shutil.which(tool):
            sys.exit(f"FAILED: {tool} is missing")
    kills, pictures = options.kills, options.pictures
    if pictures:
        os.makedirs(pictures, exist_ok=True)
    parts = [Pages, Publishing] + ([InTheBrowser] if options.browser else [])
    tests = unittest.TestSuite(unittest.defaultTestLoader.loadTestsFromTestCase(part) for part in parts)
    with tempfile.TemporaryDirectory() as folder:
        path = os.environ["TIMETABLE_LIBRARY"] = make_library(folder, os.path.abspath(options.archive))
        library = Library(path)
        done = unittest.TextTestRunner(verbosity=1).run(tests)
    sys.exit(0 if done.wasSuccessful() else 1)


if __name__ == "__main__":
    main()
