#!/usr/bin/env python3
"""office_rules.py [ARCHIVE]: tests of what `timetable-office` says of rules: `why`, `check` and `map`. The library is
made from the archive, target/staticlib/liblouvretansy.a unless another is named. Needs gcc.
"""

import html.parser
import json
import os
import random
import re
import resource
import sys
import tempfile
import unittest
from unittest import mock

sys.path.insert(0, os.path.dirname(os.path.abspath(__file__)))
import office  # noqa: E402
import vectors  # noqa: E402

from timetable_office import agreement  # noqa: E402
from timetable_office.checks import check_lines, is_within  # noqa: E402
from timetable_office.decisions import RIGHTS, Decider, Seen, Selector, roles_of  # noqa: E402
from timetable_office.errors import DisagreementError, InputError  # noqa: E402
from timetable_office.library import Library, Session  # noqa: E402
from timetable_office.lines import split_lines  # noqa: E402
from timetable_office.places import node_paths, parents, select_stored, way_down  # noqa: E402
from timetable_office.runs import run_lines  # noqa: E402
from timetable_office.tree import Node, read_table, read_view  # noqa: E402
from timetable_office.views import on_all_days, view_of  # noqa: E402

WEB = ["(subject web)", "(rule accept read //* web)", "(rule deny read //note web)"]
SCHOOL = ["(root school)", "(child (mon (lesson (class (10B)) (room (R12)) (note (ill)))))"]
STAFF = ["(subject staff)", "(rule accept read //* staff)"]
RANDOM_STORES = 60

library: Library


def session_of(lines, records=1024):
    run = run_lines(library.session(records), split_lines("lines", office.text_of(lines).encode()))
    return Session(library, run.state, run.table)


def random_path(rand, words, most=4):
    steps = rand.choices([1, 2, 3, most], [4, 4, 3, 1])[0]
    return "".join(rand.choice(["/", "//"]) + rand.choice([*words, "*", "$"]) for _ in range(steps))


def random_tree(rand, words, level, room):
    children = rand.choices([0, 1, 2, 3], [3, 3, 2, 1])[0] if level < room else 0
    below = "".join(" " + random_tree(rand, words, level + 1, room) for _ in range(children))
    return f"({rand.choice(words)}{below})"


def random_store(rand):
    """A policy with roles of roles, rules that meet often, and a small tree; some nodes have names of subjects, and
    labels and names stand in both cases."""
    def typed(name):
        return rand.choice([name, name, name.lower()])

    names = [f"S{number}" for number in range(rand.randrange(1, 7))]
    words = ["a", "b", "c", *names[:2], "A", "B", *map(str.lower, names[:2])]
    lines = [f"(subject {name})" for name in names]
    pairs = [(name, role) for place, name in enumerate(names) for role in names[:place]]
    lines += [f"(isa {typed(name)} {typed(role)})" for name, role in rand.sample(pairs, rand.randrange(len(pairs) + 1))]
    for _ in range(rand.randrange(1, 25)):
        says = rand.choice(["accept", "accept", "deny"])
        right = rand.choice(["read", "position", *RIGHTS])
        path = "//*" if rand.random() < 0.2 else random_path(rand, words)
        lines.append(f"(rule {says} {right} {path} {typed(rand.choice(names))})")
    lines.append(f"(root {rand.choice(words)})")
    return lines + [f"(child {random_tree(rand, words, 1, rand.choice([3, 5, 11]))})" for _ in range(rand.randrange(5))]


class Deciding(office.Office):
    def test_every_list_of_the_program(self):
        """For every subject of every list in tests/vectors the library agrees; a view that differs is an error."""
        readers = shown = 0
        for name in vectors.lists(".in"):
            run = run_lines(library.session(1024), split_lines(name, vectors.read(name + ".in")), keep_going=True)
            session = Session(library, run.state, run.table)
            if not read_table(session.table):
                continue
            with self.subTest(name):
                decider = Decider(session)
                for one in decider.decide_all():
                    readers += 1
                    view = [seen for seen in one.seen if seen is not Seen.HIDDEN]
                    self.assertEqual(len(view), len(read_view(view_of(on_all_days(session), one.reader))))
                    shown += len(view)
        self.assertGreater(readers, 900)
        self.assertGreater(shown, 5000)

    def test_random_policies(self):
        """The last rule for a role of the reader whose path selects the node decides; the library selects."""
        rand = random.Random(20)
        decided = 0
        for _ in range(RANDOM_STORES):
            lines = random_store(rand)
            session = session_of(lines)
            decider = Decider(session)
            rules, nodes = decider.policy.rules, range(len(decider.nodes))
            for one in decider.decide_all():
                wanted = [dict.fromkeys(RIGHTS) for _ in nodes]
                for number, rule in enumerate(rules):
                    if rule.subject in self.closure(decider.policy, one.reader):
                        for place in select_stored(session, one.reader, rule.path):
                            wanted[place][rule.right] = number
                got = [{right: one.verdict(place)[right].rule for right in RIGHTS} for place in nodes]
                self.assertEqual(got, wanted, lines)
                for place in nodes:
                    for right, (number, granted) in one.verdict(place).items():
                        self.assertEqual(granted, number is not None and rules[number].accept)
                        decided += number is not None
        self.assertGreater(decided, 2000)

    def closure(self, policy, name):
        return {name}.union(*(self.closure(policy, role) for member, role in policy.isa if member == name))

    def test_a_full_and_deep_table(self):
        """Where what is appended does not fit for all nodes together, levels are tried by themselves."""
        deep = "(a " * 10 + "(a" + ")" * 11
        lines = ["(subject s)", "(rule accept read //* s)", "(rule accept insert //a s)", "(root r)", f"(child {deep})"]
        Decider(session_of(lines)).decide("s")
        many = ["(child (b" + " (c)" * 200 + "))"] * 50
        Decider(session_of([*lines[:3], "(rule accept insert //* s)", "(root r)", *many], 16_384)).decide("s")

    def test_roles(self):
        names = ["staff", "tutors", "SHA", "all"]
        lines = [f"(subject {name})" for name in ["all", *names[:3]]]
        lines += ["(isa staff all)", "(isa tutors staff)", "(isa SHA tutors)", "(isa SHA all)", "(root r)"]
        roles = roles_of(Decider(session_of(lines)).policy, "SHA")
        self.assertEqual(
            roles,
            {
                "SHA": ("SHA",),
                "tutors": ("SHA", "tutors"),
                "all": ("SHA", "all"),
                "staff": ("SHA", "tutors", "staff"),
            },
        )

    def test_a_disagreement_is_an_error(self):
        """Each of the four comparisons, by a library that does something else."""
        session = session_of([*STAFF, *(f"(rule accept {right} //* staff)" for right in RIGHTS), *SCHOOL])
        Decider(session).decide("staff")
        for form in ("rename", "remove", "append"):

            def other_line(this, text, form=form, line=Session.line):
                """Does nothing at a line of this form."""
                return b"(done 0 0)\n" if text.startswith(b"(" + form.encode()) else line(this, text)

            with mock.patch.object(Session, "line", other_line):
                with self.assertRaisesRegex(DisagreementError, f"do not give the {form} of staff"):
                    Decider(session).decide("staff")
        for answer in (b"(end 0)\n", b"(root RESTRICTED)\n(end 1)\n"):
            with mock.patch.object(agreement, "view_of", lambda *_, answer=answer: answer):
                with self.assertRaisesRegex(DisagreementError, "do not give the view of staff"):
                    Decider(session).decide("staff")

    def test_nothing_is_told_after_a_disagreement(self):
        self.school()
        with mock.patch.object(agreement, "view_of", lambda *_: b"(end 0)\n"), self.unchanged():
            for words in (
                ("why", "store", "--as", "SHA", "//note"),
                ("why", "store", "--as", "SHA", "//note", "--json"),
                ("check", "store"),
                ("map", "store", "--out", "map.html"),
            ):
                printed = self.office(*words, status=4, says="Nothing is told: the library is the one that counts")
                self.assertEqual(printed, "")


class Places(office.Office):
    def test_paths_of_nodes(self):
        lines = [*STAFF, "(root r)", "(child (a (b) (c) (b (c))))", "(child (a))", "(child (d))"]
        session = session_of(lines)
        paths = node_paths(read_table(session.table))
        wanted = ["/r", "/r/a[1]", "/r/a[1]/b[1]", "/r/a[1]/c", "/r/a[1]/b[2]", "/r/a[1]/b[2]/c", "/r/a[2]", "/r/d"]
        self.assertEqual(paths, wanted)
        for place, path in enumerate(paths):
            self.assertEqual(select_stored(session, "staff", path), [place])

    def test_random_paths(self):
        rand = random.Random(3)
        for _ in range(20):
            session = session_of(random_store(rand))
            nodes = read_table(session.table)
            paths = node_paths(nodes)
            for place in rand.sample(range(len(nodes)), min(5, len(nodes))):
                self.assertEqual(select_stored(session, "S0", paths[place]), [place])
            above = parents(nodes)
            for place, node in enumerate(nodes):
                self.assertEqual([nodes[step].level for step in way_down(above, place)], list(range(node.level + 1)))

    def test_labels_like_the_mark(self):
        lines = [*STAFF, "(root selected-0)", "(child (selected-1))", "(child (new-0))"]
        session = session_of(lines)
        self.assertEqual(select_stored(session, "staff", "//*[1]"), [0, 1])
        Decider(session).decide("staff")

    def test_hidden_nodes_are_selected_too(self):
        session = session_of(["(subject guest)", *SCHOOL])
        self.assertEqual(select_stored(session, "guest", "//lesson[class/10B]/*[2]"), [5])
        self.assertEqual(select_stored(session, "guest", "//RESTRICTED"), [])
        for path in ("", "note", "//note[0]", "//a b", "//\u00e9", "//a)"):
            with self.assertRaisesRegex(InputError, "is not a path: refused"):
                select_stored(session, "guest", path)


class Why(office.Office):
    FIELDS = ["/school/mon/lesson/class", "/school/mon/lesson/room", "/school/mon/lesson/note"]

    def test_in_either_case(self):
        """The reader as declared, nodes as stored; siblings that share a label in either case have numbers."""
        lines = ["(subject staff)", "(subject SHA)", "(isa sha Staff)", "(rule accept read //ROOM/* STAFF)"]
        lines += ["(rule accept position /* staff)", "(root school)", "(child (room (R12) (r12)))"]
        self.office("new", "store", says="an empty store")
        self.office("run", "-q", "store", given=lines)
        told = self.office("why", "store", "--as", "sha", "//r12")
        self.assertEqual(told, self.office("why", "store", "--as", "SHA", "/School/Room/R12"))
        self.assertIn("/school/room/R12[1] is hidden from SHA\n", told)
        self.assertIn("/school/room/r12[2] is hidden from SHA\n", told)
        self.assertIn("rule 1: (rule accept read //ROOM/* staff), since SHA isa staff\n", told)

    def test_the_example(self):
        self.school()
        self.assertEqual(
            self.office("why", "store", "--as", "SHA", "//note/*"),
            "/school/mon/lesson/note/ill is shown to SHA as RESTRICTED\n"
            "  position  yes  rule 3: (rule accept position //note/* staff), since SHA isa staff\n"
            "  read      no   rule 2: (rule deny read //note/* staff), since SHA isa staff\n"
            "  insert    no   no rule\n"
            "  update    no   no rule\n"
            "  delete    no   no rule\n",
        )
        printed = self.office("why", "store", "--as", "SHA", "//lesson/*")
        self.assertEqual(re.findall(r"^(/\S+) is shown to SHA$", printed, re.M), self.FIELDS)

    def test_hidden_by_a_node_above(self):
        self.office("new", "store", says="empty")
        self.office("run", "-q", "store", given=[*WEB, *SCHOOL])
        with self.unchanged():
            printed = self.office("why", "store", "--as", "web", "/school/mon/lesson/note/ill")
        self.assertEqual(
            printed,
            "/school/mon/lesson/note/ill is hidden from web\n"
            "  position  no   no rule\n"
            "  read      yes  rule 1: (rule accept read //* web)\n"
            "  insert    no   no rule\n"
            "  update    no   no rule\n"
            "  delete    no   no rule\n"
            "  hidden by /school/mon/lesson/note, on which there is neither position nor read:\n"
            "    position  no   no rule\n"
            "    read      no   rule 2: (rule deny read //note web)\n",
        )
        self.assertIn("  hidden by itself", self.office("why", "store", "--as", "web", "//note"))

    def test_json(self):
        self.school()
        made = json.loads(self.office("why", "store", "--as", "SHA", "//note//*", "--json"))
        self.assertEqual((made["reader"], made["path"], len(made["nodes"])), ("SHA", "//note//*", 1))
        (node,) = made["nodes"]
        self.assertEqual((node["path"], node["number"], node["seen"]), ("/school/mon/lesson/note/ill", 9, "restricted"))
        line = "(rule deny read //note/* staff)"
        self.assertEqual(
            node["rights"]["read"],
            {"granted": False, "rule": {"number": 2, "line": line, "isa": ["SHA", "staff"]}},
        )
        self.assertEqual(self.office("export", "store", "--policy").split("\n")[3 + 2 - 1], line)

    def test_what_cannot_be_answered(self):
        self.office("new", "store", says="empty")
        self.office("run", "-q", "store", given=STAFF)
        self.office("why", "store", "--as", "staff", "//*", status=1, says="the store has no tree yet")
        self.office("run", "-q", "store", given=SCHOOL)
        self.office("why", "store", "--as", "stuff", "//*", status=1, says="did you mean staff?")
        self.office("why", "store", "--as", "staff", "//gym", status=1, says="//gym selects no node of the stored tree")
        self.office("why", "store", "--as", "staff", "//a[", status=1, says="'//a[' is not a path: refused 4")
        self.office("why", "nostore", "--as", "staff", "//a", status=3, says="there is no store nostore")
        self.office("why", "store", "//*", status=2, says="--as")


class Check(office.Office):
    def findings(self, lines, tree=None):
        given = split_lines("lines", office.text_of(lines).encode())
        checked = check_lines(library, given, tree)
        return [(one.weight, one.kind, checked.line(one)) for one in checked.findings()], checked

    def finds(self, lines, *wanted, says=""):
        """These are all the findings, each `(weight, kind, line)`."""
        found, checked = self.findings(lines)
        self.assertEqual(found, list(wanted), lines)
        self.assertIn(says, "\n".join(one.text for one in checked.findings()))

    def test_right_policies(self):
        self.finds(office.SETTING_UP)
        self.finds([*WEB, *SCHOOL])
        page = office.read_page("office/README.md")
        self.finds(re.search(r"^```school.lines\n(.*?)\n```$", page, re.M | re.S)[1].split("\n"))

    def test_the_patterns_of_the_guide(self):
        """Nothing in them is a slip, but for those that the guide shows as what goes wrong."""
        patterns, wrong = office.read_page("docs/GUIDE.md").split("## What goes wrong most often")
        for block in re.findall(r"^```lines\n(.*?)\n```$", patterns, re.M | re.S):
            found, _ = self.findings(block.split("\n"))
            self.assertEqual([one for one in found if one[0] != "hint"], [], block)
        blocks = re.findall(r"^```lines\n(.*?)\n```$", wrong, re.M | re.S)
        self.assertEqual(self.findings(blocks[0].split("\n"))[0], [("slip", "overridden", 2)])
        self.assertEqual(self.findings(blocks[1].split("\n"))[0], [("slip", "no-effect", 2), ("slip", "no-effect", 3)])

    def test_a_word_that_no_node_has(self):
        says = "selects no node: no node is called notes; did you mean note?"
        self.finds([*STAFF, "(rule deny read //notes staff)", *SCHOOL], ("slip", "unknown-word", 3), says=says)
        self.finds([*STAFF, "(rule deny read //NOTES staff)", *SCHOOL], ("slip", "unknown-word", 3), says="NOTES; did")
        # in either case
        self.finds([*STAFF, "(rule deny read //NOTE/* staff)", "(rule deny read /School/MON/lesson staff)", *SCHOOL])
        says = "no node is called gym"
        self.finds([*STAFF, "(rule deny read //gym/* staff)", *SCHOOL], ("hint", "unknown-word", 3), says=says)

    def test_a_rule_that_selects_no_node(self):
        says = "starts at the root, which is called school; //mon starts anywhere"
        self.finds([*STAFF, "(rule deny read /mon staff)", *SCHOOL], ("slip", "selects-nothing", 3), says=says)
        self.finds([*STAFF, "(rule deny read //note/class staff)", *SCHOOL], ("hint", "selects-nothing", 3))
        steps = "/*" * 13
        self.finds([*STAFF, f"(rule deny read {steps} staff)", *SCHOOL], ("slip", "selects-nothing", 3))
        lines = [STAFF[0], "(subject a)", "(isa a staff)", STAFF[1], "(rule deny read //$/* staff)", *SCHOOL]
        self.finds(lines, ("hint", "selects-nothing", 5), says="a reader who is staff, or of a role of theirs")
        # a role of a role has the name of a node
        lines = ["(subject 10B)", "(subject tutors)", "(subject SHA)", "(isa tutors 10B)", "(isa SHA tutors)"]
        lines += ["(rule accept read /* SHA)", "(rule accept read //$ SHA)", "(root school)", "(child (10B (note)))"]
        self.finds(lines)

    def test_a_rule_that_later_ones_override(self):
        deny, accept = "(rule deny read //note/* staff)", "(rule accept read //* staff)"
        says = "write an exception after the rule"
        self.finds(["(subject staff)", deny, accept, *SCHOOL], ("slip", "overridden", 2), says=says)
        # without a tree too
        self.finds(["(subject staff)", deny, accept], ("slip", "overridden", 2))
        # a rule for a role, after one for whoever has it
        roles = ["(subject staff)", "(subject SHA)", "(isa SHA staff)"]
        self.finds([*roles, "(rule accept read //note SHA)", accept, *SCHOOL], ("slip", "overridden", 4))
        # the other way round it decides for the others
        lines = [*roles, "(rule accept read //* staff)", "(rule deny read //* SHA)", *SCHOOL]
        self.finds(lines)
        # by `$`, which passes the name staff for all who are staff, and the name SHA for SHA alone
        own = "(rule accept read //$ staff)"
        self.finds([*roles, accept, "(rule deny read //staff staff)", own], ("slip", "overridden", 5))
        self.finds([*roles, accept, "(rule deny read //SHA staff)", own])
        # on this tree alone
        two = ["(rule deny read //ill staff)", "(rule deny read //note/* staff)"]
        self.finds([*STAFF, *two, *SCHOOL], ("hint", "decides-nothing", 3))

    def test_a_rule_that_changes_nothing(self):
        lines = ["(subject staff)", "(subject music)", "(isa music staff)", STAFF[1]]
        lines += ["(rule deny read //note/* staff)", "(rule accept read //note music)", *SCHOOL]
        self.finds(lines, ("hint", "changes-nothing", 6), says="//note/* selects the nodes below it")
        self.finds([*lines[:5], "(rule accept read //note/* music)", *SCHOOL])
        self.finds([*STAFF, "(rule deny insert //note staff)", *SCHOOL], ("hint", "changes-nothing", 3))

    def test_a_rule_without_effect(self):
        for rule, says in (
            ("accept update //room", "its label is a word of the rules, and such a label is never changed; //room/*"),
            ("accept delete /*", "the root is never removed"),
            ("accept position //class/*", "it is shown with its label anyway, by read"),
        ):
            self.finds([*STAFF, f"(rule {rule} staff)", *SCHOOL], ("slip", "no-effect", 3), says=says)
        notes = ["(rule deny read //note/* staff)", "(rule accept position //note/* staff)"]
        lines = [*STAFF, *notes, "(rule accept update //note/* staff)", *SCHOOL]
        self.finds(lines, ("slip", "no-effect", 5), says="update needs read too")
        lines = ["(subject bus)", "(rule accept read //room bus)", *SCHOOL]
        self.finds(lines, ("slip", "no-effect", 2), says="a node above it is hidden")
        lines = [*STAFF, "(rule accept position //note/* staff)", "(rule deny position //note/ill staff)", *SCHOOL]
        self.finds(lines, ("hint", "decides-nothing", 3), ("slip", "no-effect", 4), says="it is still shown, by read")

    def test_a_note_that_stays_readable(self):
        rules = ["(rule deny read //note staff)", "(rule accept position //note staff)"]
        says = "what is below it stays readable to staff: /school/mon/lesson/note/ill; //note/* selects what is below"
        wanted = [("slip", "readable-below", 3), ("slip", "word-behind", None)]
        self.finds([*STAFF, *rules, *SCHOOL], *wanted, says=says)
        # without position the note is hidden with all below it
        self.finds([*STAFF, rules[0], *SCHOOL])
        # what is meant
        below = [rule.replace("//note", "//note/*") for rule in rules]
        self.finds([*STAFF, *below, *SCHOOL])
        # a note of two levels
        deep = ["(root school)", "(child (note (ill (flu))))"]
        says = "//note//* selects all that is below"
        self.finds([*STAFF, *below, *deep], ("hint", "readable-below", 3), says=says)
        self.finds([*STAFF, *(rule.replace("//note", "//note//*") for rule in rules), *deep])

    def test_a_policy_word_behind_restricted(self):
        rules = ["(rule deny read //note/* staff)", "(rule accept position //note/* staff)"]
        rules += ["(rule accept insert //music staff)"]
        tree = ["(root school)", "(child (music (note (music))))"]
        says = "music is a word of the rules, and a node with this label is shown as RESTRICTED to staff: "
        self.finds([*STAFF, *rules, *tree], ("slip", "word-behind", None), says=says + "/school/music/note/music")
        names = ["(subject staff)", "(subject SHA)", "(isa SHA staff)", STAFF[1], *rules[:2]]
        tree = ["(root school)", "(child (note (SHA)))", "(child (SHA))"]
        self.finds([*names, *tree])
        lines = [*names, "(rule accept insert //$ staff)", *tree]
        self.finds(lines, ("slip", "word-behind", None), says="SHA is a word of the rules")

    def without(self, lines, number):
        """What decides for every reader without a line of these."""
        return Decider(session_of([line for place, line in enumerate(lines, 1) if place != number])).decide_all()

    def test_rules_that_are_said_to_do_nothing(self):
        """Without such a rule every right of every reader is the same, or at least all that readers see and can do."""
        rand = random.Random(4)
        told = dict.fromkeys(self.NO_RIGHT + self.NO_USE, 0)
        for _ in range(RANDOM_STORES):
            lines = random_store(rand)
            found, checked = self.findings(lines)
            if not checked.decider.policy.rules:
                continue
            before = checked.decider.decide_all()
            words = [checked.decider.is_word(node.label) for node in checked.decider.nodes]
            for _, kind, number in found:
                if kind in told:
                    told[kind] += 1
                    compared = self.rights if kind in self.NO_RIGHT else self.uses
                    after = self.without(lines, number)
                    self.assertEqual(compared(after, words), compared(before, words), (lines, kind, number))
        self.assertTrue(all(told.values()), told)

    NO_RIGHT = ["overridden", "unknown-word", "selects-nothing", "decides-nothing", "changes-nothing"]
    NO_USE = ["no-effect"]

    def rights(self, decisions, words):
        places = range(len(words))
        return [
            [{right: one.verdict(place)[right].granted for right in RIGHTS} for place in places] for one in decisions
        ]

    def uses(self, decisions, words):
        """What is seen, and of what is shown which changes can be made."""
        made = []
        for one in decisions:
            for place, (seen, word) in enumerate(zip(one.seen, words)):
                granted = {right for right, decision in one.verdict(place).items() if decision.granted}
                granted -= {"read", "position"}
                if seen is not Seen.LABEL or word:
                    granted -= {"update"}
                if place == 0:
                    granted -= {"delete"}
                made.append((seen, granted if seen is not Seen.HIDDEN else None))
        return made

    def test_what_is_behind_restricted(self):
        """A finding exactly if a reader is shown RESTRICTED for a word of the rules."""
        rand = random.Random(31)
        told = {True: 0, False: 0}
        for _ in range(RANDOM_STORES):
            found, checked = self.findings(random_store(rand))
            decider = checked.decider
            behind = any(
                seen is Seen.RESTRICTED and decider.is_word(node.label)
                for one in decider.decide_all()
                for node, seen in zip(decider.nodes, one.seen)
            )
            self.assertEqual(any(kind == "word-behind" for _, kind, _ in found), behind and len(decider.nodes) > 1)
            told[behind] += 1
        self.assertTrue(all(told.values()))

    def test_subjects(self):
        self.finds([*STAFF[:1], "(subject SHA)", "(isa SHA staff)", *STAFF[1:], *SCHOOL])
        lines = ["(subject staff)", "(subject SHA)", STAFF[1], *SCHOOL]
        says = "nobody else is staff, and no rule applies to SHA: is an isa line missing?"
        self.finds(lines, ("hint", "no-rule", 2), ("hint", "role-nobody-has", 1), says=says)
        self.finds(["(subject staff)", *SCHOOL], ("hint", "no-rule", None), says="there is no rule")
        lines = ["(subject tutors)", "(rule accept read //* tutors)", "(rule accept insert //$ tutors)"]
        self.finds([line.replace("tutors", "SHA") for line in lines] + ["(root school)", "(child (SHA))"])
        says = "speaks of its reader by $, and nobody is tutors"
        self.finds([*lines, *SCHOOL], ("hint", "selects-nothing", 3), ("hint", "role-nobody-has", 1), says=says)
        # the name of a form that they are, which is there for its name alone
        form = ["(subject 10B)", lines[0], "(isa tutors 10B)", *lines[1:], *SCHOOL]
        self.finds(form)
        self.finds([line for line in form if "$" not in line], ("hint", "no-rule", 1))

    def test_a_rule_within_another(self):
        for path, other, within in (
            ("//note/*", "//*", True),
            ("//*", "//note/*", False),
            ("/school", "//school", True),
            ("//school", "/school", False),
            ("//a/b", "//a//b", True),
            ("//a//b", "//a/b", False),
            ("//a/*/b", "//a//b", True),
            ("//a//*/b", "//a/*//b", True),
            ("/*/*", "//*", True),
            ("//a//b", "//b", True),
            ("//a//b", "//c", False),
            ("//$", "//*", True),
            ("//me", "//$", True),
            ("//$", "//me", True),
            ("//you", "//$", False),
            ("/a/b/c", "/*//c", True),
            ("//A/b", "//a/B", True),
            ("//ME", "//$", True),
        ):
            self.assertEqual(is_within(path, other, ["me"]), within, (path, other))
        for path, other, within in (
            ("//me/role", "//$/$", True),
            ("//$", "//me", False),
            ("//$", "//role", False),
            ("//role/*", "//$/*", True),
            ("//you", "//$", False),
        ):
            self.assertEqual(is_within(path, other, ["me", "role"]), within, (path, other))

    def test_random_rules_within_others(self):
        """What is said to be within is so in random trees; what is not is mostly seen not to be."""
        rand = random.Random(11)
        words, own = ["a", "b", "role", "A", "Role"], ["me", "role"]
        trees = []
        for _ in range(60):
            text = f"(x {random_tree(rand, [*words, 'c', 'me'], 0, 6)})"
            nodes = read_view(b"(root r)\n" + f"(child {text})\n".encode() + b"(end %d)\n" % (text.count("(") + 1))
            trees.append([Node(node.level - 2, node.label) for node in nodes[2:]])
        told = {True: 0, False: 0}
        for _ in range(400):
            path, other = random_path(rand, words, 5), random_path(rand, words, 5)
            both = Selector([path, other])
            selected = [bits for nodes in trees for bits in both.select(nodes, own)]
            outside = any(bits & both.ends[0] and not bits & both.ends[1] for bits in selected)
            within = is_within(path, other, own)
            self.assertFalse(within and outside, (path, other))
            told[within] += 1
        self.assertGreater(min(told.values()), 30)

    def test_the_command(self):
        self.school()
        with self.unchanged():
            self.assertEqual(self.office("check", "store", says="store: 0 findings in 4 rules over 9 nodes"), "")
        lines = ["(subject staff)", "(rule deny read //note/* staff)", "(rule accept read //* staff)", *SCHOOL]
        self.write("bad.lines", office.text_of(lines))
        printed = self.office("check", "bad.lines", status=1, says="bad.lines: 1 finding in 2 rules over 9 nodes")
        self.assertTrue(printed.startswith("bad.lines:2: slip: (rule deny read //note/* staff) decides nothing"))
        printed = self.office("check", "-", given=lines, status=1, says="standard input: 1 finding")
        self.assertTrue(printed.startswith("standard input:2: slip: "))
        self.office("policy", "store", given=lines[:3], says="store: 1 subject")
        printed = self.office("check", "store", status=1, says="store: 1 finding in 2 rules")
        self.assertTrue(printed.startswith("store: rule 1: slip: (rule deny read //note/* staff) decides nothing"))
        made = json.loads(self.office("check", "store", "--json", status=1, says="1 finding"))
        self.assertEqual((made["checked"], made["tree"], len(made["findings"])), ("store", True, 1))
        (finding,) = made["findings"]
        self.assertEqual((finding["weight"], finding["kind"], finding["line"]), ("slip", "overridden", None))
        self.assertEqual(finding["rule"], {"number": 1, "line": "(rule deny read //note/* staff)"})

    def test_refused_lines(self):
        lines = ["(subject staff)", "(rule accept read //* stuff)", STAFF[1], "(rule deny read //note\r", *SCHOOL]
        printed = self.office("check", "-", given=lines, status=1, says="standard input: 2 findings in 1 rule")
        self.assertEqual(len(re.findall("^standard input:", printed, re.M)), 2)
        self.assertLess(max(map(len, printed.split("\n"))), 120)
        printed = re.sub(r"\n {4}", " ", printed)
        self.assertRegex(printed, r"^standard input:2: refused 5: .*did you mean staff\?\)\n")
        self.assertRegex(printed, r"\nstandard input:4: refused 1: .*CR LF")
        self.finds(lines, ("refused", "refused", 2), ("refused", "refused", 4))

    def test_a_policy_for_a_stored_tree(self):
        self.school()
        rules = [*STAFF, "(rule deny read //notes staff)"]
        says = "standard input: note: there is no tree"
        self.assertEqual(self.office("check", "-", given=rules, says=says), "")
        with self.unchanged():
            printed = self.office("check", "-", "--tree", "store", given=rules, status=1, says="over 9 nodes")
        self.assertIn("standard input:3: slip:", printed)
        self.assertIn("did you mean note?", re.sub(r"\n {4}", " ", printed))
        self.office("check", "-", "--tree", "store", given=[*rules, "(root r)"], status=1, says="does not belong in")
        self.office("check", "store", "--tree", "store", status=1, says="a store has a tree of its own")

    def test_a_pipe(self):
        self.write("lines", office.text_of([*STAFF, "(rule deny read //notes staff)", *SCHOOL]))
        with open(self.path("lines"), "rb") as file:
            printed = self.in_a_process(["check", "/dev/fd/0"], file.read())[1]
        self.assertIn("/dev/fd/0:3: slip: (rule deny read //notes staff)", printed)

    def test_files_that_cannot_be_checked(self):
        self.office("check", "none", status=3, says="none cannot be read: No such file or directory")
        self.office("check", ".", status=3, says=". cannot be read: Is a directory")
        self.write("data", b"SQLite format 3\0" + b"oops" * 100)
        os.chmod(self.path("data"), 0o600)
        self.office("check", "data", status=3, says="data is")
        self.office("new", "store", says="empty")
        self.office("check", "store", status=1, says="store: 1 finding in 0 rules over 0 nodes")


class Table(html.parser.HTMLParser):
    """The rows of a map: a path, and the text behind it; and the texts of its header."""

    def __init__(self, page):
        super().__init__()
        self.rows, self.names, self.tags, self.inside = [], [], [], []
        self.feed(page)

    def handle_starttag(self, tag, attributes):
        self.tags.append((tag, dict(attributes)))
        if tag not in ("meta", "br", "input"):
            self.inside.append(tag)
        if tag == "th" and "title" in dict(attributes):
            self.rows.append([dict(attributes)["title"], "", ""])

    def handle_endtag(self, tag):
        while self.inside.pop() != tag:
            pass

    def handle_data(self, data):
        if "thead" in self.inside and "span" in self.inside:
            self.names.append(data)
        elif "tbody" in self.inside and "tr" in self.inside:
            self.rows[-1][2 if "td" in self.inside else 1] += data


class Map(office.Office):
    def make(self, lines):
        if os.path.exists(self.store):
            os.unlink(self.store)
        self.office("new", "store", says="empty")
        self.office("run", "-q", "store", given=lines)
        self.office("map", "store", "--out", "map.html", says="for the office alone")
        page = self.read("map.html").decode()
        return page, Table(page)

    def test_the_example(self):
        lines = [*office.SETTING_UP[:2], WEB[0], *office.SETTING_UP[2:7], *WEB[1:], *SCHOOL]
        page, table = self.make(lines)
        self.assertEqual(table.names, ["staff", "SHA", "web"])
        self.assertEqual(
            [row[2] for row in table.rows],
            [" R  R  R "] * 6 + [" Ru Ru R ", " R  R  - ", " P  P  ^ "],
        )
        self.assertEqual(table.rows[6][:2], ["/school/mon/lesson/room/R12", "        R12"])
        self.assertIn("For the office alone: this page shows every label", page)
        self.assertEqual(os.stat(self.path("map.html")).st_mode & 0o777, 0o600)

    def test_it_needs_no_other_file(self):
        page, table = self.make([*WEB, *SCHOOL])
        self.assertNotRegex(page, r"https?:|@import|url\(")
        for tag, attributes in table.tags:
            self.assertNotIn(tag, ("link", "img", "iframe", "base", "object"))
            self.assertFalse({"src", "href"} & set(attributes), tag)

    def test_random_stores(self):
        """The letters are those of the view: for each reader the shown nodes are those of the library."""
        rand = random.Random(5)
        for _ in range(12):
            _, table = self.make(random_store(rand))
            with office.Store(self.store) as store:
                session = store.session(library)
            nodes = read_table(session.table)
            self.assertEqual([row[0] for row in table.rows], node_paths(nodes))
            width = len(table.rows[0][2]) // len(table.names)
            for number, name in enumerate(table.names):
                cells = [row[2][number * width : (number + 1) * width] for row in table.rows]
                view = [
                    node if cell[1] == "R" else Node(node.level, "RESTRICTED")
                    for node, cell in zip(nodes, cells)
                    if cell[1] in "RP"
                ]
                self.assertEqual(read_view(view_of(session, name)), view)

    def test_what_its_script_tells(self):
        """The rules in the page's data are those that `why` tells."""
        rand = random.Random(8)
        page, table = self.make(random_store(rand))
        data = json.loads(re.search(r'<script type="application/json" id="data">(.*?)</script>', page, re.S)[1])
        for reader in data["readers"]:
            made = json.loads(self.office("why", "store", "--as", reader["name"], "//*", "--json"))
            for place, node in enumerate(made["nodes"]):
                rules = reader["decided"][data["kinds"][reader["kinds"]][place]]
                told = [node["rights"][right]["rule"] for right in data["rights"]]
                self.assertEqual(rules, [rule and rule["number"] - 1 for rule in told])
        self.assertEqual(len(data["parents"]), len(table.rows))

    def test_odd_stores(self):
        _, table = self.make(["(root school)", "(child (a))"])
        self.assertEqual([row[:2] for row in table.rows], [["/school", "school"], ["/school/a", "  a"]])
        self.office("new", "empty", says="empty")
        self.office("map", "empty", "--out", "other.html", status=1, says="the store has no tree yet")
        self.assertFalse(os.path.exists(self.path("other.html")))

    def test_other_files_stay(self):
        self.school()
        self.write("notes.html", "<!DOCTYPE html>\n<p>mine\n")
        with self.unchanged():
            for name in ("notes.html", "store", "."):
                self.office("map", "store", "--out", name, status=3, says=f"{name} is there already and is not a map")
            self.office("map", "store", "--out", "no/map.html", status=3, says="cannot be written: No such file")

    def test_an_older_map_is_replaced_whole(self):
        self.school()
        self.office("map", "store", "--out", "map.html", says="9 nodes by 2 subjects")
        os.chmod(self.path("map.html"), 0o644)
        self.office("run", "-q", "store", given=["(child (tue))"])
        self.office("map", "store", "--out", "map.html", says="10 nodes by 2 subjects")
        self.assertEqual(os.stat(self.path("map.html")).st_mode & 0o777, 0o600)
        self.assertIn(b"tue", self.read("map.html"))
        self.write(".map.html.making", "what a killed run left")
        self.office("map", "store", "--out", "map.html", says="10 nodes by 2 subjects")
        self.assertEqual(sorted(os.listdir(self.folder)), ["map.html", "store"])

        def small_files():
            resource.setrlimit(resource.RLIMIT_FSIZE, (4_000, 4_000))

        with self.unchanged():
            says = "map.html cannot be written: File too large"
            self.office("map", "store", "--out", "map.html", preexec_fn=small_files, status=3, says=says)
        self.assertEqual(sorted(os.listdir(self.folder)), ["map.html", "store"])


def main():
    global library
    words = sys.argv[1:]
    if len(words) > 1 or (words and words[0].startswith("-")):
        sys.exit(__doc__)
    archive = os.path.abspath(words[0]) if words else office.ARCHIVE
    if not os.path.exists(archive):
        sys.exit(f"FAILED: {archive} is missing; `python3 tests/build.py library` makes it")
    with tempfile.TemporaryDirectory() as folder:
        office.library_file = os.environ["TIMETABLE_LIBRARY"] = office.make_library(folder, archive)
        office.library = library = Library(office.library_file)
        done = unittest.main(argv=sys.argv[:1], exit=False, verbosity=1).result
    sys.exit(0 if done.wasSuccessful() else 1)


if __name__ == "__main__":
    main()
