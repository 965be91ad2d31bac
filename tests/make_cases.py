#!/usr/bin/env python3
"""Writes crates/cases/stdin and crates/cases/stdout: the cases of documents 01 and 02 that fall to labels, tables, paths, policies, rights and selections.

Each case stands here with its answer and the sentence of the documents (or the reading of it in docs/DECISIONS.md) that the answer comes from. The answers
are written by hand; nothing here computes them. With --check it writes nothing, and fails where the two files are not what the list says.
"""

import os
import sys

sys.path.insert(0, os.path.dirname(os.path.abspath(__file__)))
from trials import HIDDEN, ISA_AT, POLICY_BYTES, RECORD_BYTES, ROOT, RULE_BYTES, RULES_AT, STEPS_AT, SUBJECTS_AT, flat, policy_of, record, table_of  # noqa: E402

lines, answers = [], []


def case(line, answer):
    lines.append(line)
    answers.append(answer)


def yes_no(b):
    return "yes" if b else "no"


# ---- Paths

L24, L25 = "abcdefghijklmnopqrstuvwx", "abcdefghijklmnopqrstuvwxy"
PATHS = [
    # "A path is 1 to 16 steps."
    ("/a", True),
    ("", False),
    ("/", False),
    ("//", False),
    ("/a" * 16, True),
    ("/a" * 17, False),
    ("//*" * 16, True),
    ("//*" * 17, False),
    # "`/` before a step goes to children, `//` to all descendants": every step has its slash
    ("a", False),
    ("///a", False),
    ("/a/", False),
    ("/a//", False),
    # "A step is a label, `*`, or `$`": letters, digits, hyphen, underscore and full stop
    ("/*", True),
    ("/$", True),
    ("//a/*//$", True),
    ("/A-z_0.9", True),
    ("/.", True),
    ("/..", True),
    ("/-1", True),
    ("/or/div", True),
    ("/RESTRICTED", True),
    ("/a+", False),
    ("/a$", False),
    ("/**", False),
    ("/a@b", False),
    # "A label is 1 to 24 bytes"
    ("/" + L24, True),
    ("/" + L25, False),
    ("/a[" + L24 + "]", True),
    ("/a[" + L25 + "]", False),
    # "then at most 2 brackets"
    ("/a[b][c]", True),
    ("/a[b][c][d]", False),
    ("/a[1][2]", True),
    ("/a[1][2][3]", False),
    # "a position, well formed from 1 to 9999 without leading zero"
    ("/a[1]", True),
    ("/a[9999]", True),
    ("/a[10000]", False),
    ("/a[0]", False),
    ("/a[01]", False),
    ("/a[]", False),
    # "Otherwise a bracket holds a path": not only digits
    ("/a[10B]", True),
    ("/a[7/x]", True),
    ("/a[7[1]]", True),
    ("/a[0x]", True),
    ("/a[-1]", True),
    ("/a[1.0]", True),
    ("/a[*]", True),
    ("/a[$]", True),
    ("/a[b//c/*]", True),
    # "it starts at a child, with no leading slash"
    ("/a[/b]", False),
    ("/a[//b]", False),
    # 16 steps are counted for each path by itself, a bracket's path too
    ("/a[" + "/".join(["b"] * 16) + "]", True),
    ("/a[" + "/".join(["b"] * 17) + "]", False),
    # "Brackets nest at most 3 deep"; every bracket counts, a position too
    ("/a[b[c[d]]]", True),
    ("/a[b[c[1]]]", True),
    ("/a[b[c[d[e]]]]", False),
    ("/a[b[c[d[1]]]]", False),
    ("/a[b[c][d]][e[f[g]]]", True),
    # a bracket has both its ends
    ("/a[b", False),
    ("/a[b[c]", False),
    ("/a]", False),
    ("/a[b]]", False),
    ("/a[b]c", False),
    ("/[a]", False),
    ("/a[a=b]", False),
]
for text, good in PATHS:
    case("p " + text, yes_no(good))

# ---- Tables

SMALL = table_of([(0, "r"), (1, "a"), (2, "b"), (1, "c")], 5)


def poked(data, at, new):
    return data[:at] + bytes(new) + data[at + len(new) :]


RECORD_1 = 4 + RECORD_BYTES
TABLES = [
    (SMALL, True),
    # an empty table: the count is 0
    (bytes(4), True),
    (bytes(4 + 3 * RECORD_BYTES), True),
    # "a table under 4 bytes"
    (b"", False),
    (bytes(3), False),
    # "with a count above its capacity": capacity is rounded down
    (poked(SMALL, 0, [5]), False),
    (poked(SMALL, 0, [6]), False),
    (poked(SMALL, 3, [1]), False),
    (table_of([(0, "r")])[:-1], False),
    (table_of([(0, "r")]) + bytes(31), True),
    # "The stored tree has one root, at level 0."
    (poked(SMALL, 4, [1]), False),
    (poked(SMALL, RECORD_1, [0]), False),
    # "Levels run 0 to 11.", parent before children: a level is at most one more than the one before
    (poked(SMALL, RECORD_1, [2]), False),
    (table_of([(k, "x") for k in range(12)]), True),
    (table_of([(k, "x") for k in range(13)]), False),
    # "A label is 1 to 24 bytes"
    (table_of([(0, L24)]), True),
    (poked(SMALL, RECORD_1 + 1, [0]), False),
    (poked(table_of([(0, L24)]), 5, [25]), False),
    # "letters, digits, hyphen, underscore and full stop, ASCII"
    (poked(SMALL, RECORD_1 + 2, b" "), False),
    (poked(SMALL, RECORD_1 + 2, b"$"), False),
    (poked(SMALL, RECORD_1 + 2, [0xE4]), False),
    # "label padded with zeros (24)", the window, and 2 zero bytes
    (poked(SMALL, RECORD_1 + 3, b"x"), False),
    (poked(SMALL, RECORD_1 + 25, b"x"), False),
    (poked(SMALL, RECORD_1 + 30, [1]), False),
    (poked(SMALL, RECORD_1 + 31, [1]), False),
    # Document 02, card 7: "a first and last day, 16 bits each, little-endian, 1 to 366"; "A table whose first day is after its last, or whose root is not 1 to
    # 366, is no table."
    (table_of([(0, "r"), (1, "a", 1, 1), (1, "b", 366, 366), (1, "c", 255, 256)]), True),
    (table_of([(0, "r"), (1, "a", 5, 9), (2, "b", 1, 366)]), True),
    (table_of([(0, "r"), (1, "a", 0, 366)]), False),
    (table_of([(0, "r"), (1, "a", 1, 367)]), False),
    (table_of([(0, "r"), (1, "a", 367, 367)]), False),
    (table_of([(0, "r"), (1, "a", 6, 5)]), False),
    (table_of([(0, "r"), (1, "a", 256, 255)]), False),
    (table_of([(0, "r"), (1, "a", 1, 1 + 512)]), False),
    (table_of([(0, "r"), (1, "a"), (1, "b", 0, 0)]), False),
    (table_of([(0, "r", 0, 0), (1, "a", 0, 0)]), False),
    (table_of([(0, "r", 2, 366)]), False),
    (table_of([(0, "r", 1, 365)]), False),
    (table_of([(0, "r", 1, 1), (1, "a")]), False),
    # "RESTRICTED as a label included"; document 02, card 6: "Label equality now ignores the case of A to Z everywhere that two labels are compared: .. the ban
    # on RESTRICTED"
    (table_of([(0, "RESTRICTED")]), False),
    (table_of([(0, "restricted")]), False),
    (table_of([(0, "r"), (1, "Restricted")]), False),
    (table_of([(0, "r"), (1, "rESTRICTEd")]), False),
    (table_of([(0, "RESTRICTED1")]), True),
    (table_of([(0, "restricte")]), True),
    (table_of([(0, "restr_cted")]), True),
    (table_of([(0, "R12"), (1, "r12"), (1, "r12"), (1, "R12")]), True),
    # "All bytes after the last used record are zero", to the very end of the lent bytes
    (poked(SMALL, len(SMALL) - 1, [1]), False),
    (SMALL + b"\1", False),
    (SMALL + b"\0", True),
]
for data, good in TABLES:
    case("t " + data.hex(), yes_no(good))


# ---- Policies: a good one, and each condition of 13 once


def put_policy(data):
    """The lines that put a policy: zeros, and the bytes that are not."""
    lines.append("z %06x" % len(data))
    at = 0
    while at < len(data):
        if data[at : at + RECORD_BYTES].strip(b"\0"):
            lines.append("q %06x %s" % (at, data[at : at + RECORD_BYTES].hex()))
        at += RECORD_BYTES


def policy_case(changes, good):
    """A policy with bytes changed at places; the good one is put back after it."""
    for at, new in changes:
        lines.append("q %06x %s" % (at, bytes(new).hex()))
    case("k", yes_no(good))
    for at, new in changes:
        lines.append("q %06x %s" % (at, GOOD[at : at + len(new)].hex()))


NAMES = ["staff", "head", "SHA", "x"]
GOOD = policy_of(
    NAMES,
    [("head", "staff"), ("SHA", "head")],
    [(True, "read", "//*", "staff"), (False, "read", "/school/note//$", "SHA")],
)
RULE_0, STEP_0 = RULES_AT, RULES_AT + STEPS_AT
put_policy(bytes(POLICY_BYTES))
case("k", "yes")  # all zeros: no subject, no isa line, no rule
put_policy(bytes(POLICY_BYTES - 1))
case("k", "no")  # another length than the fixed one
put_policy(bytes(POLICY_BYTES + 1))
case("k", "no")
put_policy(GOOD)
case("k", "yes")
POLICIES = [
    # "At most 64 subjects, 128 isa lines, 128 rules."
    ([(0, [65])], False),
    ([(1, [129])], False),
    ([(2, [129])], False),
    # a count above what is held: the next is no subject, no isa line, no rule
    ([(0, [5])], False),
    ([(1, [3])], False),
    ([(2, [3])], False),
    # every byte not in use is zero: the head, a subject, an isa line, a rule, a step
    ([(3, [1])], False),
    ([(7, [1])], False),
    ([(SUBJECTS_AT + 4 * RECORD_BYTES, [1])], False),
    ([(ISA_AT + 4, [1])], False),
    ([(RULES_AT + 2 * RULE_BYTES, [1])], False),
    ([(RULE_0 + 4, [1])], False),
    ([(STEP_0 + RECORD_BYTES, [1])], False),
    ([(POLICY_BYTES - 1, [1])], False),
    # a name is a label, not RESTRICTED, in whatever case (document 02, card 6)
    ([(SUBJECTS_AT, record(0, "RESTRICTED"))], False),
    ([(SUBJECTS_AT, record(0, "restricted"))], False),
    ([(SUBJECTS_AT, record(0, "Restricted"))], False),
    ([(SUBJECTS_AT, record(0, "s t"))], False),
    ([(SUBJECTS_AT + 1, [0])], False),
    ([(SUBJECTS_AT, [1])], False),
    ([(SUBJECTS_AT + 31, [1])], False),
    # "5 a name unknown, declared twice, an isa line repeated, or R not before N"
    ([(SUBJECTS_AT, record(0, "SHA"))], False),
    # Document 02, card 6: "Two subjects whose names differ only in case count as declared twice."
    ([(SUBJECTS_AT, record(0, "sha"))], False),
    ([(SUBJECTS_AT, record(0, "Sha"))], False),
    ([(SUBJECTS_AT + 3 * RECORD_BYTES, record(0, "HEAD"))], False),
    ([(SUBJECTS_AT, record(0, "STAFF"))], True),
    ([(SUBJECTS_AT, record(0, "S-HA"))], True),
    ([(ISA_AT, [2, 1])], False),
    ([(ISA_AT, [1, 1])], False),
    ([(ISA_AT, [0, 1])], False),
    ([(ISA_AT, [4, 0])], False),
    ([(ISA_AT, [3, 0])], True),
    ([(RULE_0 + 2, [4])], False),
    ([(RULE_0 + 2, [3])], True),
    # "(rule accept|deny RIGHT PATH N)": one of two words, one of five rights
    ([(RULE_0, [2])], False),
    ([(RULE_0 + 1, [0])], False),
    ([(RULE_0 + 1, [3])], False),
    ([(RULE_0 + 1, [32])], False),
    ([(RULE_0 + 1, [16])], True),
    # "A path is 1 to 16 steps."
    ([(RULE_0 + 3, [0])], False),
    ([(RULE_0 + 3, [17])], False),
    # a step is `*`, `$` or a label, after `/` or `//`, and not RESTRICTED
    ([(STEP_0, [2])], False),
    ([(STEP_0, record(1, "RESTRICTED"))], False),
    ([(STEP_0, record(1, "restricteD"))], False),
    ([(STEP_0, record(1, "a[1]"))], False),
    ([(STEP_0, record(1, "**"))], False),
    ([(STEP_0, record(1, "$"))], True),
    ([(STEP_0, record(0, L24))], True),
]
for changes, good in POLICIES:
    policy_case(changes, good)
case("k", "yes")

# "A policy word is a label named in any rule's path; once any rule uses `$`, every subject's name is one too."
for word, good in [("school", True), ("note", True), ("read", False), ("staff", True), ("x", True), ("y", False), ("$", False), ("*", False), ("", False)]:
    case("w " + word, yes_no(good))
put_policy(policy_of(NAMES, [], [(True, "read", "/school", "staff")]))
for word, good in [("school", True), ("staff", False), ("schoo", False), ("schooll", False)]:
    case("w " + word, yes_no(good))
# Document 02, card 6: "Label equality now ignores the case of A to Z everywhere that two labels are compared: .. policy words"
put_policy(policy_of(["Sha", "R12"], [], [(True, "read", "/School/a-Z_az.AZ", "R12")]))
for word, good in [("school", True), ("SCHOOL", True), ("sCHOOl", True), ("A-z_AZ.az", True), ("a-y_az.az", False), ("b-z_az.az", False), ("a_z_az.az", False), ("sha", False), ("RESTRICTED", False)]:
    case("w " + word, yes_no(good))
put_policy(policy_of(["Sha", "R12"], [], [(True, "read", "//$", "R12")]))
for word, good in [("SHA", True), ("sha", True), ("r12", True), ("R12", True), ("R1", False), ("rq2", False)]:
    case("w " + word, yes_no(good))

# ---- Rights: position 1, read 2, insert 4, update 8, delete 16


def put_table(tree):
    case("t " + table_of(flat(tree)).hex(), "yes")


def rights(names, isa, rules, expected):
    """The rights of subjects on every node, in document order."""
    put_policy(policy_of(names, isa, rules))
    case("k", "yes")
    for u, sets in expected:
        case("r %02x" % u, sets)


SCHOOL = ("school", [("mon", [("lesson", [("class", [("10B", [])]), ("room", [("R12", [])]), ("note", [("ill", [])])])])])
put_table(SCHOOL)
# the example: nodes school mon lesson class 10B room R12 note ill; staff and SHA have the same rights, "The isa relation is taken reflexive and transitive."
EXAMPLE = [
    (True, "read", "//*", "staff"),
    (False, "read", "//note/*", "staff"),
    (True, "position", "//note/*", "staff"),
    (True, "update", "//room/*", "staff"),
]
rights(["staff", "SHA"], [("SHA", "staff")], EXAMPLE, [(0, "020202020202" + "0a" + "02" + "01"), (1, "020202020202" + "0a" + "02" + "01"), (2, "refused")])
put_table(("r", [("a", [("a", [("b", [])])]), ("b", [])]))
# "with none, no right"
rights(["u"], [], [], [(0, "0000000000")])
# "The last applicable rule for a right wins": deny after accept, accept after deny
rights(["u"], [], [(True, "read", "//*", "u"), (False, "read", "//a", "u")], [(0, "0200000202")])
rights(["u"], [], [(False, "read", "//a", "u"), (True, "read", "//*", "u")], [(0, "0202020202")])
# a rule for one right says nothing of another
rights(["u"], [], [(True, "read", "//*", "u"), (False, "update", "//*", "u"), (True, "delete", "/r/b", "u")], [(0, "0202020212")])
# "`/` before a step goes to children, `//` to all descendants; a leading `//` includes the root."
rights(["u"], [], [(True, "position", "/r", "u"), (True, "read", "/a", "u"), (True, "insert", "//r", "u")], [(0, "0500000000")])
rights(["u"], [], [(True, "position", "/r/a", "u"), (True, "read", "/r//a", "u"), (True, "insert", "//a/b", "u"), (True, "update", "//a//b", "u")], [(0, "0003020c00")])
rights(["u"], [], [(True, "read", "//a//*", "u"), (True, "update", "/*/*", "u"), (True, "delete", "/r/a/a/b", "u"), (True, "position", "/r/r", "u")], [(0, "0008021208")])
# roles of roles; a role's rules reach its members' members, and not the other way
rights(
    ["all", "staff", "head", "guest"],
    [("staff", "all"), ("head", "staff")],
    [(True, "read", "/r", "all"), (True, "update", "/r", "staff"), (True, "delete", "/r", "head")],
    [(0, "0200000000"), (1, "0a00000000"), (2, "1a00000000"), (3, "0000000000")],
)
# Document 02, card 5: "`$` passes a label equal to the name of any subject that the user is, the login name included." In a rule it is the subject whose
# rights are asked: not the rule's N alone, and no name of a subject that it is not
rights(["r", "a", "b"], [("a", "r"), ("b", "r")], [(True, "read", "//$", "r")], [(0, "0200000000"), (1, "0202020000"), (2, "0200000202")])
rights(["r", "a"], [("a", "r")], [(True, "read", "//$/*", "r")], [(0, "0002000002"), (1, "0002020202")])
# a role of a role; what the subject is beside the rule's N; two names in one path
rights(["b", "r", "a"], [("r", "b"), ("a", "r")], [(True, "read", "//$", "b")], [(0, "0000000202"), (1, "0200000202"), (2, "0202020202")])
rights(["r", "b", "a"], [("a", "r"), ("a", "b")], [(True, "read", "//$", "r")], [(0, "0200000000"), (1, "0000000000"), (2, "0202020202")])
rights(["r", "a", "b"], [("b", "r")], [(True, "read", "//$/$", "r")], [(0, "0000000000"), (1, "0000000000"), (2, "0000000002")])
# Document 02, card 6, "R12 and r12 are one room": steps and `$` pass labels in either case. Nodes R A(a(B)) b
put_table(("R", [("A", [("a", [("B", [])])]), ("b", [])]))
rights(["u"], [], [(True, "read", "//a", "u"), (True, "position", "/r/A", "u"), (True, "insert", "//A/b", "u")], [(0, "0003020400")])
rights(["u"], [], [(True, "read", "//*", "u"), (False, "read", "//B", "u")], [(0, "0202020000")])
rights(["r", "A"], [("A", "r")], [(True, "read", "//$", "r")], [(0, "0200000000"), (1, "0202020000")])
rights(["r", "A"], [("A", "r")], [(True, "read", "//$/b", "r")], [(0, "0000000002"), (1, "0000000202")])

# ---- Selections

NODES = lambda *numbers: "".join("%04x" % n for n in numbers)  # noqa: E731


def selections(tree, shown, pairs, user=0):
    put_table(tree)
    lines.append("h " + NODES(*shown))
    for path, marks in pairs:
        case("s %02x %s" % (user, path), "".join("0" + m for m in marks) if set(marks) <= {"0", "1"} else marks)


put_policy(policy_of(["a", "b"]))
# "Root `a`, child `(c (a (b)))`: `//a[b]` selects only the `a` at level 2."
selections(("a", [("c", [("a", [("b", [])])])]), range(4), [("//a[b]", "0010")])
# "Root `r`, children `(a)`, `(b)`: `//*[1]` selects `r` and `a`."; "The document node above the root is never selected"
selections(("r", [("a", []), ("b", [])]), range(3), [("//*[1]", "110"), ("//*", "111"), ("/*", "100"), ("/a", "000"), ("//a", "010"), ("/*[2]", "000"), ("/*/*[2]", "001")])
# nodes: r x(y(z)) x(y(w(z)) z) a(b) c b(b)
TREE = ("r", [("x", [("y", [("z", [])])]), ("x", [("y", [("w", [("z", [])])]), ("z", [])]), ("a", [("b", [])]), ("c", []), ("b", [("b", [])])])
#                 rxyzxywzzabcbb
FOREST = [
    ("//x/y//z", "00010001000000"),
    ("//x//z", "00010001100000"),
    ("/r/x", "01001000000000"),
    ("/x", "00000000000000"),
    ("//zz", "00000000000000"),
    # "it counts, from 1, the siblings under one parent that pass the step and its earlier brackets"
    ("/r/*[b][1]", "00000000010000"),
    ("/r/*[b][2]", "00000000000010"),
    ("/r/*[1][b]", "00000000000000"),
    ("/r/*[3][b]", "00000000010000"),
    ("//*[1][2]", "00000000000000"),
    ("//x[2]", "00001000000000"),
    ("//z[1]", "00010001100000"),
    ("//*[2]", "00001000100000"),
    ("/r/*[5]", "00000000000010"),
    ("/r/*[6]", "00000000000000"),
    # a bracket's path of several steps; it "passes if it finds something from this very node"
    ("//*[y/w/z]", "00001000000000"),
    ("//*[y//z]", "01001000000000"),
    ("//*[x/y]", "10000000000000"),
    ("//*[*]", "11101110010010"),
    ("//*[*[*]]", "11001100000000"),
    ("//*[y[w[z]]]", "00001000000000"),
    ("//x[z][y]", "00001000000000"),
    ("//x[y[2]]", "00000000000000"),
    ("//x[*[2]]", "00001000000000"),
    ("//x[y]/z", "00000000100000"),
    # "`$` (the label equal to the session's login name)": of one who is nobody else
    ("//$", "00000000010000"),
    ("//*[$]", "10000000000000"),
    ("//$/b", "00000000001000"),
    # "If the path is not well formed, nothing of it is used."
    ("//x[0]", "not well formed"),
    ("x", "not well formed"),
]
selections(TREE, range(14), FOREST)
for path, marks in [("//$", "00000000001011"), ("//*[$]", "10000000010010")]:
    case("s 01 " + path, "".join("0" + m for m in marks))
# a view: r x(RESTRICTED(z)) a c; "otherwise RESTRICTED", "where RESTRICTED may be named", and never found by its true label
lines.append("h " + NODES(0, 1, 2 + HIDDEN, 3, 9, 11))
for path, marks in [("//RESTRICTED", "001000"), ("//y", "000000"), ("//x/*", "001000"), ("//x/y/z", "000000"), ("//RESTRICTED/z", "000100"), ("/r/*[2]", "000010"), ("//*[RESTRICTED]", "010000")]:
    case("s 00 " + path, "".join("0" + m for m in marks))
# a hidden label is not found by `$` either
lines.append("h " + NODES(0, 9 + HIDDEN, 10))
for path, marks in [("//$", "000"), ("//RESTRICTED/b", "001"), ("//*", "111")]:
    case("s 00 " + path, "".join("0" + m for m in marks))
# nothing shown: nothing selected
lines.append("h ")
case("s 00 //*", "")
# a number that is no record's, a subject that is not declared
lines.append("h " + NODES(14))
case("s 00 //*", "refused")
lines.append("h " + NODES(13))
case("s 00 //b", "01")
case("s 02 //b", "refused")
# Document 02, card 5: "This holds in rules and in commands." x, c, b, a: b is x, and a is b; a position counts what passes under whichever name
put_policy(policy_of(["x", "c", "b", "a"], [("b", "x"), ("a", "b")]))
case("k", "yes")
lines.append("h " + NODES(*range(14)))
OWN = [
    #             rxyzxywzzabcbb
    (0, "//$", "01001000000000"),
    (1, "//$", "00000000000100"),
    (2, "//$", "01001000001011"),
    (3, "//$", "01001000011011"),
    (3, "//$/$", "00000000001001"),
    (3, "//*[$]", "10000000010010"),
    (3, "/r/$[3]", "00000000010000"),
    (3, "/r/$[4]", "00000000000010"),
    (3, "/r/$[5]", "00000000000000"),
    (3, "/r/$[b][2]", "00000000000010"),
    (3, "//*[$[4]]", "10000000000000"),
]
for user, path, marks in OWN:
    case("s %02x %s" % (user, path), "".join("0" + m for m in marks))
# a hidden label is found under no name
lines.append("h " + NODES(0, 9 + HIDDEN, 10))
case("s 03 //$", "000001")
# Document 02, card 6: labels in a command's path, in its brackets and for `$` are found in either case. Nodes School R12(x) r12 Room(X(y)) SHA r-12
put_policy(policy_of(["staff", "Sha"], [("Sha", "staff")]))
CASES = [
    #           SRxrRXySr
    ("//r12", "010100000"),
    ("//R12", "010100000"),
    ("/SCHOOL/r12[2]", "000100000"),
    ("//R12[X]", "010000000"),
    ("//X", "001001000"),
    ("//*[x]", "010010000"),
    ("//ROOM/x/Y", "000000100"),
    ("//R-12", "000000001"),
    ("//$", "000000010"),
    ("//r_12", "000000000"),
    ("//rq2", "000000000"),
]
put_table(("School", [("R12", [("x", [])]), ("r12", []), ("Room", [("X", [("y", [])])]), ("SHA", []), ("r-12", [])]))
lines.append("h " + NODES(*range(9)))
for path, marks in CASES:
    case("s 01 " + path, "".join("0" + m for m in marks))
# "where RESTRICTED may be named": in either case, and a hidden label in no case
lines.append("h " + NODES(0, 1 + HIDDEN, 2, 3, 7 + HIDDEN))
for path, marks in [("//restricted", "01001"), ("//Restricted/X", "00100"), ("//*[resTRicted]", "10000"), ("//R12", "00010"), ("//$", "00000")]:
    case("s 01 " + path, "".join("0" + m for m in marks))

text = "".join(line + "\n" for line in lines)
if 65536 <= len(text):
    sys.exit("FAILED: more lines than the program of cases reads")
for name, body in (("stdin", text), ("stdout", "".join(answer + "\n" for answer in answers))):
    path = os.path.join(ROOT, "crates", "cases", name)
    if "--check" in sys.argv:
        with open(path, encoding="ascii") as kept:
            if kept.read() != body:
                sys.exit(f"FAILED: crates/cases/{name} is not what this list says; run tests/make_cases.py")
    else:
        with open(path, "w", encoding="ascii") as out:
            out.write(body)
print(f"{len(answers)} cases")
