#!/usr/bin/env python3
"""program.py [PROGRAM]: tests of the program `timetable` by its input and output. The default is the program that `python3 tests/build.py program`
builds. Every expected answer is worked out here, from documents 01 and 02.
"""

import os
import random
import select
import subprocess
import sys
import tempfile

sys.path.insert(0, os.path.dirname(os.path.abspath(__file__)))
import timetable  # noqa: E402
import week  # noqa: E402

PROGRAM = timetable.arguments(__doc__)
OK = b"(ok)\n"
INPUT_MAX = 4_294_967_295
# Seconds within which an answer comes.
AT_ONCE = 10
LABEL_BYTES = set(b"ABCDEFGHIJKLMNOPQRSTUVWXYZabcdefghijklmnopqrstuvwxyz0123456789-_.")
# A subject who reads everything, and a root: what follows is a child line or a login.
START = b"(subject a)\n(rule accept read //* a)\n(root r)\n"
EXAMPLE = "\n".join(timetable.EXAMPLE + ["(view)", ""]).encode()
EXAMPLE_VIEW = b"(root school)\n(child (mon (lesson (class (10B)) (room (R12)) (note (RESTRICTED)))))\n(end 9)\n"
EXAMPLE_CHANGES = b"(update //room R14)\n(query //lesson/*)\n(rename //note/* cold)\n"
EXAMPLE_DONE = b"(done 1 1)\n(hit 3 class)\n(hit 3 room)\n(hit 3 note)\n(end 3)\n(done 1 0)\n"

# Who sees a week how: the labels that are hidden, and those shown as RESTRICTED.
READERS = {
    "office": ([], []),
    "pupils": (["lesson"], []),
    "visitors": (["tue", "p2", "IT1", "7A-PE"], ["thu", "p4", "R11", "8A-french"]),
    "cleaners": ([], ["*"]),
    "parents": (["*"], []),
}
LONG_LABEL = "a-label-of-24-bytes-long"
BLANK_SHEET = b"".join(b"%c %b\n" % (first, b"             |" * 5) for first in b" 12345678")

failed = []


def refused(number):
    return b"(refused %d)\n" % number


def check(name, got, wanted):
    if got != wanted:
        failed.append(name)
        print(f"FAILED: {name}: {got[:300]!r}{'..' if len(got) > 300 else ''}, not {wanted[:300]!r}{'..' if len(wanted) > 300 else ''}")


def expect(name, data, wanted):
    """The program answers an input as wanted."""
    check(name, timetable.answers(PROGRAM, data), wanted)


def child_line(size):
    """A child line of `size` bytes, at least 12, and the label of its tree: below it stand (size - 11) // 4 leaves `x`."""
    leaves, more = divmod(size - 11, 4)
    label = b"L" * (more + 1)
    line = b"(child (" + label + b" (x)" * leaves + b"))"
    assert len(line) == size
    return line, label, leaves


def lines_and_their_ends():
    expect("empty input", b"", b"")
    expect("one empty line", b"\n", refused(2))
    expect("three empty lines", b"\n\n\n", refused(2) * 3)
    expect("no final line feed", b"(subject a)", OK)
    expect("the second line has none", b"(subject a)\n(subject b)", OK * 2)
    expect("an empty line at the end", b"(subject a)\n\n", OK + refused(2))
    expect("a carriage return", b"(subject a)\r\n", refused(1))
    expect("a line feed alone ends a line", b"(subject a)\x0b(subject b)\n", refused(1))


def long_lines():
    for size in (1023, 1024):
        line, label, leaves = child_line(size)
        view = b"(root r)\n" + line + b"\n(end %d)\n" % (leaves + 2)
        expect(f"a child line of {size} bytes", START + line + b"\n(user a)\n(view)\n", OK * 5 + view)
        expect(f"a last line of {size} bytes", START + line, OK * 4)
    for size in (1025, 1026, 1027, 2048, 2049, 65536, 65537, 100_000, 131_073):
        line = child_line(size)[0]
        expect(f"a child line of {size} bytes", START + line + b"\n(user a)\n(view)\n", OK * 3 + refused(1) + OK + b"(root r)\n(end 1)\n")
        expect(f"a last line of {size} bytes", START + line, OK * 3 + refused(1))
    for size in (1, 2, 1023, 1024, 1025, 100_000):
        wanted = refused(2 if size <= 1024 else 1)
        expect(f"{size} spaces", b" " * size + b"\n(subject a)\n", wanted + OK)
        expect(f"{size} zero bytes", b"\0" * size + b"\n(subject a)\n", refused(1) + OK)
    expect("long lines one after the other", (b"y" * 3000 + b"\n") * 200 + b"(subject a)\n", refused(1) * 200 + OK)


def bytes_0_to_255():
    lines = [bytes([b]) for b in range(256) if b != 10]
    expect("each byte alone on a line", b"\n".join(lines) + b"\n", b"".join(refused(2 if 32 <= line[0] <= 126 else 1) for line in lines))
    for b in range(256):
        if b == 10:
            wanted = refused(2) * 2
        elif b in LABEL_BYTES:
            wanted = OK
        else:
            wanted = refused(2 if 32 <= b <= 126 else 1)
        expect(f"byte {b} in a name", b"(subject a" + bytes([b]) + b"b)\n", wanted)
        wanted = OK if b in b"*" or b in LABEL_BYTES else refused(4)
        if b in b" ()":
            wanted = refused(2)
        elif b == 10:
            wanted = refused(2) * 2
        elif b in b"/":
            wanted = refused(4)
        elif b in b"$":
            wanted = OK
        elif not 32 <= b <= 126:
            wanted = refused(1)
        expect(f"byte {b} as a path's step", b"(subject a)\n(rule accept read /" + bytes([b]) + b" a)\n", OK + wanted)
    expect("all bytes, no line feed but one", bytes(range(256)), refused(1) * 2)


def names(count):
    return [b"s%d" % i for i in range(count)]


def limits_of_the_policy():
    subjects = b"".join(b"(subject %s)\n" % name for name in names(64))
    expect("64 subjects", subjects, OK * 64)
    expect("65 subjects", subjects + b"(subject s64)\n(isa s63 s0)\n", OK * 64 + refused(7) + OK)
    expect("a 65th subject, declared twice", subjects + b"(subject s0)\n", OK * 64 + refused(5))
    expect("a 65th subject, RESTRICTED", subjects + b"(subject RESTRICTED)\n", OK * 64 + refused(7))
    expect("RESTRICTED as a subject", b"(subject RESTRICTED)\n(subject a)\n", refused(9) + OK)
    expect("RESTRICTED as a subject in another case", b"(subject restricted)\n(subject Restricted)\n(subject a)\n", refused(9) * 2 + OK)
    expect("a name declared twice in another case", b"(subject a)\n(subject A)\n(subject B)\n(isa b A)\n(isa B a)\n", OK + refused(5) + OK * 2 + refused(5))

    pairs = [(n, r) for n in range(64) for r in range(n)]
    isa = [b"(isa s%d s%d)\n" % pair for pair in pairs]
    expect("128 isa lines", subjects + b"".join(isa[:128]), OK * 192)
    expect("129 isa lines", subjects + b"".join(isa[:129]), OK * 192 + refused(7))
    expect("a 129th isa line, repeated", subjects + b"".join(isa[:128]) + isa[0], OK * 192 + refused(5))
    expect("a 129th isa line, R not before N", subjects + b"".join(isa[:128]) + b"(isa s0 s1)\n(isa s3 s3)\n", OK * 192 + refused(5) * 2)

    rules = b"(subject a)\n" + b"".join(b"(rule accept read //l%d a)\n" % k for k in range(128))
    expect("128 rules", rules, OK * 129)
    expect("129 rules", rules + b"(rule deny read //* a)\n(root r)\n", OK * 129 + refused(7) + OK)
    wrong = [(b"(rule deny read x a)\n", 4), (b"(rule deny read //* b)\n", 5), (b"(rule deny read //*[1] a)\n", 6), (b"(rule deny read /RESTRICTED a)\n", 7), (b"(isa a a)\n", 3)]
    for line, number in wrong:
        expect(f"a 129th rule line: {line.decode().strip()}", rules + line, OK * 129 + refused(number))
    expect("a repeated rule", b"(subject a)\n" + b"(rule accept read //* a)\n" * 128 + b"(rule accept read //* a)\n", OK * 129 + refused(7))


def labels_of_24_and_25_bytes():
    short, long = b"abcdefghijklmnopqrstuvwx", b"abcdefghijklmnopqrstuvwxy"
    assert (len(short), len(long)) == (24, 25)
    expect("a name of 24 bytes", b"(subject %s)\n" % short, OK)
    expect("a name of 25 bytes", b"(subject %s)\n" % long, refused(2))
    for label, root, path in ((short, OK, OK), (long, refused(2), refused(4))):
        expect(f"a rule's path with a label of {len(label)} bytes", b"(subject a)\n(rule accept read /%s a)\n" % label, OK + path)
        expect(f"a root of {len(label)} bytes", b"(root %s)\n" % label, root)
        expect(f"a child of {len(label)} bytes", b"(root r)\n(child (%s))\n(child (x (%s)))\n" % (label, label), OK + root * 2)
    expect(
        "a label of 24 bytes is shown whole",
        b"(subject a)\n(rule accept read //* a)\n(root %s)\n(child (%s))\n(user a)\n(view)\n(query //%s)\n(find //%s/*)\n(query //%s)\n" % ((short,) * 4 + (long,)),
        OK * 5 + b"(root %s)\n(child (%s))\n(end 2)\n(hit 0 %s)\n(hit 1 %s)\n(end 2)\n(hit 1 %s)\n" % ((short,) * 5) + refused(4),
    )


def nested(depth):
    """A tree of `depth` nodes, each below the one before."""
    return b"(x" + b" (x" * (depth - 1) + b")" * depth


def levels_and_records():
    expect("a child line down to level 11", START + b"(child " + nested(11) + b")\n", OK * 4)
    expect("a child line down to level 12", START + b"(child " + nested(12) + b")\n(child (x))\n", OK * 3 + refused(10) + OK)
    line = child_line(1023)[0]
    assert child_line(1023)[2] + 1 == 254
    fill = START + (line + b"\n") * 4 + b"(child (x (x) (x) (x) (x) (x)))\n"
    expect("1,023 records, and one", fill + b"(child (x (x)))\n(child (x))\n", OK * 8 + refused(11) + OK)
    expect("1,024 records, and one", fill + b"(child (x))\n(child (x))\n(user a)\n(find /*)\n", OK * 9 + refused(11) + OK + b"(hit 0 r)\n")


def the_longest_answers():
    """1,024 records with labels of 24 bytes, asked for again and again: more than the output that is held back."""
    label = b"abcdefghijklmnopqrstuvw"
    children = [b"(%s%s)" % (label, b"xyz"[k % 3 : k % 3 + 1]) for k in range(1023)]
    lines = [b"(child " + child + b")\n" for child in children]
    view = b"(root r)\n" + b"".join(lines) + b"(end 1024)\n"
    hits = [b"(hit 1 " + child[1:] + b"\n" for child in children]
    query = b"(hit 0 r)\n" + b"".join(hits) + b"(end 1024)\n"
    expect(
        "long answers",
        START + b"".join(lines) + b"(user a)\n" + b"(view)\n(query //*)\n(find /r/*)\n(view)\n(nothing)\n" * 9,
        OK * 1027 + (view + query + hits[0] + view + refused(2)) * 9,
    )


def every_letter():
    """A to Z in both cases, and the bytes beside them: letters alone have a case."""
    letters, beside = b"abcdefghijklmnopqrstuvwxyz", b"-._0123456789"
    nodes = bytes(sorted(letters + letters.upper() + beside))
    tree = b"(child (x " + b" ".join(b"(n%c)" % byte for byte in nodes) + b"))\n"
    begin = b"(subject s)\n(rule accept read //* S)\n(root r)\n" + tree + b"(user S)\n"
    for byte in nodes:
        hits = sorted({byte} | set(bytes([byte]).swapcase()) if chr(byte).isalpha() else {byte})
        wanted = b"".join(b"(hit 2 n%c)\n" % hit for hit in hits) + b"(end %d)\n" % len(hits)
        expect(f"the node n{byte:c} in either case", begin + b"(query //N%c)\n" % byte, OK * 5 + wanted)


def every_day():
    """Windows on each day of the year, both ends included, and days that are none."""
    begin = b"(subject s)\n(rule accept read //* s)\n(rule accept update //* s)\n(root r)\n(child (a (b)))\n(user s)\n"
    hits = b"(hit 1 a)\n(hit 2 b)\n(end 2)\n"
    lines, wanted = [], []
    for day in range(1, 367):
        beside = [other for other in (day - 1, day + 1) if 1 <= other <= 366]
        lines += [b"(day %03d)\n(window //a %d %d)\n(query /r//*)\n" % (day, day, day)]
        wanted += [OK, b"(done 1 1)\n", hits]
        for other in beside:
            lines.append(b"(day %d)\n(query /r//*)\n(window //a 1 366)\n" % other)
            wanted += [OK, b"(end 0)\n", b"(done 0 0)\n"]
        lines.append(b"(day %d)\n(window //a 1 366)\n" % day)
        wanted += [OK, b"(done 1 1)\n"]
    expect("a window of each day", begin + b"".join(lines), OK * 6 + b"".join(wanted))
    days = b"".join(b"(day %d)\n(query /r//*)\n" % day for day in range(1, 367))
    shown = b"".join(OK + (hits if 100 <= day <= 256 else b"(end 0)\n") for day in range(1, 367))
    expect("a window of some days", begin + b"(window //a 100 256)\n" + days, OK * 6 + b"(done 1 1)\n" + shown)
    bad = b"(day 0)\n(day 000)\n(day 367)\n(day 999)\n(window //a 0 9)\n(window //a 9 367)\n(window //x 9 8)\n"
    expect("no days", begin + bad + b"(day 1000)\n(day 0007)\n(day )\n(day +1)\n(window //a 1)\n", OK * 6 + refused(15) * 7 + refused(2) * 5)
    expect("no root yet", b"(day 1)\n(day 0)\n(window //a 9 8)\n(root r)\n(day 366)\n(child (a))\n(view)\n", refused(3) * 3 + OK * 2 + refused(3) + refused(8))


def the_example():
    expect("the example's view", EXAMPLE, OK * 10 + EXAMPLE_VIEW)
    expect("the whole example", EXAMPLE + EXAMPLE_CHANGES, OK * 10 + EXAMPLE_VIEW + EXAMPLE_DONE)
    expect("no user yet", b"(root r)\n(view)\n(query //*)\n(find x)\n(user a)\n", OK + refused(8) * 2 + refused(4) + refused(5))
    expect("no root yet", b"(view)\n(child (x))\n(user a)\n(query x)\n", refused(3) * 4)
    expect("stages", b"(root r)\n(root q)\n(subject a)\n(rule accept read //* a)\n", OK + refused(3) * 3)


def policy_of_readers():
    """The lines that make the readers see as they do."""
    yield from (f"(subject {name})" for name in READERS)
    for name, (hidden, restricted) in READERS.items():
        yield f"(rule accept read //* {name})"
        yield from (f"(rule deny read //{label} {name})" for label in hidden + restricted)
        yield from (f"(rule accept position //{label} {name})" for label in restricted)


def shown(tree, hidden, restricted):
    """What is shown of a tree: no tree, or one."""
    label, children = tree
    if label in hidden or "*" in hidden:
        return []
    carried = "RESTRICTED" if label in restricted or "*" in restricted else label
    return [(carried, [part for child in children for part in shown(child, hidden, restricted)])]


def sheet(view, room):
    """A room's sheet (document 02, card 3) from a view of no tree or one."""
    days = [day for _, children in view for day in children][:5]
    days += [("", [])] * (5 - len(days))
    rows = [[" "] + [day for day, _ in days]]
    for n in range(1, 9):
        row = [str(n)]
        for _, periods in days:
            rooms = [lessons for _, children in periods[n - 1 : n] for label, lessons in children if label.lower() == room.lower()]
            row.append(next((label for lessons in rooms[:1] for label, _ in lessons[:1]), ""))
        rows.append(row)
    return "".join(f"{first} " + "".join(f"{label:13.13}|" for label in cells) + "\n" for first, *cells in rows).encode()


def a_school_week():
    """A solver's week, and what a sheet cuts, leaves out or leaves blank: a long label, a ninth period, a sixth day, a room with no lesson before one."""
    root, days = week.week(classes=2)
    days[0][1].append(("p9", [("R10", [("no", [])])]))
    days[4][1][0][1].insert(0, ("R10", [(LONG_LABEL, []), ("no", [])]))
    days[4][1][1][1][:0] = [("R10", []), ("R10", [("no", [])])]
    return root, days + [("sat", [("p1", [("R10", [("no", [])])])])]


def sheets_for_the_doors():
    root, days = tree = a_school_week()
    school = [*policy_of_readers(), f"(root {root})", *(f"(child {week.tree_text(day)})" for day in days)]
    rooms = sorted({room for _, periods in days for _, rooms in periods for room, _ in rooms}) + ["RESTRICTED", "restricted", "R99", LONG_LABEL, LONG_LABEL.upper()]
    lines = [line for name in READERS for line in (f"(user {name})", *(f"(sheet {room})" for room in rooms))]
    sheets = {name: [sheet(shown(tree, *how), room) for room in rooms] for name, how in READERS.items()}
    # what is expected tells readers and rooms apart
    different = set.union(*map(set, sheets.values()))
    assert {len(text) for text in different} == {657} and len(different) == 18
    assert sheets["pupils"] == sheets["office"] and set(sheets["parents"]) == {BLANK_SHEET}
    expect("sheets", "\n".join(school + lines).encode(), OK * len(school) + b"".join(OK + b"".join(printed) for printed in sheets.values()))


def refused_sheets():
    forms = [b"", b" ", b" $", b" *", b" /R10", b" //R10", b" R10[1]", b" R10 R10", b" R10 ", b"  R10", b" (R10)", b" R+10", b" " + b"R" * 25]
    wrong = b"".join(b"(sheet%b)\n" % form for form in forms)
    right = b"(sheet R10)\n(sheet RESTRICTED)\n(sheet %b)\n" % (b"R" * 24)
    lines = right + wrong
    expect("sheets without a root", lines, refused(3) * 3 + refused(2) * len(forms))
    expect("sheets without a user", START + lines, OK * 3 + refused(8) * 3 + refused(2) * len(forms))
    expect("sheets of a root alone", START + b"(user a)\n" + lines, OK * 4 + BLANK_SHEET * 3 + refused(2) * len(forms))


def pieces_of_any_size():
    """What is written does not hang on how the input comes."""
    rand = random.Random(20240502)
    data = EXAMPLE + b"z" * 1024 + b"\n" + b"z" * 1025 + b"\n\n" + b"(query //lesson/*)\n" * 20 + b"(view)"
    query = b"(hit 3 class)\n(hit 3 room)\n(hit 3 note)\n(end 3)\n"
    wanted = OK * 10 + EXAMPLE_VIEW + refused(2) + refused(1) + refused(2) + query * 20 + EXAMPLE_VIEW
    for most in (1, 2, 7, 400, 1100):
        run = subprocess.Popen([PROGRAM], stdin=subprocess.PIPE, stdout=subprocess.PIPE)
        at = 0
        while at < len(data):
            size = rand.randint(1, most)
            os.write(run.stdin.fileno(), data[at : at + size])
            at += size
        check(f"pieces of at most {most} bytes", run.communicate(timeout=timetable.SECONDS)[0], wanted)
    # lines and their line feeds on both sides of the bytes 65,536 and 131,072
    for shift in range(-3, 4):
        count = (65536 + shift) // 1025
        rest = 65536 + shift - count * 1025
        body = (b" " * 1024 + b"\n") * count + b" " * rest
        for tail in (b"\n", b"(subject a)\n", b""):
            lines = (body + tail).split(b"\n")
            last = lines.pop()
            answered = refused(2) * len(lines) + (refused(2 if len(last) <= 1024 else 1) if last else b"")
            expect(f"a line feed near byte {65536 + shift}, tail {tail!r}", body + tail, answered)


def answers_come_at_once():
    """Whoever types a line sees its answer before typing the next."""
    run = subprocess.Popen([PROGRAM], stdin=subprocess.PIPE, stdout=subprocess.PIPE)
    for line, wanted in ((b"(subject a)\n", OK), (b"(view)\n", refused(3)), (b"(root r)\n(user a)\n", OK * 2), (b"(vi", b""), (b"ew)\n", b"(end 0)\n")):
        os.write(run.stdin.fileno(), line)
        got = b""
        while len(got) < len(wanted) and select.select([run.stdout], [], [], AT_ONCE)[0]:
            got += os.read(run.stdout.fileno(), 4096)
        check(f"an answer at once to {line!r}", got, wanted)
    run.stdin.close()
    check("nothing after the last answer", run.stdout.read(), b"")
    run.wait()


def shell(name, command, status, wanted, data=b""):
    """A command of the shell, with the program as $1."""
    with tempfile.NamedTemporaryFile() as file:
        file.write(data)
        file.flush()
        run = subprocess.run(["bash", "-c", command, "bash", PROGRAM, file.name], capture_output=True, timeout=timetable.SECONDS)
    check(name, b"%d %s%s" % (run.returncode, run.stdout, run.stderr), b"%d %s" % (status, wanted))


def closed_and_failing_streams():
    many = b"(subject a)\n" * 20_000
    shell("closed standard input", '"$1" <&-', 0, b"")
    shell("closed standard output", '"$1" <"$2" >&-', 0, b"", many)
    shell("both closed", '"$1" <&- >&-', 0, b"")
    shell("standard input is a folder", '"$1" </', 0, b"")
    shell("standard input is open for writing only", '"$1" 0>/dev/null', 0, b"")
    shell("standard output is full", '"$1" <"$2" >/dev/full', 0, b"", many)
    shell("standard output is open for reading only", '"$1" <"$2" 1</dev/null', 0, b"", many)
    # the failing write ends a program whose reader is gone, since its start-up code ignores the signal, as that of Rust programs does
    shell("a reader that goes away", '"$1" <"$2" | head -n 1; exit ${PIPESTATUS[0]}', 0, OK, many)
    shell("a reader that goes away, no signal", 'trap "" PIPE; "$1" <"$2" | head -n 1; exit ${PIPESTATUS[0]}', 0, OK, many)
    # a failing output ends it, even if the input never does
    shell("endless lines to a full output", 'yes "(view)" | "$1" >/dev/full; exit ${PIPESTATUS[1]}', 0, b"")


def the_limit_of_the_input():
    """4,294,967,295 bytes: a line too long, one more, and one that the limit cuts; what follows is not read."""
    tail = b"\n(view)\n(subject a)\n(view)\n"
    read = len(b"\n(view)\n(subject a")
    block = bytes(1 << 20)
    run = subprocess.Popen([PROGRAM], stdin=subprocess.PIPE, stdout=subprocess.PIPE)
    left = INPUT_MAX - read
    try:
        while left > 0:
            left -= os.write(run.stdin.fileno(), block[:left])
        os.write(run.stdin.fileno(), tail)
    except BrokenPipeError:
        pass
    out = run.communicate(timeout=timetable.SECONDS)[0]
    check("the limit of the input", out, refused(1) + refused(3) + refused(2))


def main():
    tests = [lines_and_their_ends, long_lines, bytes_0_to_255, limits_of_the_policy, labels_of_24_and_25_bytes, levels_and_records, the_longest_answers, every_letter, every_day, the_example]
    tests += [sheets_for_the_doors, refused_sheets, pieces_of_any_size, answers_come_at_once, closed_and_failing_streams, the_limit_of_the_input]
    for test in tests:
        test()
    print(f"{len(tests)} groups of tests of the program, {len(failed)} checks failed")
    sys.exit(1 if failed else 0)


if __name__ == "__main__":
    main()
