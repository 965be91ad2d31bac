"""Loading the solver's file (document 02, card 2): what a document costs beside the check of the table that it leaves, and how the cost grows.

Fails where a document of 16,384 nodes takes more instructions than 3 times those of `(user N)` on the table that it leaves and 40 a byte, where nested elements take
more than 40 a byte and pass or a second, where a byte of a longer document takes more, or where a call returns another number than it should.
"""
from measure import LOAD_XML, count, hot, millions, returned, spread, times
from stores import FIVE, LONG, NODES_MAX, NUMBERED, before_root, by_level, deep, document, flat, in_order, nested, school, table

RUNS = 31
USER_BOUND, BYTE_BOUND, MS_BOUND, GROWTH_BOUND = 3, 40, 1000, 1.05
WINDOW = 16384  # a pass compares the closing tags of so many levels
OK, TOO_DEEP, TABLE_FULL, NO_DOCUMENT = 5, -10, -11, -14

BEFORE = before_root(FIVE)
LOGIN = f"(user {NUMBERED[0]})"
EMPTY = table([])

PAIRS = (NODES_MAX - 2) // 2
# an element with a text, again and again under the root
INSIDE = [(0, "a"), *[(1, "a"), (2, "b")] * PAIRS, (1, "a")]
# texts and elements in turn under the root: the fewest bytes a node
BESIDE = [(0, "a"), *[(1, "b"), (1, "a")] * PAIRS, (1, "b")]

# name, tree, document
FULL = [
    ("a school's week, indented", school(), document(school(), "  ")),
    ("the same without blanks", school(), document(school())),
    ("chains to level 11, a label a level", by_level(deep()), document(by_level(deep()))),
    ("`<L></L>`, siblings, L of 24 bytes", in_order(flat(), [LONG]), f"<{LONG}>" + f"<{LONG}></{LONG}>" * (NODES_MAX - 1) + f"</{LONG}>"),
    ("`<a></a>`, siblings", in_order(flat(), ["a"]), "<a>" + "<a></a>" * (NODES_MAX - 1) + "</a>"),
    ("`<a/>`, siblings", in_order(flat(), ["a"]), document(in_order(flat(), ["a"]))),
    ("`<a>b</a>`, siblings", INSIDE, document(INSIDE)),
    ("`b<a/>`, siblings", BESIDE, "<a>" + "b<a/>" * PAIRS + "b</a>"),
]

DEPTHS = [WINDOW, 2 * WINDOW, 100_000]
DEEPEST = DEPTHS[-1]
# name, document, passes, what is returned
NESTED = [
    *[(f"{depth:,}, closed", nested(depth), -(-depth // WINDOW), TOO_DEEP) for depth in DEPTHS],
    (f"{DEEPEST:,}, open", "<a>" * DEEPEST, 1, NO_DOCUMENT),
    (f"{DEEPEST:,}, the innermost closed by another name", nested(DEEPEST, "b"), -(-DEEPEST // WINDOW), NO_DOCUMENT),
]

# nodes of the week and its lessons a period, for a table of so many records
LONG_RECORDS = 1024
LONG_WEEKS = [(5_830, 53), (58_300, 4 * 53), (233_200, 16 * 53)]

HEAD = f"""
## The solver's file

Document 02, card 2: documents of 16,384 nodes into an empty table of as many records, under the policy of one subject and five rules. At most {USER_BOUND} times the
instructions of `{LOGIN}` on the table that the document leaves and {BYTE_BOUND} for each of its bytes are allowed. Instructions are millions, times the median of {RUNS} runs
(and quartiles); those of Rust, from the straightforward version of docs/src, are beside them, and both left the same bytes.

| document | bytes | instr. | `{LOGIN}` | allowed | share | a byte | Rust instr. | ms | Rust ms | most of it in |
|---|---|---|---|---|---|---|---|---|---|---|
"""
NESTED_HEAD = f"""
### Nested elements

Elements `<a>`, each within the one before it, into the same table. One pass compares the closing tags of {WINDOW:,} levels. At most {BYTE_BOUND} instructions a
byte and pass and {MS_BOUND:,} ms are allowed.

| elements | bytes | refused with | passes | instr. | a byte | a byte and pass | ms |
|---|---|---|---|---|---|---|---|
"""
LONG_HEAD = f"""
### Long documents

The indented week with more lessons a period, into a table of {LONG_RECORDS:,} records: refused with 11, so this is the check alone. A byte of a longer one may take at most {GROWTH_BOUND}
times the instructions.

| bytes | nodes | instr. | a byte |
|---|---|---|---|
"""


def expect(work, library, bounds, name, empty, text, number):
    """Holds a document to the number that the call returns."""
    got = returned(work, library, (BEFORE, empty), text, LOAD_XML)
    if got != number:
        bounds.hold(False, f"load, {name}: returns {got}, not {number}")


def measured(work, libraries, text):
    """The instructions of loading a document into the empty table, and the times, for each library."""
    ms, quartiles = times(work, libraries, (BEFORE, EMPTY), text, RUNS, LOAD_XML)
    return [count(work, library, (BEFORE, EMPTY), text, LOAD_XML) for library in reversed(libraries)][::-1], ms, list(map(spread, ms, quartiles))


def full_text(work, libraries, bounds):
    text = HEAD
    for name, tree, written in FULL:
        expect(work, libraries[0], bounds, name, EMPTY, written, OK)
        user = count(work, libraries[0], (FIVE, table(tree)), LOGIN)
        (found, rust), _, took = measured(work, libraries, written)
        allowed = USER_BOUND * user + BYTE_BOUND * len(written)
        share = found / allowed
        bounds.hold(share <= 1, f"load, {name}: {len(written):,} bytes, {found:,} instructions, {share:.2f} of the {allowed:,} allowed; Rust {rust:,}")
        cells = [f"{len(written):,}", *map(millions, (found, user, allowed)), f"{share:.2f}", f"{found / len(written):.1f}", millions(rust), *took, hot(work)]
        text += f"| {name} | {' | '.join(cells)} |\n"
    return text


def nested_text(work, library, bounds):
    text = NESTED_HEAD
    for name, written, passes, number in NESTED:
        expect(work, library, bounds, name, EMPTY, written, number)
        (found,), (ms,), (took,) = measured(work, [library], written)
        a_byte = found / len(written)
        told = f"load, {name}: {found:,} instructions, {a_byte / passes:.1f} a byte and pass, at most {BYTE_BOUND}; {ms:.2f} ms, at most {MS_BOUND:,}"
        bounds.hold(a_byte <= BYTE_BOUND * passes and ms <= MS_BOUND, told)
        cells = [f"{len(written):,}", str(-number), str(passes), millions(found), f"{a_byte:.1f}", f"{a_byte / passes:.1f}", took]
        text += f"| {name} | {' | '.join(cells)} |\n"
    return text


def long_text(work, library, bounds):
    text, first, empty = LONG_HEAD, None, table([], LONG_RECORDS)
    for nodes, lessons in LONG_WEEKS:
        written = document(school(nodes, lessons), "  ")
        expect(work, library, bounds, f"{nodes:,} nodes", empty, written, TABLE_FULL)
        found = count(work, library, (BEFORE, empty), written, LOAD_XML)
        a_byte = found / len(written)
        first = first or a_byte
        told = f"load, {len(written):,} bytes: {found:,} instructions, {a_byte:.2f} a byte, at most {GROWTH_BOUND * first:.2f}"
        bounds.hold(a_byte <= GROWTH_BOUND * first, told)
        text += f"| {len(written):,} | {nodes:,} | {millions(found)} | {a_byte:.1f} |\n"
    return text


def loads(work, libraries, bounds):
    """The report's section. libraries: Rattle's and the straightforward one."""
    return full_text(work, libraries, bounds) + nested_text(work, libraries[0], bounds) + long_text(work, libraries[0], bounds)
