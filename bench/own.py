"""What `$` costs (document 02, card 5): lines with `$` beside the same lines with a label, by callgrind's counts.

Fails where a line with `$` costs more than the line with a label by more than a pass over the reader's names a node.
"""
from measure import count, millions
from stores import LONG_NAMES, READ_ALL, READERS, deep, hurting, in_order, school, state, table

# `{}` is `$` or a label
PATHS = ["//{}", "//{}" * 16, "//{}[{}[{}[{}]]]"]
DEEP = table(in_order(deep(), LONG_NAMES[-1:]))

# the names of a reader, all of whom that one is; the label, and the table
READS = [
    ("1 name of 24 bytes, every node it", LONG_NAMES[-1:], LONG_NAMES[-1], DEEP),
    ("64 names of 24 bytes alike in 22, every node the last", LONG_NAMES, LONG_NAMES[-1], DEEP),
    ("64 names, a school's week", READERS, READERS[-1], table(school())),
]

HEAD = """
## What `$` costs

Document 02, card 5: `$` passes the names of all that a reader is. Millions of instructions of the Rattle library for a line with a label and for the same line with
`$` in its place, on 16,384 nodes. A pass over the names a node is what as many steps with a label cost, `(find //L)` above `(find /*)`, times the names: more than
that a line with `$` may not cost above the line with the label. In the last two rows the steps stand in the paths of 128 rules, for the reader and the nodes of the
second reader's rows.

| line | reader and nodes | with a label | with `$` | above it | a pass over the names |
|---|---|---|---|---|---|
"""


def own(work, library, bounds):
    """The report's section."""
    text = HEAD

    def row(line, reads, labelled, dollar, allowed):
        nonlocal text
        told = f"{line}, {reads}: {labelled:,} instructions with a label, {dollar:,} with `$`, at most {allowed:,} more"
        bounds.hold(dollar - labelled <= allowed, told)
        text += f"| `{line}` | {reads} | {millions(labelled)} | {millions(dollar)} | {millions(dollar - labelled)} | {millions(allowed)} |\n"

    def cost(store, line):
        return count(work, library, store, line)

    def a_pass(names, label, nodes):
        store = state(names, [READ_ALL]), nodes
        return len(names) * (cost(store, f"(find //{label})") - cost(store, "(find /*)"))

    for reads, names, label, nodes in READS:
        store = state(names, [READ_ALL]), nodes
        allowed = a_pass(names, label, nodes)
        for path in PATHS:
            short = f"(find {path.replace('{}', '$')})" if len(path) < 24 else "(find //$//$..)"
            row(short, reads, *(cost(store, f"(find {path.replace('{}', test)})") for test in (label, "$")), allowed)
    label = LONG_NAMES[-1]
    allowed = a_pass(LONG_NAMES, label, DEEP)
    for path in ("//{}" * 16, "//{}"):
        labelled, dollar = (cost((hurting([path.replace("{}", test)]), DEEP), "(view)") for test in (label, "$"))
        row("(view)", f"64 names, 128 rules `{'//$//$..` of 16 steps' if len(path) > 4 else '//$`'}", labelled, dollar, allowed)
    return text
