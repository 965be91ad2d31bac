"""What ignoring case costs (document 02, card 6): views and queries by label beside what they cost before the card, and with nodes typed in the other case, by
callgrind's counts.

Fails where a line costs more than 1.2 times what it cost before.
"""
from measure import count, millions
from stores import FIVE, LONG, MIXED, POLICIES, WITH_LABELS, by_level, deep, in_order, school, table

RATIO_BOUND = 1.2
BEFORE_VERSION = "0.4.0"
WEEK = dict(POLICIES)[MIXED][0]
SMALL = LONG.lower()

# line as the report has it, line, nodes and rules, state, tree, and the instructions of version 0.4.0
LINES = [
    ("(view)", "(view)", "128 rules with labels, a label a level", WITH_LABELS, by_level(deep()), 6_160_861),
    ("(view)", "(view)", "the school's week and the policy (b)", WEEK, school(), 9_117_101),
    ("(query //lesson/*)", "(query //lesson/*)", "the school's week and the policy (b)", WEEK, school(), 9_668_419),
    ("(query //lesson//room)", "(query //lesson//room)", "five rules `//*`, a label a level", FIVE, by_level(deep()), 3_791_585),
    ("(query //L)", f"(query //{SMALL})", "five rules `//*`, every node L, of 24 small letters", FIVE, in_order(deep(), [SMALL]), 7_747_953),
    ("(query //L//L..)", f"(query {f'//{SMALL}' * 16})", "the same, 16 steps", FIVE, in_order(deep(), [SMALL]), 51_857_225),
]

HEAD = f"""
## What ignoring case costs

Document 02, card 6: labels are equal whatever the case of A to Z. Millions of instructions of the Rattle library on 16,384 nodes: of the library before the card,
version {BEFORE_VERSION}, and now, at most {RATIO_BOUND} times as many; and now with every label of the nodes in the other case from that of the line and the rules,
which were other labels before. In the last two rows these are 24 capitals beside 24 small letters.

| line | nodes and rules | before | now | ratio | nodes in the other case |
|---|---|---|---|---|---|
"""


def other_case(tree):
    return [(level, label.swapcase()) for level, label in tree]


def either_case(work, library, bounds):
    """The report's section."""
    text = HEAD
    for short, line, about, rules, tree, before in LINES:
        now, other = (count(work, library, (rules, table(nodes)), line) for nodes in (tree, other_case(tree)))
        told = f"{short}, {about}: {now:,} instructions, {BEFORE_VERSION} {before:,}, {now / before:.2f} times, at most {RATIO_BOUND}; in the other case {other:,}"
        bounds.hold(now <= RATIO_BOUND * before, told)
        text += f"| `{short}` | {about} | {millions(before)} | {millions(now)} | {now / before:.2f} | {millions(other)} |\n"
    return text
