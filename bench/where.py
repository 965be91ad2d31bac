"""Where a line's instructions go: the parts of a view, a sheet, a query and each change, by differences of callgrind's counts, since most functions are inlined."""
from functools import cache
from measure import count, hot, millions
from stores import MIXED, NODES_MAX, POLICIES, READ_ALL, READERS, school, state, table

LOGIN = f"(user {READERS[-1]})"  # only checks the store
ROOT = "(find /*)"  # also works out rights and what is shown; selects the root, which is found at once
NODES_WITH_ROOM = 14_000  # leaves room for a node beside or below each lesson

# a line, the path in its braces, nodes of the table; a view and a sheet select nothing above the root
LINES = [
    ("(view)", "/*", NODES_MAX),
    ("(sheet p3)", "/*", NODES_MAX),
    ("(query {})", "//lesson/*", NODES_MAX),
    ("(find {})", "//lesson/*", NODES_MAX),
    ("(rename {} x)", "//lesson/*/*", NODES_MAX),
    ("(update {} x)", "//room", NODES_MAX),
    ("(append {} (x))", "//lesson", NODES_WITH_ROOM),
    ("(before {} (x))", "//lesson", NODES_WITH_ROOM),
    ("(after {} (x))", "//lesson", NODES_WITH_ROOM),
    ("(remove {})", "//note", NODES_MAX),
]

HEAD = f"""
## Where a line's instructions go

Millions of instructions of the Rattle library on the school and the policy of (b) above; for the insertions {NODES_WITH_ROOM:,} of the 16,384 records are in use. The
parts are differences. 13's check of the state is `{LOGIN}` on a table of one record; the check of the table is the rest of it on the whole table. What is shown is
`{ROOT}` above the check, under one rule `accept read //*`; rights are what the policy's 128 rules take above that. The selection is `(find P)` above `{ROOT}`. The
last part is the line above `(find P)`: for a view, a sheet or a query the answer; for a change which nodes are done, the change and the answer.

| line | all | state | table | rights | shown | selection | change, answer | most of it in |
|---|---|---|---|---|---|---|---|---|
"""


def where(work, library):
    """The report's section."""
    policy = dict(POLICIES)[MIXED][0]

    @cache
    def cost(line, nodes, rules=policy):
        return count(work, library, (rules, table(school(nodes))), line)

    text = HEAD
    for form, path, nodes in LINES:
        line = form.format(path)
        checked, checked_state = cost(LOGIN, nodes), cost(LOGIN, 1)
        shown, ruled, selected = cost(ROOT, nodes, state(READERS, [READ_ALL])), cost(ROOT, nodes), cost(f"(find {path})", nodes)
        whole = count(work, library, (policy, table(school(nodes))), line)
        parts = [whole, checked_state, checked - checked_state, ruled - shown, shown - checked, selected - ruled, whole - selected]
        text += f"| `{line}` | " + " | ".join(map(millions, parts)) + f" | {hot(work)} |\n"
    return text
