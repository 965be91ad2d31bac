"""The view of a large table (document 02, card 12): the Rattle library beside the view alone (docs/src/plain_view.rs) under five policies, and what is made to hurt.

Fails where Rattle takes more instructions than the view alone under one of the first four policies, or where a view made to hurt takes more than 20 times those of
the mixed policy.
"""
from measure import count, millions, spread, times
from stores import MIXED, POLICIES, SHAPES, hurting_stores

VIEWS = 60
RATIO_BOUND, HURT_BOUND = 1.0, 20

HEAD = f"""
## The view of a large table

Document 02, card 12: 16,384 nodes, 64 subjects, 128 isa lines and 128 rules, all applying to the reader. Rust is here the version written for the purpose,
docs/src/plain_view.rs: it makes 13's check on the lent bytes, then passes once over the records and tries the rules of read and position from the last to the
first, each at most once on a node, until both are decided. Medians of {VIEWS} views (and quartiles), turn by turn in one process, and millions of instructions of
one. The tree of (a) to (d) is a school's week on levels 0 to 7 with some 300 labels. (b) has some 330 steps: what holds for all nodes comes first and the exceptions
behind it, as in document 01's example, and position is never denied; (c) shows rooms as RESTRICTED and hides most notes; in (d) the reader's name is the label of a teacher, a class or a place in every period. (e) is the worst of the list below. At most
{RATIO_BOUND:.1f} times the instructions of Rust are allowed for (a) to (d).

| policy | Rattle ms | Rust ms | ratio | Rattle instr. | Rust instr. | ratio |
|---|---|---|---|---|---|---|
"""
HURT_HEAD = f"""
### Made to hurt

Views of 16,384 nodes under 128 rules, of read and position in turn behind one that shows every node, with labels and names of 24 bytes: L is one such label. Deep is
a tree of chains to level 11, flat has all nodes under the root, bottom has all but one chain on level 11. Millions of instructions of the Rattle library, and how
many times those of (b): at most {HURT_BOUND} are allowed.

| rules and nodes | {" | ".join(SHAPES)} |
|---|---|---|---|
"""


def policy_row(work, libraries, name, store):
    ms, quartiles = times(work, libraries, store, "(view)", VIEWS)
    return name, ms, quartiles, [count(work, library, store, "(view)") for library in libraries]


def row_text(row):
    name, ms, quartiles, counts = row
    text = [name, *map(spread, ms, quartiles), f"{ms[0] / ms[1]:.2f}", *map(millions, counts), f"{counts[0] / counts[1]:.2f}"]
    return "| " + " | ".join(text) + " |\n"


def hurt_text(counts, mixed):
    """counts: by name and shape."""
    text = ""
    for name in dict.fromkeys(name for name, _ in counts):
        cells = [f"{millions(counts[name, shape])}, {counts[name, shape] / mixed:.1f} times" for shape in SHAPES]
        text += f"| {name} | {' | '.join(cells)} |\n"
    return text


def views(work, libraries, bounds):
    """The report's section, and its rows for the plot. libraries: Rattle's and the view alone."""
    rows = [policy_row(work, libraries, name, store) for name, store in POLICIES]
    for name, ms, _, (rattle, rust) in rows:
        told = f"view, {name}: {rattle:,} instructions, the view alone {rust:,}, ratio {rattle / rust:.2f}, at most {RATIO_BOUND}; {ms[0]:.2f} and {ms[1]:.2f} ms"
        bounds.hold(rattle <= RATIO_BOUND * rust, told)
    mixed = next(counts[0] for name, _, _, counts in rows if name == MIXED)
    counts, worst = {}, 0
    for name, shape, store in hurting_stores():
        found = counts[name, shape] = count(work, libraries[0], store, "(view)")
        bounds.hold(found <= HURT_BOUND * mixed, f"view, {name}, {shape}: {found:,} instructions, {found / mixed:.1f} times the mixed policy's, at most {HURT_BOUND}")
        if found > worst:
            worst, hurt = found, (f"(e) {name}, {shape}", store)
    rows.append(policy_row(work, libraries, *hurt))
    return HEAD + "".join(map(row_text, rows)) + HURT_HEAD + hurt_text(counts, mixed), rows
