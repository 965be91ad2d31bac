"""Nodes of the stored tree by paths: the path of each node, and the nodes that a path selects."""

from __future__ import annotations

from collections import Counter
from dataclasses import replace
from itertools import count
from typing import Iterator, Sequence

from timetable_office.errors import InputError
from timetable_office.library import Refused, Session
from timetable_office.lines import split_lines
from timetable_office.replace import replace_policy
from timetable_office.state import Rule, read_policy
from timetable_office.tree import Node, folded, read_table
from timetable_office.views import log_in, on_all_days


def parents(nodes: Sequence[Node]) -> list[int | None]:
    """For each node the place of its parent; the root has none."""
    above: list[int] = []
    found: list[int | None] = []
    for place, node in enumerate(nodes):
        del above[node.level :]
        found.append(above[-1] if above else None)
        above.append(place)
    return found


def way_down(above: Sequence[int | None], place: int) -> list[int]:
    """The places from the root down to a node, the node itself last."""
    way = []
    step: int | None = place
    while step is not None:
        way.append(step)
        step = above[step]
    return way[::-1]


def node_paths(nodes: Sequence[Node]) -> list[str]:
    """For each node a path that selects it alone: labels from the root down, `[n]` where siblings share one."""
    above = parents(nodes)
    siblings = [(parent, folded(node.label)) for parent, node in zip(above, nodes)]
    shared = Counter(siblings)
    counted: Counter[tuple[int | None, str]] = Counter()
    paths: list[str] = []
    for node, place in zip(nodes, siblings):
        counted[place] += 1
        position = f"[{counted[place]}]" if shared[place] > 1 else ""
        parent = place[0]
        paths.append(f"{'' if parent is None else paths[parent]}/{node.label}{position}")
    return paths


def _new_labels() -> Iterator[str]:
    yield from (f"selected-{number}" for number in count())


def select_stored(session: Session, reader: str, path: str) -> list[int]:
    """The places of the nodes that a path selects in the stored tree, as a command of a reader who is shown all of it.

    The library selects them: on a copy of the store, with all nodes in their windows, this reader may read and update
    every node, and renames those that the path selects to a label that no node has. Subjects and isa lines stay, since
    `$` goes by them.
    """
    log_in(session, reader)
    session = on_all_days(session)
    nodes = read_table(session.table)
    labels = {folded(node.label) for node in nodes}
    mark = next(label for label in _new_labels() if label not in labels)
    rules = tuple(Rule(True, right, "//*", reader) for right in ("read", "update"))
    policy = replace(read_policy(session.state), rules=rules)
    lines = b"".join(line + b"\n" for line in policy.lines())
    made = replace_policy(session, split_lines("a policy that shows everything", lines))
    copy = log_in(Session(session.library, made.state, made.table), reader)
    try:
        copy.line(b"(rename " + path.encode("utf-8", "surrogateescape") + b" " + mark.encode("ascii") + b")")
    except Refused as refused:
        raise InputError(f"{path!r} is not a path: {refused}") from refused
    renamed = read_table(copy.table)
    return [place for place, (before, after) in enumerate(zip(nodes, renamed)) if before != after]
