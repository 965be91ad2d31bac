"""Whether what was worked out for a reader is what the library does: the view, and what the reader may change.

The changes are made on copies of the store: the reader renames, removes and appends to every node at once, and the
table that the library leaves is compared byte for byte. What is appended has to fit a table of 16,384 records and 12
levels; where it does not for all nodes together, the levels are tried one by one, as far as they fit.
"""

from __future__ import annotations

from itertools import count
from typing import Collection, NamedTuple, Sequence

from timetable_office.errors import DisagreementError
from timetable_office.library import COUNT_BYTES, RECORD_BYTES, RECORDS_MAXIMUM, Session
from timetable_office.tree import Node, make_record, read_view
from timetable_office.views import log_in, view_of

LEVELS = 12


class Expected(NamedTuple):
    """What a reader sees, and for each node whether the reader can rename it, remove it and append to it."""

    view: Sequence[Node]
    renamed: Sequence[bool]
    removed: Sequence[bool]
    appended: Sequence[bool]


class Agreement:
    """Holds what is expected against what the library does, for the readers of one store."""

    def __init__(self, session: Session, nodes: Sequence[Node], used: Collection[str]) -> None:
        """The nodes are those of the session's table, each shown on all days; labels and words in use are folded."""
        self._session = session
        self._nodes = nodes
        self._mark = next(label for label in (f"new-{number}" for number in count()) if label not in used)
        self._marks = [make_record(level, self._mark) for level in range(LEVELS + 1)]
        self._state = session.state
        self._table = session.table[: COUNT_BYTES + RECORD_BYTES * len(nodes)]
        places = range(COUNT_BYTES, len(self._table), RECORD_BYTES)
        self._records = [self._table[place : place + RECORD_BYTES] for place in places]

    def check(self, reader: str, expected: Expected) -> None:
        """Raises `DisagreementError` unless the library does all that is expected."""
        if read_view(view_of(self._session, reader)) != expected.view:
            raise _disagreement("view", reader)
        rows = zip(self._nodes, self._records, expected.renamed)
        renamed = [self._marks[node.level] if one else record for node, record, one in rows]
        self._check(reader, f"(rename //* {self._mark})", renamed)
        self._check(reader, "(remove //*)", _without(self._nodes, self._records, expected.removed))
        for path, chosen in _groups(self._nodes, expected.appended):
            made = _with(self._nodes, self._records, chosen, self._marks) if any(chosen) else self._records
            self._check(reader, f"(append {path} ({self._mark}))", made)

    def _check(self, reader: str, line: str, wanted: Sequence[bytes]) -> None:
        """The line of this reader leaves these records."""
        table = self._table + bytes(RECORD_BYTES * max(0, len(wanted) - len(self._records)))
        copy = log_in(Session(self._session.library, self._state, table), reader)
        copy.line(line.encode("ascii"))
        left = len(wanted).to_bytes(COUNT_BYTES, "little") + b"".join(wanted)
        if copy.table != left.ljust(len(table), b"\0"):
            raise _disagreement(line[1:].partition(" ")[0], reader)


def _disagreement(form: str, reader: str) -> DisagreementError:
    return DisagreementError(
        f"the rules as timetable-office reads them do not give the {form} of {reader} that the library gives. Nothing "
        "is told: the library is the one that counts. This is an error in timetable-office, or the library is of "
        "another version"
    )


def _without(nodes: Sequence[Node], records: Sequence[bytes], removed: Sequence[bool]) -> list[bytes]:
    """The records that stay where some nodes go with all below them."""
    left = []
    # the level of the removed node that the next ones may be below
    above = LEVELS
    for node, record, gone in zip(nodes, records, removed):
        if node.level > above:
            continue
        above = node.level if gone else LEVELS
        if not gone:
            left.append(record)
    return left


def _with(
    nodes: Sequence[Node], records: Sequence[bytes], chosen: Sequence[bool], marks: Sequence[bytes]
) -> list[bytes]:
    """The records with a new last child for each chosen node."""
    made: list[bytes] = []
    # the levels of chosen nodes whose children may still come
    waiting: list[int] = []
    for node, record, one in zip(nodes, records, chosen):
        while waiting and waiting[-1] >= node.level:
            made.append(marks[waiting.pop() + 1])
        made.append(record)
        if one:
            waiting.append(node.level)
    return made + [marks[level + 1] for level in reversed(waiting)]


def _groups(nodes: Sequence[Node], appended: Sequence[bool]) -> list[tuple[str, Sequence[bool]]]:
    """Paths that select nodes to append to, and which of them get a child: all nodes, or those of each level."""
    deep = any(one and node.level + 1 == LEVELS for node, one in zip(nodes, appended))
    room = RECORDS_MAXIMUM - len(nodes)
    if not deep and sum(appended) <= room:
        return [("//*", appended)]
    groups: list[tuple[str, Sequence[bool]]] = []
    for level in range(LEVELS - 1):
        chosen = [one and node.level == level for node, one in zip(nodes, appended)]
        if sum(chosen) <= room:
            groups.append(("/*" * (level + 1), chosen))
    return groups
