"""Trees as lists of nodes in document order, read off a table (docs/FORMAT.md) or off the answer to `(view)`."""

from __future__ import annotations

import re
import string
import struct
from typing import NamedTuple, Sequence

from timetable_office.errors import LibraryError
from timetable_office.library import COUNT_BYTES, RECORD_BYTES
from timetable_office.state import read_label

RESTRICTED = "RESTRICTED"
# A node's window: the first and the last day on which it is shown (document 02, card 7).
Window = tuple[int, int]
FIRST_DAY, LAST_DAY = WHOLE_YEAR = (1, 366)
_WINDOW = struct.Struct("<HH")
_WINDOW_AT = 26
_SMALL = str.maketrans(string.ascii_uppercase, string.ascii_lowercase)
_PARTS = re.compile(rb"\(([^ ()]+)|\)")
_END = re.compile(rb"\(end ([0-9]+)\)\Z")


def folded(label: str) -> str:
    """What a label is compared by: two labels are equal whatever the case of A to Z (document 02, card 6)."""
    return label.translate(_SMALL)


class Node(NamedTuple):
    """A node: its level, 0 for the root, and its label."""

    level: int
    label: str


def _places(table: bytes) -> range:
    """Where the records in use begin."""
    count = int.from_bytes(table[:COUNT_BYTES], "little")
    return range(COUNT_BYTES, COUNT_BYTES + RECORD_BYTES * count, RECORD_BYTES)


def read_table(table: bytes) -> list[Node]:
    """The nodes of a table that the library takes."""
    records = (table[place : place + RECORD_BYTES] for place in _places(table))
    return [Node(record[0], read_label(record)) for record in records]


def read_windows(table: bytes) -> list[Window]:
    """The windows of the nodes of a table that the library takes."""
    found = (_WINDOW.unpack_from(table, place + _WINDOW_AT) for place in _places(table))
    return [(first, last) for first, last in found]


def all_year(table: bytes) -> bytes:
    """The table with every node shown on all days."""
    made = bytearray(table)
    for place in _places(table):
        _WINDOW.pack_into(made, place + _WINDOW_AT, *WHOLE_YEAR)
    return bytes(made)


def make_record(level: int, label: str) -> bytes:
    """The record of a node that is shown on all days."""
    made = bytearray(bytes([level, len(label)]) + label.encode("ascii").ljust(RECORD_BYTES - 2, b"\0"))
    _WINDOW.pack_into(made, _WINDOW_AT, *WHOLE_YEAR)
    return bytes(made)


def read_view(answer: bytes) -> list[Node]:
    """The nodes of the answer to `(view)`, as many as its last line says."""
    *lines, last = answer.removesuffix(b"\n").split(b"\n")
    end = _END.match(last)
    nodes: list[Node] = []
    for line in lines:
        # the word `child` takes the place of the root, one level above the tree behind it
        word, _, rest = line.removesuffix(b")").partition(b" ")
        if word == b"(root":
            nodes.append(Node(0, rest.decode("ascii")))
            continue
        level = 0
        for part in _PARTS.finditer(rest):
            if part[1] is None:
                level -= 1
            else:
                level += 1
                nodes.append(Node(level, part[1].decode("ascii")))
    if end is None or int(end[1]) != len(nodes):
        raise LibraryError("the library is of another version: its answer to (view) cannot be read")
    return nodes


def tree_text(nodes: Sequence[Node]) -> bytes:
    """The text `(label tree ...)` of a node and those below it."""
    parts: list[str] = []
    open_levels = 0
    top = nodes[0].level
    for node in nodes:
        closing = open_levels - (node.level - top)
        parts.append(")" * closing + (" (" if parts else "(") + node.label)
        open_levels += 1 - closing
    return ("".join(parts) + ")" * open_levels).encode("ascii")


def subtree_end(nodes: Sequence[Node], start: int) -> int:
    """The place after the last node below the one at `start`."""
    end = start + 1
    while end < len(nodes) and nodes[end].level > nodes[start].level:
        end += 1
    return end
