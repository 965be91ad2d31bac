"""Whether a library's states and tables are laid out as this package reads them (docs/FORMAT.md), and whether it shows
what this package takes a policy to show."""

from __future__ import annotations

import os

from timetable_office.errors import LibraryError
from timetable_office.library import SHEET_BYTES, Library, Refused
from timetable_office.state import STATE_BYTES, Stage, day_of, read_policy, stage_of, user_of
from timetable_office.tree import WHOLE_YEAR, Node, read_table, read_view, read_windows

_POLICY = [
    b"(subject a)",
    b"(subject b)",
    b"(isa b a)",
    b"(rule accept read //* a)",
    b"(rule deny read /r/*/* b)",
    b"(rule accept read //C/$ a)",
    b"(rule accept position //d/* a)",
    b"(rule accept update //a a)",
]
# b is shown the node `a` by `$`, since b is a, and below `c` in either case
_TREE = [b"(root r)", b"(child (c (a (b))))", b"(user B)"]
_NODES = [Node(0, "r"), Node(1, "c"), Node(2, "a"), Node(3, "b")]
# with them the last two nodes are hidden, and shown again
_WINDOW, _DAY = (5, 366), 5
_HIDING, _SHOWING = b"(window //a %d %d)" % _WINDOW, b"(day %d)" % _DAY


def load_library(path: str | os.PathLike[str] | None = None) -> Library:
    """The library, after a short list of lines has left the bytes that this package expects."""
    library = Library(path)
    if library.state_bytes != STATE_BYTES:
        known = f"this version of timetable-office knows {STATE_BYTES:,}"
        raise LibraryError(
            f"{library.path} is of another version: its states have {library.state_bytes:,} bytes, {known}"
        )
    session = library.session(records=len(_NODES))
    try:
        for line in _POLICY + _TREE:
            session.line(line)
        views = [read_view(session.line(b"(view)"))]
        for line in (_HIDING, _SHOWING):
            session.line(line)
            views.append(read_view(session.line(b"(view)")))
        sheet = session.line(b"(sheet b)")
    except Refused as refused:
        raise LibraryError(f"{library.path} is of another version: it does not take the usual lines") from refused
    state = session.state
    as_known = (
        read_policy(state).lines() == _POLICY
        and (stage_of(state), user_of(state), day_of(state)) == (Stage.WORK, "b", _DAY)
        and read_table(session.table) == _NODES
        and read_windows(session.table) == [WHOLE_YEAR, WHOLE_YEAR, _WINDOW, WHOLE_YEAR]
        and len(sheet) == SHEET_BYTES
    )
    if not as_known:
        raise LibraryError(f"{library.path} is of another version: its bytes are not laid out as in docs/FORMAT.md")
    if views != [_NODES, _NODES[:2], _NODES]:
        raise LibraryError(f"{library.path} is of another version: its views are not those of this one")
    return library
