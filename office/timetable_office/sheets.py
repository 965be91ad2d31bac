"""The sheets of room doors: the answers to `(sheet ROOM)` for one reader, as a folder that is replaced whole."""

from __future__ import annotations

import re
from pathlib import Path
from typing import Callable, NamedTuple, Sequence

from timetable_office.errors import InputError
from timetable_office.folders import Folder, file_names, file_stem, write_file
from timetable_office.library import SHEET_BYTES, Refused, Session
from timetable_office.state import user_of
from timetable_office.tree import RESTRICTED, folded, read_view
from timetable_office.views import log_in, on_day

_KIND = "sheet"
_NAMES = re.compile(file_names(_KIND, "txt"))
# Rooms are children of periods, periods of days, and days of the root.
_ROOM_LEVEL = 3
_BLANK = frozenset(b" |")


class Sheet(NamedTuple):
    """A room with the file of its sheet, and whether no cell below the days is filled."""

    room: str
    file: str
    blank: bool


class Sheets(NamedTuple):
    """The sheets that were written and where, and which files of those before have no successor."""

    folder: str
    reader: str
    day: int | None
    sheets: tuple[Sheet, ...]
    dropped: tuple[str, ...]


def write_sheets(
    read: Callable[[], Session], name: str, rooms: Sequence[str], out: str, wait: float, day: int | None = None
) -> Sheets:
    """Writes the sheets that these rooms, or all that the subject is shown if none is named, have on a day into `out`.

    The store is read once; all sheets are of the state that it has then, and all are made before a file is written.
    """
    folder = Folder(out, _NAMES, _are_sheets)
    with folder.turn(wait):
        reader = log_in(on_day(read(), day), name)
        name = user_of(reader.state) or name
        shown = rooms_of(reader)
        # a room is called what the reader is shown, in whatever case it is typed
        known = {**shown, folded(RESTRICTED): RESTRICTED}
        wanted = {folded(room): known.get(folded(room), room) for room in rooms} or shown
        if not wanted:
            raise InputError(f"no room is shown to {name}, so there is no sheet to write")
        answers = {room: _sheet_of(reader, room) for room in wanted.values()}
        sheets, dropped = folder.replace(lambda new: _write_files(new, answers))
    return Sheets(str(folder.path), name, day, tuple(sheets), dropped)


def rooms_of(reader: Session) -> dict[str, str]:
    """The labels that the user is shown below periods, by the folded one: each once, as it stands first, and in order.

    RESTRICTED names no room.
    """
    rooms: dict[str, str] = {}
    for node in read_view(reader.line(b"(view)")):
        if node.level == _ROOM_LEVEL and node.label != RESTRICTED:
            rooms.setdefault(folded(node.label), node.label)
    return rooms


def _sheet_of(reader: Session, room: str) -> bytes:
    try:
        return reader.line(b"(sheet " + room.encode("utf-8", "surrogateescape") + b")")
    except Refused as refused:
        raise InputError(f"{room!r} cannot be a room: {refused}") from refused


def _write_files(new: Path, answers: dict[str, bytes]) -> list[Sheet]:
    """Writes the files into a folder."""
    sheets: list[Sheet] = []
    for room, answer in answers.items():
        file = file_stem(_KIND, room) + ".txt"
        write_file(new / file, answer.decode("ascii"))
        sheets.append(Sheet(room, file, _is_blank(answer)))
    return sheets


def _is_blank(answer: bytes) -> bool:
    """Whether no row but the first has a label; each begins with its number and a space."""
    return all(_BLANK.issuperset(row[2:]) for row in answer.splitlines()[1:])


def _are_sheets(folder: Path) -> bool:
    return all(path.stat().st_size == SHEET_BYTES for path in folder.iterdir())
