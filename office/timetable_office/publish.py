"""Publishing: the views of one state of the store as a folder of pages, which is replaced whole."""

from __future__ import annotations

import re
import secrets
from datetime import datetime, timezone
from pathlib import Path
from typing import Callable, NamedTuple, Sequence

from timetable_office.errors import InputError
from timetable_office.folders import Folder, file_names, file_stem, write_file
from timetable_office.formats import view_csv, view_json
from timetable_office.library import Session
from timetable_office.pages import GENERATOR, Publication, Row, index, page, view_mark
from timetable_office.state import read_policy
from timetable_office.store import Contents
from timetable_office.tree import read_view
from timetable_office.views import declared_name, on_day, view_of

INDEX = "index.html"
_KIND = "view"
_NAMES = re.compile(rf"{re.escape(INDEX)}|{file_names(_KIND, 'html', 'csv', 'json')}")
_MARK_BYTES = 6
_HEAD_BYTES = 512


class Shown(NamedTuple):
    """A reader whose view was published, with the number of shown nodes and the files."""

    name: str
    nodes: int
    files: tuple[str, str, str]


class Published(NamedTuple):
    """What was published and where, and which files of the publication before have no successor.

    The digest of the store is for the office alone: it is made from hidden labels too.
    """

    folder: str
    publication: Publication
    readers: tuple[Shown, ...]
    dropped: tuple[str, ...]
    digest: str


def publish_views(
    read: Callable[[], Session],
    names: Sequence[str],
    out: str,
    wait: float,
    day: int | None = None,
    progress: Callable[[int], Callable[[int], None]] = lambda total: lambda count: None,
) -> Published:
    """Publishes the views that these subjects, or all if none is named, have on a day, into the folder `out`.

    The store is read once; all views are of the state that it has then, and all are made before a page is written.
    `progress` is given the number of views, and what it returns the number of those that are written.
    """
    folder = Folder(out, _NAMES, _has_index)
    with folder.turn(wait):
        publication = Publication(datetime.now(timezone.utc), secrets.token_hex(_MARK_BYTES), day)
        session = read()
        views = _views(on_day(session, day), names)
        count_up = progress(len(views))
        readers, dropped = folder.replace(lambda new: _write_pages(new, views, publication, count_up))
    digest = Contents(session.state, session.table).digest().hex()
    return Published(str(folder.path), publication, tuple(readers), dropped, digest)


def _views(session: Session, names: Sequence[str]) -> list[tuple[str, bytes]]:
    """The subjects in the order of the policy, each with the answer to `(view)`."""
    named = {declared_name(session, name) for name in names}
    subjects = [name for name in read_policy(session.state).subjects if not names or name in named]
    if not subjects:
        raise InputError("the store has no subject, so there is no view to publish")
    return [(name, view_of(session, name)) for name in subjects]


def _write_pages(
    new: Path, views: Sequence[tuple[str, bytes]], publication: Publication, progress: Callable[[int], None]
) -> list[Shown]:
    """Writes the pages into a folder."""
    readers: list[Shown] = []
    rows: list[Row] = []
    for count, (name, answer) in enumerate(views, 1):
        stem = file_stem(_KIND, name)
        row = Row(name, f"{stem}.html", f"{stem}.csv", f"{stem}.json")
        nodes = read_view(answer)
        html = page(name, nodes, view_mark(answer), publication)
        texts = (html, view_csv(name, answer), view_json(name, answer, indent=None))
        for file, text in zip(row[1:], texts):
            write_file(new / file, text)
        rows.append(row)
        readers.append(Shown(name, len(nodes), row[1:]))
        progress(count)
    write_file(new / INDEX, index(rows, publication))
    return readers


def _has_index(folder: Path) -> bool:
    """Whether a folder has an index that this package wrote."""
    if not (folder / INDEX).exists():
        return False
    with (folder / INDEX).open("rb") as file:
        return GENERATOR.encode("ascii") in file.read(_HEAD_BYTES)
