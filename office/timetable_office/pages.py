"""Pages for readers: a view as one HTML file that needs no server and no other file, and the index of such pages.

A page is made from the answer to `(view)` alone, besides the reader's name and the time, mark and day of the
publication. No digest of the store, and no count of it, is on a page: whoever guesses at a hidden label could test the
guess with it.

The element `main` holds the labels of the view in document order, one element a label, and no other words.
"""

from __future__ import annotations

import base64
import hashlib
from dataclasses import dataclass, field
from datetime import datetime
from functools import lru_cache
from html import escape
from importlib import resources
from typing import Iterable, Iterator, NamedTuple, Sequence

from timetable_office.tree import RESTRICTED, Node, read_view

GENERATOR = '<meta name="generator" content="timetable-office">'
# The level of lessons that stand in days, and of those that stand in periods of days.
_IN_DAYS, _IN_PERIODS = 2, 3
# So many days stand side by side where the screen or the paper is wide enough.
_SIDE_BY_SIDE = range(2, 8)
_MARK_DIGITS = 12


class Publication(NamedTuple):
    """What the pages of one publication share: its time, a mark that is drawn by lot, and the day asked for."""

    time: datetime
    mark: str
    day: int | None = None


class Row(NamedTuple):
    """A row of the index: a reader, and the files of the view."""

    name: str
    page: str
    csv: str
    json: str


@dataclass
class Branch:
    """A node with those below it."""

    label: str
    children: list[Branch] = field(default_factory=list)


def branch_of(nodes: Sequence[Node]) -> Branch:
    """The nodes of a view as a tree; there is at least one."""
    above: list[Branch] = []
    for node in nodes:
        del above[node.level :]
        branch = Branch(node.label)
        if above:
            above[-1].children.append(branch)
        above.append(branch)
    return above[0]


def lesson_level(nodes: Sequence[Node]) -> int | None:
    """The level of the lessons where a view has the shape of a timetable, and nothing where it has not.

    In a timetable the root has days, and a day has lessons (then they are at level 2), or periods that have lessons (at
    level 3). A lesson has fields, and a field has values. Words do not count. It is a timetable

    - if all days have the same periods, two or more of different names: whatever is below them is a lesson, and
      something is below one;
    - or if the deepest node, a value, is two levels below the lessons, so at level 4 or 5, and each lesson that has a
      field has a field with a value.

    Days, periods and lessons may be empty, and a field may have no value or several.
    """
    deepest = max((node.level for node in nodes), default=0)
    if deepest > _IN_PERIODS and _same_periods(nodes):
        return _IN_PERIODS
    level = deepest - 2
    if level not in (_IN_DAYS, _IN_PERIODS):
        return None
    fields = valued = False
    for node in [*nodes, Node(level, "")]:
        if node.level <= level:
            if fields and not valued:
                return None
            fields = valued = False
        else:
            fields = True
            valued = valued or node.level == level + 2
    return level


def _same_periods(nodes: Sequence[Node]) -> bool:
    """Whether there are two days or more, all with the same periods, two or more of different names."""
    days: list[list[str]] = []
    for node in nodes:
        if node.level == 1:
            days.append([])
        elif node.level == 2:
            days[-1].append(node.label)
    first = days[0] if len(days) > 1 else []
    return len(first) > 1 and len(set(first)) == len(first) and all(day == first for day in days)


def view_mark(answer: bytes) -> str:
    """The first digits of the SHA-256 digest of the answer to `(view)`: alike for views that are alike."""
    return hashlib.sha256(answer).hexdigest()[:_MARK_DIGITS]


def view_html(name: str, answer: bytes, publication: Publication | None = None) -> str:
    """The page of a view, from the answer to `(view)`."""
    return page(name, read_view(answer), view_mark(answer), publication)


def page(name: str, nodes: Sequence[Node], mark: str, publication: Publication | None = None) -> str:
    """The page of the reader of this name, to whom these nodes are shown."""
    reader = escape(name)
    laid_out = _lay_out(nodes) if nodes else _Layout("empty", [], [f"<p>Nothing is shown to {reader}.</p>"])
    body = [
        "<header>",
        f"<p>Timetable for <strong>{reader}</strong></p>",
        *laid_out.header,
        "</header>",
        "<main>",
        *laid_out.main,
        "</main>",
        *_foot(name, nodes, mark, publication),
    ]
    title = f"Timetable for {name}"
    return _document(title, laid_out.kind, body, style=laid_out.style, script=_file("page.js") if nodes else "")


def index(rows: Iterable[Row], publication: Publication) -> str:
    """The page that leads to all pages of one publication. It says nothing of what is on them."""
    lines = [
        "<main>",
        "<h1>Timetables</h1>",
        "<table>",
        "<thead>",
        '<tr><th scope="col">Reader</th> <th scope="col">Page</th> <th scope="col" colspan="2">Data</th></tr>',
        "</thead>",
        "<tbody>",
    ]
    for row in rows:
        links = " ".join(
            f'<td><a href="{escape(file)}">{word}</a></td>'
            for word, file in (("HTML", row.page), ("CSV", row.csv), ("JSON", row.json))
        )
        lines.append(f'<tr><th scope="row">{escape(row.name)}</th> {links}</tr>')
    lines += ["</tbody>", "</table>", "</main>", "<footer>", f"<p>{_published(publication)}</p>", "</footer>"]
    return _document("Timetables", "index", lines)


class _Layout(NamedTuple):
    """How a view is laid out, what that puts into the page's header, what stands in `main`, and more style for it."""

    kind: str
    header: list[str]
    main: list[str]
    style: str = ""


def _lay_out(nodes: Sequence[Node]) -> _Layout:
    """Lays out a view with at least one node: as days and periods where it has that shape, as an outline otherwise."""
    root = branch_of(nodes)
    heading = f"<h1>{_label(root.label)}</h1>"
    level = lesson_level(nodes)
    if level is None:
        return _Layout("outline", _filter_form("lines"), [heading, *_outline(root.children)])
    days = root.children
    kind = _kind(days, level)
    # one row for the names of the days, and one for each period
    style = f":root {{ --rows: {1 + len(days[0].children)}; }}\n" if kind == "week" else ""
    main = [heading, '<div class="days">', *_days(days, level), "</div>"]
    return _Layout(kind, _day_links(days) + _filter_form("lessons"), main, style)


def _kind(days: Sequence[Branch], level: int) -> str:
    """How days are laid out: `week` is a grid of days and periods, `columns` days side by side, `list` one by one."""
    if len(days) not in _SIDE_BY_SIDE:
        return "list"
    if level == _IN_DAYS:
        return "columns"
    periods = [[period.label for period in day.children] for day in days]
    return "week" if all(labels == periods[0] for labels in periods) else "list"


@lru_cache(maxsize=4096)
def _label(label: str) -> str:
    """A label as HTML, RESTRICTED set apart."""
    return f'<span class="restricted">{RESTRICTED}</span>' if label == RESTRICTED else escape(label)


def _days(days: Sequence[Branch], level: int) -> Iterator[str]:
    for number, day in enumerate(days, 1):
        yield '<section class="day">'
        yield f'<h2 id="day-{number}">{_label(day.label)}</h2>'
        if level == _IN_DAYS:
            yield from _lessons(day.children)
        else:
            for period in day.children:
                yield '<section class="period">'
                yield f"<h3>{_label(period.label)}</h3>"
                yield from _lessons(period.children)
                yield "</section>"
        yield "</section>"


def _lessons(lessons: Sequence[Branch]) -> Iterator[str]:
    if not lessons:
        return
    yield '<ul class="lessons">'
    for lesson in lessons:
        yield from _entry(lesson)
    yield "</ul>"


def _entry(branch: Branch) -> Iterator[str]:
    """A list item for a node, with all that is below it in running text."""
    if _is_line(branch):
        yield f"<li>{_field(branch)}</li>"
        return
    # beside nodes with fields of their own, one without children is a text rather than a field without a value
    texts = not all(_is_line(child) for child in branch.children)
    yield f"<li><i>{_label(branch.label)}</i>"
    yield '<ul class="fields">'
    for child in branch.children:
        if texts and not child.children:
            yield f'<li class="text">{_label(child.label)}</li>'
        else:
            yield from _entry(child)
    yield "</ul>"
    yield "</li>"


def _is_line(branch: Branch) -> bool:
    """Whether a node fits one line with those below it: none of them has children."""
    return not any(child.children for child in branch.children)


def _field(branch: Branch) -> str:
    """A node and its children, which have none, in one line."""
    values = "".join(f" <b>{_label(child.label)}</b>" for child in branch.children)
    return f"<i>{_label(branch.label)}</i>{values}"


def _outline(branches: Sequence[Branch]) -> Iterator[str]:
    """Nested lists. A node whose children have none is one line with them; any other one can be folded."""
    if not branches:
        return
    yield "<ul>"
    for branch in branches:
        if not branch.children:
            yield f"<li>{_label(branch.label)}</li>"
        elif _is_line(branch):
            yield f"<li>{_field(branch)}</li>"
        else:
            yield f'<li class="fold"><details open><summary>{_label(branch.label)}</summary>'
            yield from _outline(branch.children)
            yield "</details></li>"
    yield "</ul>"


def _day_links(days: Sequence[Branch]) -> list[str]:
    if len(days) < 2:
        return []
    links = (f'<a href="#day-{number}">{_label(day.label)}</a>' for number, day in enumerate(days, 1))
    return ['<nav aria-label="Days">', *links, "</nav>"]


def _filter_form(words: str) -> list[str]:
    """The filter box. Without JavaScript it stays hidden, and the page is whole."""
    return [
        f'<form id="filter" role="search" data-words="{words}" hidden>',
        '<label for="wanted">Show only</label>',
        '<input id="wanted" type="search" placeholder="a word, or several" autocomplete="off" spellcheck="false">',
        '<output id="found" for="wanted"></output>',
        "</form>",
    ]


def _foot(name: str, nodes: Sequence[Node], mark: str, publication: Publication | None) -> list[str]:
    lines = ["<footer>"]
    if any(node.label == RESTRICTED for node in nodes):
        stands = f"stands where something is that {escape(name)} may not read"
        lines.append(f"<p>{_label(RESTRICTED)} {stands}.</p>")
    count = "1 node" if len(nodes) == 1 else f"{len(nodes):,} nodes"
    said = [f"Shown to <strong>{escape(name)}</strong>: {count}, view <code>{escape(mark)}</code>."]
    if publication:
        said.append(_published(publication))
    return [*lines, f"<p>{' '.join(said)}</p>", "</footer>"]


def _published(publication: Publication) -> str:
    time = publication.time
    words = f"{time.day} {time:%B %Y, %H:%M:%S} UTC"
    stamp = f'<time datetime="{time:%Y-%m-%dT%H:%M:%SZ}">{words}</time>'
    day = "" if publication.day is None else f" for day {publication.day}"
    return f"Published {stamp}{day}, publication <code>{escape(publication.mark)}</code>."


@lru_cache
def _file(name: str) -> str:
    return resources.files(__package__).joinpath(name).read_text("ascii")


def _source(text: str) -> str:
    """The source that a content security policy names for a style or script of this text."""
    return f"'sha256-{base64.b64encode(hashlib.sha256(text.encode('ascii')).digest()).decode('ascii')}'"


def _document(title: str, kind: str, body: Sequence[str], *, style: str = "", script: str = "") -> str:
    """An HTML document that loads nothing, and runs nothing but its own style and script."""
    style = "\n" + _file("page.css") + style
    policy = f"default-src 'none'; style-src {_source(style)}"
    if script:
        script = "\n" + script
        policy += f"; script-src {_source(script)}"
    lines = [
        "<!DOCTYPE html>",
        '<html lang="en">',
        "<head>",
        '<meta charset="utf-8">',
        GENERATOR,
        f'<meta http-equiv="Content-Security-Policy" content="{policy}">',
        '<meta name="viewport" content="width=device-width, initial-scale=1">',
        '<meta name="robots" content="noindex">',
        f"<title>{escape(title)}</title>",
        f"<style>{style}</style>",
        "</head>",
        f'<body class="{kind}">',
        *body,
        *([f"<script>{script}</script>"] if script else []),
        "</body>",
        "</html>",
    ]
    return "".join(line + "\n" for line in lines)
