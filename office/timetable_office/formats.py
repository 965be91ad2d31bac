"""Views and logs as text, JSON, CSV and HTML."""

from __future__ import annotations

import csv
import io
import json
from typing import Any, Callable, Sequence

from timetable_office.pages import view_html
from timetable_office.store import Entry
from timetable_office.tree import RESTRICTED, Node, read_view

_COLUMN_NAMES = {"run": "run", "time": "time (UTC)", "account": "account", "command": "command", "user": "as"}


def _csv(header: Sequence[str], rows: Sequence[Sequence[object]]) -> str:
    file = io.StringIO()
    writer = csv.writer(file, lineterminator="\n")
    writer.writerow(header)
    writer.writerows(rows)
    return file.getvalue()


def _json(value: object, indent: int | None = 2) -> str:
    return json.dumps(value, indent=indent) + "\n"


def view_lines(name: str, answer: bytes) -> str:
    """The answer of the library as it is."""
    return answer.decode("ascii")


def view_text(name: str, answer: bytes) -> str:
    """An outline: one node a line, two spaces a level."""
    return "".join("  " * node.level + node.label + "\n" for node in read_view(answer))


def view_csv(name: str, answer: bytes) -> str:
    """One node a row: its number, that of its parent, its level, its label, and the labels from the root down to it."""
    rows: list[tuple[object, ...]] = []
    above: list[tuple[int, str]] = []
    for number, node in enumerate(read_view(answer), 1):
        del above[node.level :]
        parent = above[-1][0] if above else ""
        above.append((number, node.label))
        rows.append((number, parent, node.level, node.label, "".join("/" + label for _, label in above)))
    return _csv(("number", "parent", "level", "label", "path"), rows)


def view_tree(nodes: Sequence[Node]) -> dict[str, Any] | None:
    """The nodes of a view nested as a tree, or nothing where none is shown."""
    above: list[dict[str, Any]] = []
    for node in nodes:
        del above[node.level :]
        made = {"label": node.label, "restricted": node.label == RESTRICTED, "children": []}
        if above:
            above[-1]["children"].append(made)
        above.append(made)
    return above[0] if above else None


def view_json(name: str, answer: bytes, indent: int | None = 2) -> str:
    """The reader, the number of shown nodes, and the tree of them; without indent it is one line."""
    nodes = read_view(answer)
    return _json({"reader": name, "shown": len(nodes), "tree": view_tree(nodes)}, indent)


VIEW_FORMATS: dict[str, Callable[[str, bytes], str]] = {
    "text": view_text,
    "lines": view_lines,
    "json": view_json,
    "csv": view_csv,
    "html": view_html,
}


def log_text(entries: Sequence[Entry]) -> str:
    """A table with aligned columns."""
    header = [_COLUMN_NAMES.get(name, name) for name in Entry._fields]
    shown = [entry._replace(time=entry.time.replace("T", " ").removesuffix("+00:00")) for entry in entries]
    rows = [["" if value is None else str(value) for value in entry] for entry in shown]
    widths = [max(map(len, column)) for column in zip(header, *rows)]
    lines = ("  ".join(cell.ljust(width) for cell, width in zip(row, widths)).rstrip() for row in [header, *rows])
    return "".join(line + "\n" for line in lines)


def log_csv(entries: Sequence[Entry]) -> str:
    """One entry a row."""
    return _csv(Entry._fields, entries)


def log_json(entries: Sequence[Entry]) -> str:
    """A list of entries."""
    return _json([entry._asdict() for entry in entries])


LOG_FORMATS: dict[str, Callable[[Sequence[Entry]], str]] = {"text": log_text, "json": log_json, "csv": log_csv}
