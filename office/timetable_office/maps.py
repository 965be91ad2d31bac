"""The coloured map: what every reader sees of every node, and may change there, as one HTML page for the office alone.

A row is a node of the stored tree, and a column is a subject. In a row the cells of subjects that follow each other and
are alike are one element with letters of one width, so that a map of 16,384 nodes by 64 subjects stays a page that a
browser opens. Which rule decides is looked up in the page by the kind of the node, as the page's script has it.
"""

from __future__ import annotations

import json
import os
from html import escape
from itertools import groupby
from pathlib import Path
from typing import Any, Iterator, NamedTuple, Sequence

from timetable_office.decisions import RIGHTS, Decider, Decisions, Seen, rule_text
from timetable_office.errors import OutputError
from timetable_office.places import node_paths, parents

GENERATOR = '<meta name="generator" content="timetable-office map">'
_HEAD_BYTES = 400
# The page loads nothing from anywhere.
_POLICY = "default-src 'none'; style-src 'unsafe-inline'; script-src 'unsafe-inline'"
_CHANGES = {"insert": "i", "update": "u", "delete": "d"}
_HIDDEN_ABOVE = "^"
_LETTERS = {Seen.LABEL: "R", Seen.RESTRICTED: "P", Seen.HIDDEN: "-"}
_CLASSES = {"R": "r", "P": "p", "-": "h", _HIDDEN_ABOVE: "a"}
_LEGEND = {
    "R": "read: shown with its label",
    "P": "position: shown as RESTRICTED",
    "-": "hidden: neither read nor position",
    _HIDDEN_ABOVE: "hidden by a node above it, whatever the rules say of it",
}

_STYLE = """
* { box-sizing: border-box; }
body { margin: 0; height: 100vh; display: flex; flex-direction: column;
  font: 14px/1.4 system-ui, "Liberation Sans", Arial, sans-serif; color: #1b1b1b; background: #fff; }
header { flex: none; padding: .6rem .8rem; }
h1 { font-size: 1.25rem; margin: 0 0 .2rem; }
header p { margin: .2rem 0; }
.alone { display: inline-block; padding: .1rem .5rem; background: #7a1020; color: #fff; font-weight: 600; }
.legend span { display: inline-block; margin-right: 1rem; }
.legend b { font: 12px/1.5 "DejaVu Sans Mono", "Liberation Mono", monospace; padding: 0 .35em;
  border: 1px solid #0005; }
input { font: inherit; padding: .15rem .4rem; width: 18rem; max-width: 90vw; }
#frame { flex: 1 0 20rem; height: 20rem; overflow: auto; border-top: 1px solid #888; }
table { border-collapse: separate; border-spacing: 0; font: 12px/1.5 "DejaVu Sans Mono", "Liberation Mono", monospace; }
thead th { position: sticky; top: 0; z-index: 2; background: #fff; border-bottom: 1px solid #555;
  vertical-align: bottom; padding: 0; font-weight: normal; text-align: left; }
thead th:first-child { left: 0; z-index: 3; padding: .2rem .5rem; }
tbody th { position: sticky; left: 0; z-index: 1; background: #fff; font-weight: normal; text-align: left;
  white-space: pre; padding: 0 .8rem 0 .5rem; border-right: 1px solid #555; }
tbody th b { font-weight: 600; }
td { white-space: pre; padding: 0; }
.names { display: flex; }
.names span { flex: none; width: calc(var(--width) * 1ch); writing-mode: vertical-rl; transform: rotate(180deg);
  padding: .3rem 0; line-height: calc(var(--width) * 1ch); white-space: nowrap; overflow: hidden; }
i { font-style: normal; display: inline-block; background-image: repeating-linear-gradient(to right,
  #fff 0 1px, transparent 1px calc(var(--width) * 1ch)); padding: 0; cursor: help; }
.r { background-color: #bfe3c0; } .p { background-color: #ffd98a; }
.h { background-color: #e3e3e3; color: #666; } .a { background-color: #d3c4dd; }
tbody tr:hover th, tbody tr:hover td { outline: 1px solid #333; outline-offset: -1px; }
tr.above th { color: #777; }
tr[hidden] { display: none; }
#told { position: fixed; right: 1rem; bottom: 1rem; z-index: 9; max-width: min(46rem, 92vw); padding: .6rem .8rem;
  background: #fffbe9; border: 1px solid #777; box-shadow: 0 2px 8px #0004; white-space: pre-wrap;
  font: 12px/1.5 "DejaVu Sans Mono", "Liberation Mono", monospace; }
#told[hidden] { display: none; }
@media print {
  * { print-color-adjust: exact; -webkit-print-color-adjust: exact; }
  @page { size: A3 landscape; margin: 10mm; }
  body { display: block; height: auto; }
  #frame { overflow: visible; height: auto; }
  thead { display: table-header-group; }
  thead th, tbody th { position: static; }
  tr { break-inside: avoid; }
  table, .legend b { font-size: 7pt; }
  i { background-image: none; }
  form, #told { display: none; }
}
"""

_SCRIPT = """
"use strict";
const data = JSON.parse(document.getElementById("data").textContent);
const rows = [...document.querySelectorAll("tbody tr")];
const box = document.getElementById("filter"), count = document.getElementById("count");
const told = document.getElementById("told");
const paths = rows.map(row => row.cells[0].title.toLowerCase());
const levels = data.levels;
function filter() {
  const words = box.value.toLowerCase().split(" ").filter(word => word);
  let found = 0;
  const keep = new Array(rows.length).fill(0);
  const above = [];
  for (let place = 0; place < rows.length; place++) {
    above[levels[place]] = place;
    if (words.every(word => paths[place].includes(word))) {
      found++;
      keep[place] = 2;
      for (let level = levels[place] - 1; level >= 0 && !keep[above[level]]; level--) keep[above[level]] = 1;
    }
  }
  rows.forEach((row, place) => {
    row.hidden = !keep[place];
    row.className = keep[place] === 1 ? "above" : "";
  });
  count.textContent = words.length ? `${found} of ${rows.length} nodes` : "";
}
function tell(event) {
  const cell = event.target.closest("td");
  if (!cell) { told.hidden = true; return; }
  const place = rows.indexOf(cell.parentNode), left = cell.getBoundingClientRect().left;
  const one = document.querySelector(".names span").getBoundingClientRect().width;
  const column = Math.min(data.readers.length - 1, Math.max(0, Math.floor((event.clientX - left) / one)));
  const reader = data.readers[column];
  const lines = [`${reader.name} on ${rows[place].cells[0].title}`];
  const decided = reader.decided[data.kinds[reader.kinds][place]];
  data.rights.forEach((right, number) => {
    const rule = decided[number];
    const granted = rule !== null && data.rules[rule].accept ? "yes" : "no ";
    const words = rule === null ? "no rule" : `rule ${rule + 1}: ${data.rules[rule].line}`;
    lines.push(`  ${right.padEnd(8)}  ${granted}  ${words}`);
  });
  for (let step = data.parents[place]; step !== null; step = data.parents[step]) {
    const rules = reader.decided[data.kinds[reader.kinds][step]];
    const seen = rules.slice(0, 2).some(rule => rule !== null && data.rules[rule].accept);
    if (!seen) lines.push(`  hidden by ${rows[step].cells[0].title}`);
  }
  told.textContent = lines.join("\\n");
  told.hidden = false;
}
box.addEventListener("input", filter);
document.querySelector("form").addEventListener("submit", event => event.preventDefault());
document.querySelector("tbody").addEventListener("click", tell);
document.addEventListener("keydown", event => { if (event.key === "Escape") told.hidden = true; });
document.querySelector("form").hidden = false;
const asked = new URLSearchParams(location.hash.slice(1)).get("show");
if (asked) { box.value = asked; filter(); }
"""


class Foot(NamedTuple):
    """What a page says of where it comes from."""

    store: str
    time: str
    digest: str


def cell_letters(one: Decisions, changes: Sequence[str], kind: int, seen: Seen) -> str:
    """The letters of a cell, of one width on the whole page."""
    verdict = one.verdicts[kind]
    if seen is Seen.HIDDEN:
        above = verdict["read"].granted or verdict["position"].granted
        return " " + (_HIDDEN_ABOVE if above else _LETTERS[seen]).ljust(len(changes) + 1)
    rights = "".join(_CHANGES[right] if verdict[right].granted else " " for right in changes)
    return f" {_LETTERS[seen]}{rights}"


def columns_of(decisions: Sequence[Decisions]) -> tuple[list[str], list[list[str]]]:
    """The changes that anybody may make on a node that is shown, and for each reader the letters of each node."""
    granted: set[str] = set()
    pairs = [list(zip(one.kinds, one.seen)) for one in decisions]
    for one, places in zip(decisions, pairs):
        for kind, seen in set(places):
            if seen is not Seen.HIDDEN:
                granted |= {right for right in _CHANGES if one.verdicts[kind][right].granted}
    changes = [right for right in _CHANGES if right in granted]
    columns = []
    for one, places in zip(decisions, pairs):
        letters = {pair: cell_letters(one, changes, *pair) for pair in set(places)}
        columns.append([letters[pair] for pair in places])
    return changes, columns


def _rows(decider: Decider, columns: Sequence[Sequence[str]]) -> Iterator[str]:
    paths = node_paths(decider.nodes)
    # rows that are alike are written once
    made: dict[tuple[str, ...], str] = {}
    rows = zip(*columns) if columns else iter([()] * len(paths))
    for node, path, cells in zip(decider.nodes, paths, rows):
        if cells not in made:
            runs = [(letters, len(list(run))) for letters, run in groupby(cells)]
            made[cells] = "".join(f"<i class={_CLASSES[letters[1]]}>{letters * number}</i>" for letters, number in runs)
        name = f"{'  ' * node.level}<b>{escape(node.label)}</b>"
        yield f'<tr><th scope=row title="{escape(path)}">{name}</th><td>{made[cells]}</td></tr>\n'


def _data(decider: Decider, decisions: Sequence[Decisions]) -> dict[str, Any]:
    """What the page's script tells of a cell. Readers who share the kinds of nodes name the same list of them."""
    kinds: list[Sequence[int]] = []
    readers = []
    for one in decisions:
        number = next((number for number, known in enumerate(kinds) if known is one.kinds), len(kinds))
        if number == len(kinds):
            kinds.append(one.kinds)
        decided = [[verdict[right].rule for right in RIGHTS] for verdict in one.verdicts]
        readers.append({"name": one.reader, "kinds": number, "decided": decided})
    return {
        "rights": RIGHTS,
        "rules": [{"line": rule_text(rule), "accept": rule.accept} for rule in decider.policy.rules],
        "levels": [node.level for node in decider.nodes],
        "parents": parents(decider.nodes),
        "kinds": kinds,
        "readers": readers,
    }


def map_page(decider: Decider, decisions: Sequence[Decisions], foot: Foot) -> str:
    """The page. Its decisions have been held against the library."""
    changes, columns = columns_of(decisions)
    legend = "".join(
        f"<span><b class={_CLASSES[letter]}>{escape(letter)}</b> {text}</span>" for letter, text in _LEGEND.items()
    )
    legend += "".join(f"<span><b>{_CHANGES[right]}</b> {right} is granted</span>" for right in changes)
    names = "".join(f"<span>{escape(one.reader)}</span>" for one in decisions)
    # inside a script element only `<` could end it
    data = json.dumps(_data(decider, decisions), separators=(",", ":")).replace("<", "\\u003c")
    title = f"Map of {foot.store}"
    return f"""<!DOCTYPE html>
<html lang="en">
<head>
<meta charset="utf-8">
{GENERATOR}
<meta http-equiv="Content-Security-Policy" content="{_POLICY}">
<meta name="viewport" content="width=device-width, initial-scale=1">
<meta name="robots" content="noindex">
<title>{escape(title)}</title>
<style>{_STYLE}:root {{ --width: {len(changes) + 2}; }}
</style>
</head>
<body>
<header>
<h1>{escape(title)}</h1>
<p class="alone">For the office alone: this page shows every label of the tree, also what is hidden from readers.</p>
<p>{len(decider.nodes):,} nodes by {len(decisions):,} subjects and {len(decider.policy.rules):,} rules, made
{escape(foot.time)} from the state <code>{escape(foot.digest)}</code>. Click a cell to see which rules decide.</p>
<p class="legend">{legend}</p>
<form hidden><label>Show only nodes whose path has <input id="filter" type="search" autocomplete="off"></label>
<output id="count"></output></form>
</header>
<div id="frame" tabindex="0">
<table>
<thead>
<tr><th scope="col">for the office alone<br>node</th><th scope="col"><div class="names">{names}</div></th></tr>
</thead>
<tbody>
{"".join(_rows(decider, columns))}</tbody>
</table>
</div>
<div id="told" role="status" hidden></div>
<script type="application/json" id="data">{data}</script>
<script>{_SCRIPT}</script>
</body>
</html>
"""


def write_page(path: str, page: str) -> None:
    """Writes a map for its owner alone, whole or not at all. It replaces an older map, and no other file.

    What a killed run leaves beside it has one name, so that the next run removes it.
    """
    target = Path(path).absolute()
    making = target.with_name(f".{target.name}.making")
    try:
        if target.exists() and not _is_map(target):
            raise OutputError(f"{path} is there already and is not a map; it is as it was")
        making.unlink(missing_ok=True)
        with open(os.open(making, os.O_WRONLY | os.O_CREAT | os.O_EXCL, 0o600), "wb") as file:
            try:
                file.write(page.encode("utf-8"))
                file.flush()
                os.fsync(file.fileno())
                os.replace(making, target)
            except BaseException:
                making.unlink(missing_ok=True)
                raise
    except OSError as error:
        raise OutputError(f"{path} cannot be written: {error.strerror}") from error


def _is_map(target: Path) -> bool:
    if not target.is_file():
        return False
    with open(target, "rb") as file:
        return GENERATOR.encode("ascii") in file.read(_HEAD_BYTES)
