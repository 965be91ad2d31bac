"""Why a reader sees a node or not: the rule that decides each right on it, the nodes above that hide it, and on which
days it is there."""

from __future__ import annotations

import json
from typing import Any, Sequence

from timetable_office.decisions import RIGHTS, Decider, Decision, Decisions, Seen, rule_text, seen_by
from timetable_office.errors import InputError
from timetable_office.library import Session
from timetable_office.places import node_paths, parents, select_stored, way_down
from timetable_office.tree import WHOLE_YEAR, read_windows
from timetable_office.views import declared_name

_SEEN = {Seen.HIDDEN: "hidden", Seen.RESTRICTED: "restricted", Seen.LABEL: "label"}
# The rights that decide what is seen.
_SEEING = ("position", "read")


def explain_nodes(session: Session, reader: str, path: str) -> dict[str, Any]:
    """What decides for a reader on each node that the path selects in the stored tree, as JSON has it."""
    reader = declared_name(session, reader)
    places = select_stored(session, reader, path)
    if not places:
        raise InputError(f"{path} selects no node of the stored tree")
    decider = Decider(session)
    windows = read_windows(session.table)
    decisions = decider.decide(reader)
    paths, above = node_paths(decider.nodes), parents(decider.nodes)
    nodes = []
    for place in places:
        way = way_down(above, place)
        hiding = [step for step in way if not seen_by(decisions.verdict(step))]
        dated = [step for step in way if windows[step] != WHOLE_YEAR]
        nodes.append(
            {
                "path": paths[place],
                "number": place + 1,
                "level": decider.nodes[place].level,
                "label": decider.nodes[place].label,
                "seen": _SEEN[decisions.seen[place]],
                "rights": _rights(decider, decisions, place, RIGHTS),
                "hidden_by": [
                    {"path": paths[step], "rights": _rights(decider, decisions, step, _SEEING)} for step in hiding
                ],
                "windows": [{"path": paths[step], "days": list(windows[step])} for step in dated],
            }
        )
    return {"reader": reader, "path": path, "nodes": nodes}


def _rights(decider: Decider, decisions: Decisions, place: int, rights: Sequence[str]) -> dict[str, Any]:
    verdict = decisions.verdict(place)
    return {right: _decision(decider, decisions, verdict[right]) for right in rights}


def _decision(decider: Decider, decisions: Decisions, decision: Decision) -> dict[str, Any]:
    if decision.rule is None:
        return {"granted": False, "rule": None}
    rule = decider.policy.rules[decision.rule]
    return {
        "granted": decision.granted,
        "rule": {"number": decision.rule + 1, "line": rule_text(rule), "isa": list(decisions.roles[rule.subject])},
    }


def why_json(explained: dict[str, Any]) -> str:
    """The explanation as JSON."""
    return json.dumps(explained, indent=2) + "\n"


def why_text(explained: dict[str, Any]) -> str:
    """The explanation in words: a paragraph for each node."""
    return "\n".join(_node_text(explained["reader"], node) for node in explained["nodes"])


def _node_text(reader: str, node: dict[str, Any]) -> str:
    says = {
        "label": f"is shown to {reader}",
        "restricted": f"is shown to {reader} as RESTRICTED",
        "hidden": f"is hidden from {reader}",
    }
    lines = [f"{node['path']} {says[node['seen']]}", *_rights_lines(node["rights"])]
    for hiding in node["hidden_by"]:
        if hiding["path"] == node["path"]:
            lines.append("  hidden by itself: neither position nor read")
        else:
            lines.append(f"  hidden by {hiding['path']}, on which there is neither position nor read:")
            lines += ["  " + line for line in _rights_lines(hiding["rights"])]
    for dated in node["windows"]:
        first, last = dated["days"]
        where = "" if dated["path"] == node["path"] else f", as {dated['path']} is"
        lines.append(f"  there on days {first} to {last} alone{where}")
    return "".join(line + "\n" for line in lines)


def _rights_lines(rights: dict[str, Any]) -> list[str]:
    lines = []
    for right, decision in rights.items():
        said = "yes" if decision["granted"] else "no"
        lines.append(f"  {right:<8}  {said:<3}  {_rule_words(decision['rule'])}")
    return lines


def _rule_words(rule: dict[str, Any] | None) -> str:
    if rule is None:
        return "no rule"
    since = f", since {' isa '.join(rule['isa'])}" if len(rule["isa"]) > 1 else ""
    return f"rule {rule['number']}: {rule['line']}{since}"
