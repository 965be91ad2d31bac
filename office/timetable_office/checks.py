"""What a policy writer gets wrong.

A finding is a *slip* where the rule surely does not do what it looks like, or lets something be seen that it speaks of
hiding; it is a *hint* where another tree, or another intention, would make it right. A *refused* line is one that the
library did not take. The decisions on which all this rests have been held against the library.
"""

from __future__ import annotations

import difflib
import json
import textwrap
from collections import Counter
from dataclasses import dataclass, field
from typing import Any, Callable, Collection, Iterator, NamedTuple, Sequence

from timetable_office.agreement import LEVELS
from timetable_office.decisions import (
    RIGHTS,
    Decider,
    Decisions,
    Seen,
    Selector,
    Verdict,
    path_words,
    roles_of,
    rule_text,
)
from timetable_office.library import RECORDS_MAXIMUM, Library, Session
from timetable_office.lines import Lines, split_lines
from timetable_office.places import node_paths, parents
from timetable_office.replace import replace_policy
from timetable_office.runs import run_lines
from timetable_office.state import Policy, Rule, read_policy
from timetable_office.tree import RESTRICTED, folded

SLIP, HINT, REFUSED = "slip", "hint", "refused"
_NAMES_SHOWN = 3
_STATES_TRIED = 1_000
_NEAR = 0.7
_COLUMNS = 110


class Finding(NamedTuple):
    """One thing that was found: of a rule, by its place in the policy, or of a subject."""

    weight: str
    kind: str
    text: str
    rule: int | None = None
    subject: str | None = None
    line: int | None = None


@dataclass
class Effect:
    """What a rule does on the stored tree, over all readers it is for."""

    selects: bool = False
    decides: bool = False
    # some right is another one without it
    changes: bool = False
    # a right that it gives or takes matters somewhere; if not, why not
    matters: bool = False
    hindrances: Counter[str] = field(default_factory=Counter)


def check_policy(decider: Decider, progress: Callable[[int], None] = lambda count: None) -> list[Finding]:
    """All that is found, rules in their order first. Without a tree the rules are held against each other alone."""
    if not decider.policy.rules:
        return [Finding(HINT, "no-rule", "there is no rule, so nobody is shown anything")]
    if not has_tree(decider):
        found = [finding for place in range(len(decider.policy.rules)) for finding in _overridden(decider, place)]
        return found + list(_subjects(decider))
    decisions = decider.decide_all(progress)
    effects = survey(decider, decisions)
    found = [finding for place, effect in enumerate(effects) for finding in _rule_findings(decider, place, effect)]
    found += _readable_below(decider, decisions)
    found.sort(key=lambda finding: finding.rule or 0)
    return [*found, *_words_behind(decider, decisions), *_subjects(decider)]


def has_tree(decider: Decider) -> bool:
    """Whether there is a tree to check rules on: a root alone is none."""
    return len(decider.nodes) > 1


# What rules do


def survey(decider: Decider, decisions: Sequence[Decisions]) -> list[Effect]:
    """The effect of each rule."""
    rules, ends = decider.policy.rules, decider.selector.ends
    is_word = [decider.is_word(node.label) for node in decider.nodes]
    is_root = [node.level == 0 for node in decider.nodes]
    effects = [Effect() for _ in rules]
    for one in decisions:
        for verdict in one.verdicts:
            for decision in verdict.values():
                if decision.rule is not None:
                    effects[decision.rule].decides = True
    for one in decisions:
        selected = decider.selection(one.roles).selected
        applicable = decider.applicable(one.roles)
        for place in applicable:
            effects[place].selects |= any(bits & ends[place] for bits in selected)
        for kind, seen, word, root in Counter(zip(one.kinds, one.seen, is_word, is_root)):
            verdict = one.verdicts[kind]
            for right in RIGHTS:
                number = verdict[right].rule
                if number is None:
                    continue
                effect, rule = effects[number], rules[number]
                before = [
                    place
                    for place in applicable
                    if place < number and rules[place].right == right and ends[place] & selected[kind]
                ]
                # what would decide without it; and what would if the rules that decide nothing went too
                for others in (before, [place for place in before if effects[place].decides]):
                    effect.changes |= rule.accept != (rules[others[-1]].accept if others else False)
                hindrance = _hindrance(rule, verdict, seen, word, root)
                if hindrance:
                    effect.hindrances[hindrance] += 1
                else:
                    effect.matters = True
    return effects


def _hindrance(rule: Rule, verdict: Verdict, seen: Seen, word: bool, root: bool) -> str:
    """Why a rule that decides on a node does not matter there; nothing if it does."""
    if not rule.accept:
        return "it is still shown, by read" if rule.right == "position" and verdict["read"].granted else ""
    if seen is Seen.HIDDEN:
        return "a node above it is hidden" if rule.right in ("read", "position") else "it is hidden"
    if rule.right == "position" and seen is Seen.LABEL:
        return "it is shown with its label anyway, by read"
    if rule.right == "update" and seen is Seen.RESTRICTED:
        return "update needs read too"
    if rule.right == "update" and word:
        return "its label is a word of the rules, and such a label is never changed"
    if rule.right == "delete" and root:
        return "the root is never removed"
    return ""


def _rule_findings(decider: Decider, place: int, effect: Effect) -> Iterator[Finding]:
    """What is found of a rule by itself: the first that applies."""
    rule = decider.policy.rules[place]
    text = rule_text(rule)
    if not effect.decides:
        overridden = list(_overridden(decider, place))
        if overridden:
            yield from overridden
        elif not effect.selects:
            yield _selects_nothing(decider, place)
        else:
            says = "decides nothing for anybody on this tree: on each node that it selects, a later rule decides"
            yield Finding(HINT, "decides-nothing", f"{text} {says}", place)
    elif not effect.matters:
        reasons = " or ".join(effect.hindrances)
        says = "gives nothing" if rule.accept else "hides nothing"
        advice = _below_advice(rule) if rule.right == "update" else ""
        yield Finding(SLIP, "no-effect", f"{text} {says} on any node that it decides: {reasons}{advice}", place)
    elif not effect.changes:
        says = "changes nothing on this tree: without it every reader has the same rights"
        yield Finding(HINT, "changes-nothing", f"{text} {says}{_below_advice(rule)}", place)


def _last_step(rule: Rule) -> str:
    return rule.path.rpartition("/")[2]


def _below_advice(rule: Rule) -> str:
    """That the nodes below may be meant, where the path ends with a label."""
    return "" if _last_step(rule) in "*$" else f"; {rule.path}/* selects the nodes below it"


def _selects_nothing(decider: Decider, place: int) -> Finding:
    rule, root = decider.policy.rules[place], decider.nodes[0].label
    unknown = [word for word in path_words(rule.path) if folded(word) not in decider.labels]
    text = f"{rule_text(rule)} selects no node"
    if unknown:
        near = {word: _near(word, decider) for word in unknown}
        said = [f"no node is called {word}" + (f"; did you mean {near[word]}?" if near[word] else "") for word in near]
        return Finding(SLIP if any(near.values()) else HINT, "unknown-word", f"{text}: {', '.join(said)}", place)
    first = rule.path.split("/")[1]
    if first and first not in ("*", "$") and folded(first) != folded(root):
        text += (
            f": a path that begins with /{first} starts at the root, which is called {root}; //{first} starts anywhere"
        )
        return Finding(SLIP, "selects-nothing", text, place)
    if "$" in rule.path:
        text += f": no node there has the name of a reader who is {rule.subject}, or of a role of theirs"
    return Finding(HINT, "selects-nothing", text, place)


def _near(word: str, decider: Decider) -> str | None:
    labels = {folded(label): label for label in sorted({node.label for node in decider.nodes})}
    near = difflib.get_close_matches(folded(word), labels, n=1, cutoff=_NEAR)
    return labels[near[0]] if near else None


# Rules that later ones override, whatever the tree


def _overridden(decider: Decider, place: int) -> Iterator[Finding]:
    rules = decider.policy.rules
    rule = rules[place]
    if rule.path.replace("//", "/").count("/") > LEVELS:
        says = f"selects nothing in any tree: it has more than {LEVELS} steps, and a tree has {LEVELS} levels"
        yield Finding(SLIP, "selects-nothing", f"{rule_text(rule)} {says}", place)
        return
    roles = roles_of(decider.policy, rule.subject)
    every = [roles_of(decider.policy, name) for name in decider.policy.subjects]
    readers = [set(map(folded, own)) for own in every if rule.subject in own]
    for later in range(len(rules) - 1, place, -1):
        other = rules[later]
        if other.right != rule.right or other.subject not in roles:
            continue
        names: Sequence[Collection[str]] = readers if "$" in rule.path + other.path else [()]
        if all(is_within(rule.path, other.path, own) for own in names):
            says = "decides nothing for anybody, whatever the tree"
            since = f"{rule_text(other)}, rule {later + 1}, comes after it and applies wherever it does"
            advice = (
                "; write an exception after the rule that it is an exception to" if rule.accept != other.accept else ""
            )
            yield Finding(SLIP, "overridden", f"{rule_text(rule)} {says}: {since}{advice}", place)
            return


def is_within(path: str, other: str, own: Collection[str]) -> bool:
    """Whether the other path selects every node that this one selects, in any tree, for a reader with these names,
    folded. `False` also if it is too long to tell."""
    both = Selector([path, other])
    wanted, enough = both.ends
    # a label that neither path names stands for all such labels
    labels = {*both.words, *own, RESTRICTED}
    tests = {both.tests(label, own) for label in labels}
    steps = wanted | (wanted - 1)
    seen = {(both.below(both.start, both.start), both.start)}
    level = list(seen)
    for _ in range(LEVELS):
        below = []
        for can, above in level:
            for test in tests:
                bits = can & test
                if bits & wanted and not bits & enough:
                    return False
                state = (both.below(bits, above | bits), above | bits)
                # where the first path can select nothing more there is nothing to look for
                if state[0] & steps and state not in seen:
                    seen.add(state)
                    below.append(state)
        if len(seen) > _STATES_TRIED:
            return False
        level = below
    return True


# What readers see


def _readable_below(decider: Decider, decisions: Sequence[Decisions]) -> Iterator[Finding]:
    """Rules that hide a label while labels directly below it stay readable."""
    above, paths = parents(decider.nodes), node_paths(decider.nodes)
    readers: dict[int, dict[str, int]] = {}
    for one in decisions:
        if Seen.RESTRICTED not in one.seen:
            continue
        for place, parent in enumerate(above):
            if parent is None or one.seen[place] is not Seen.LABEL or one.seen[parent] is not Seen.RESTRICTED:
                continue
            denying = one.verdict(parent)["read"].rule
            if denying is not None:
                readers.setdefault(denying, {}).setdefault(one.reader, place)
    for number, found in sorted(readers.items()):
        rule = decider.policy.rules[number]
        step = _last_step(rule)
        by_label = step not in "*$"
        wider = (
            rule.path + "/*" if by_label else rule.path.removesuffix("/*") + "//*" if step == "*" else rule.path + "//*"
        )
        text = (
            f"{rule_text(rule)} hides a label, and what is below it stays readable to {some(list(found))}: "
            f"{paths[next(iter(found.values()))]}; {wider} selects {'what' if by_label else 'all that'} is below"
        )
        yield Finding(SLIP if by_label else HINT, "readable-below", text, number)


def _words_behind(decider: Decider, decisions: Sequence[Decisions]) -> Iterator[Finding]:
    """Policy words behind RESTRICTED."""
    places = [place for place, node in enumerate(decider.nodes) if decider.is_word(node.label)]
    readers: dict[str, dict[str, int]] = {}
    for one in decisions:
        for place in places:
            if one.seen[place] is Seen.RESTRICTED:
                readers.setdefault(folded(decider.nodes[place].label), {}).setdefault(one.reader, place)
    paths = node_paths(decider.nodes) if readers else []
    for found in readers.values():
        first = next(iter(found.values()))
        text = (
            f"{decider.nodes[first].label} is a word of the rules, and a node with this label is shown as RESTRICTED "
            f"to {some(list(found))}: {paths[first]}; what these readers are answered can tell them the word"
        )
        yield Finding(SLIP, "word-behind", text)


def some(names: Sequence[str]) -> str:
    """A few of the names, and how many more there are."""
    if len(names) <= _NAMES_SHOWN + 1:
        return " and ".join(filter(None, [", ".join(names[:-1]), names[-1]]))
    return f"{', '.join(names[:_NAMES_SHOWN])} and {len(names) - _NAMES_SHOWN} others"


# Subjects


def _subjects(decider: Decider) -> Iterator[Finding]:
    """Subjects to whom no rule applies, and roles that nobody has.

    A role that others have may be there for its name alone, such as a form that tutors are, where a rule has `$`.
    A subject that nobody else is may well be a reader itself, such as a website. It is taken for a role where a rule
    for it speaks of the reader by `$` and no node has its name or that of a role of its own, or where another subject
    has no rule.
    """
    policy = decider.policy
    ruled = {rule.subject for rule in policy.rules}
    held = {role for _, role in policy.isa}
    without = [name for name in policy.subjects if ruled.isdisjoint(roles_of(policy, name))]
    for name in without:
        if name in held and decider.selector.names_reader():
            continue
        says = f"no rule applies to {name}, so {name} is shown nothing"
        yield Finding(HINT, "no-rule", says, subject=name)
    named = {name for pair in policy.isa for name in pair}
    strays = [name for name in without if name not in named]
    for role in policy.subjects:
        if role not in ruled or role in held:
            continue
        speaks = any(rule.subject == role and "$" in rule.path for rule in policy.rules)
        if speaks and decider.labels.isdisjoint(map(folded, roles_of(policy, role))):
            says = f"a rule for {role} speaks of its reader by $, and nobody is {role}: is an isa line missing?"
        elif strays and role not in named:
            says = f"nobody else is {role}, and no rule applies to {some(strays)}: is an isa line missing?"
        else:
            continue
        yield Finding(HINT, "role-nobody-has", says, subject=role)


# Lists of lines, and findings as text


@dataclass
class Checked:
    """What is checked: a store, or a list of lines as it was run on a new store in memory."""

    name: str
    decider: Decider
    # of a list of lines the numbers of the lines that gave the rules and the subjects
    rule_lines: Sequence[int] = ()
    subject_lines: Sequence[int] = ()
    refused: Sequence[Finding] = ()

    def line(self, finding: Finding) -> int | None:
        """The number of the line that a finding is about, if a list of lines is checked."""
        if finding.rule is not None and self.rule_lines:
            return self.rule_lines[finding.rule]
        if finding.subject is not None and self.subject_lines:
            return self.subject_lines[self.decider.policy.subjects.index(finding.subject)]
        return finding.line

    def place(self, finding: Finding) -> str:
        """Where a finding is: `FILE:LINE`, or the number of the rule in a store."""
        line = self.line(finding)
        if line is not None:
            return f"{self.name}:{line}"
        return self.name if finding.rule is None else f"{self.name}: rule {finding.rule + 1}"

    def findings(self, progress: Callable[[int], None] = lambda count: None) -> list[Finding]:
        """All that is found."""
        return [*self.refused, *check_policy(self.decider, progress)]


def check_lines(library: Library, given: Lines, tree: Session | None = None) -> Checked:
    """A list of lines to check; the lines that are refused are findings. With a tree it is a policy for that one."""
    run = run_lines(library.session(RECORDS_MAXIMUM), given, keep_going=True, policy_alone=tree is not None)
    session = Session(library, run.state, run.table)
    if tree is not None:
        session = replace_session(tree, read_policy(run.state))
    taken = [one for one in run.answered if not one.refused]
    return Checked(
        given.name,
        Decider(session),
        [one.line.number for one in taken if one.form == "rule"],
        [one.line.number for one in taken if one.form == "subject"],
        [Finding(REFUSED, "refused", one.complaint(), line=one.line.number) for one in run.refused()],
    )


def replace_session(tree: Session, policy: Policy) -> Session:
    """The stored tree under another policy."""
    made = replace_policy(tree, split_lines("policy", b"".join(line + b"\n" for line in policy.lines())))
    return Session(tree.library, made.state, made.table)


def findings_text(checked: Checked, found: Sequence[Finding]) -> str:
    """A paragraph for each finding: its place, its weight and what it says."""
    made = []
    for one in found:
        weight = "" if one.weight == REFUSED else one.weight + ": "
        text = f"{checked.place(one)}: {weight}{one.text}"
        made.append(
            textwrap.fill(text, _COLUMNS, subsequent_indent="    ", break_long_words=False, break_on_hyphens=False)
        )
    return "".join(one + "\n" for one in made)


def findings_json(checked: Checked, found: Sequence[Finding]) -> str:
    """The findings as JSON, and whether there was a tree to check the rules on."""
    rules = checked.decider.policy.rules
    listed: list[dict[str, Any]] = [
        {
            "weight": one.weight,
            "kind": one.kind,
            "line": checked.line(one),
            "rule": None if one.rule is None else {"number": one.rule + 1, "line": rule_text(rules[one.rule])},
            "subject": one.subject,
            "text": one.text,
        }
        for one in found
    ]
    return json.dumps({"checked": checked.name, "tree": has_tree(checked.decider), "findings": listed}, indent=2) + "\n"
