"""Which rule decides each right of a reader on each node of the stored tree, hidden nodes too.

Document 01: a rule applies to a subject that is its N, by isa lines or by itself, and to the nodes that its path
selects in the stored tree; the last applicable rule for a right wins, and with none there is no right. A node is shown
if read or position is granted on it and its parent is shown. Document 02, card 5: `$` passes the name of all that the
reader is, by isa lines or by itself. Card 6: labels are equal whatever the case of A to Z, so they are compared folded.
Card 7: a node outside its window is not shown on that day, and windows alter no right; here all days are looked at.

The library tells what a reader sees, and never why. Here the rules are matched a second time, and what follows for the
view and for changes is held against what the library does for the same reader (`agreement`). Where they differ there is
an error and no answer.
"""

from __future__ import annotations

import re
from enum import IntEnum
from typing import Callable, Collection, Mapping, NamedTuple, Sequence

from timetable_office.agreement import LEVELS, Agreement, Expected
from timetable_office.library import Session
from timetable_office.state import Policy, Rule, read_policy
from timetable_office.tree import RESTRICTED, Node, folded, read_table
from timetable_office.views import on_all_days

RIGHTS = ("position", "read", "insert", "update", "delete")
_STEP = re.compile(r"(//?)([^/]+)")


class Seen(IntEnum):
    """What a reader sees of a node."""

    HIDDEN = 0
    RESTRICTED = 1
    LABEL = 2


def path_words(path: str) -> list[str]:
    """The labels that a rule's path names, as they were typed."""
    return [test for _, test in _STEP.findall(path) if test not in ("*", "$")]


class Selector:
    """Matches many paths at once on the way down a tree.

    Each path has a bit for its start and one for each of its steps, in a row. A bit of a node says that the steps up to
    it select the node; the start bits are those of the document node above the root. The bits of later paths are
    higher.
    """

    def __init__(self, paths: Sequence[str]) -> None:
        self.start = 0
        self.ends: list[int] = []
        # by the labels that paths name, folded
        self.words: dict[str, int] = {}
        self._child = self._deep = self._any = self._own = 0
        bit = 1
        for path in paths:
            self.start |= bit
            for slashes, test in _STEP.findall(path):
                if slashes == "/":
                    self._child |= bit
                else:
                    self._deep |= bit
                bit <<= 1
                if test == "*":
                    self._any |= bit
                elif test == "$":
                    self._own |= bit
                else:
                    self.words[folded(test)] = self.words.get(folded(test), 0) | bit
            self.ends.append(bit)
            bit <<= 1
        self.end = sum(self.ends)

    def names_reader(self) -> bool:
        """Whether a path has a `$`."""
        return self._own != 0

    def tests(self, label: str, own: Collection[str]) -> int:
        """The bits of the steps that a label passes; `$` passes these names, folded, of all that a reader is."""
        same = folded(label)
        return self._any | self.words.get(same, 0) | (self._own if same in own else 0)

    def below(self, parent: int, above: int) -> int:
        """The bits that a node below can get: of `parent` by `/`, of `above`, which is any node above it, by `//`."""
        return ((parent & self._child) | (above & self._deep)) << 1

    def select(self, nodes: Sequence[Node], own: Collection[str]) -> list[int]:
        """For each node the end bits of the paths that select it, with these names, folded, for `$`."""
        tests = {label: self.tests(label, own) for label in {node.label for node in nodes}}
        # for each level the bits that a node there can get
        can = [0] * (LEVELS + 1)
        can[0] = self.below(self.start, self.start)
        above = [0] * (LEVELS + 1)
        above[0] = self.start
        selected = []
        for level, label in nodes:
            bits = can[level] & tests[label]
            above[level + 1] = above[level] | bits
            can[level + 1] = self.below(bits, above[level + 1])
            selected.append(bits & self.end)
        return selected


class Selection(NamedTuple):
    """Which rules select the nodes, whomever they are for: a number for each node, and what each number stands for."""

    kinds: list[int]
    selected: list[int]


class Decision(NamedTuple):
    """The rule that decides a right, by its place in the policy, and whether the right is granted."""

    rule: int | None
    granted: bool


Verdict = Mapping[str, Decision]


class Decisions(NamedTuple):
    """What decides for one reader. The library agrees with it."""

    reader: str
    # for each role of the reader the isa lines that lead to it: `(SHA, tutors, staff)`; for the reader alone `(SHA,)`
    roles: Mapping[str, tuple[str, ...]]
    # for each node its kind, and for each kind what is decided on its nodes
    kinds: Sequence[int]
    verdicts: Sequence[Verdict]
    seen: Sequence[Seen]

    def verdict(self, place: int) -> Verdict:
        """What is decided on a node."""
        return self.verdicts[self.kinds[place]]


def roles_of(policy: Policy, reader: str) -> dict[str, tuple[str, ...]]:
    """All that a subject is, itself first, each with the shortest way by isa lines."""
    roles: dict[str, tuple[str, ...]] = {reader: (reader,)}
    for name in (found := [reader]):
        for member, role in policy.isa:
            if member == name and role not in roles:
                roles[role] = (*roles[name], role)
                found.append(role)
    return roles


def seen_by(verdict: Verdict) -> Seen:
    """What is seen of a node whose parent is shown."""
    if verdict["read"].granted:
        return Seen.LABEL
    return Seen.RESTRICTED if verdict["position"].granted else Seen.HIDDEN


class Decider:
    """Decides for the readers of one store."""

    def __init__(self, session: Session) -> None:
        # windows alter no right: what the rules say is told of all days
        session = on_all_days(session)
        self.session = session
        self.policy = read_policy(session.state)
        self.nodes = read_table(session.table)
        self.selector = Selector([rule.path for rule in self.policy.rules])
        # labels of nodes, folded
        self.labels = frozenset(folded(node.label) for node in self.nodes)
        # the policy words, folded: labels named in any rule's path; once any rule uses `$`, every subject's name too
        self._words = set(self.selector.words)
        if self.selector.names_reader():
            self._words.update(map(folded, self.policy.subjects))
        self._agreement = Agreement(session, self.nodes, self.labels | self._words)
        self._selections: dict[frozenset[str], Selection] = {}

    def is_word(self, label: str) -> bool:
        """Whether a label is a policy word."""
        return folded(label) in self._words

    def selection(self, roles: Mapping[str, object]) -> Selection:
        """Which rules select the nodes, with the names of these roles, all that a reader is, for `$`."""
        # readers share one if no path has a `$`, or if nodes have the same names of theirs
        own = self.labels.intersection(map(folded, roles)) if self.selector.names_reader() else frozenset[str]()
        if own not in self._selections:
            numbers: dict[int, int] = {}
            kinds = [numbers.setdefault(bits, len(numbers)) for bits in self.selector.select(self.nodes, own)]
            self._selections[own] = Selection(kinds, list(numbers))
        return self._selections[own]

    def applicable(self, roles: Mapping[str, object]) -> list[int]:
        """The places of the rules that are for one of these roles."""
        return [place for place, rule in enumerate(self.policy.rules) if rule.subject in roles]

    def decide(self, reader: str) -> Decisions:
        """What decides for this reader, after the library was found to agree."""
        roles = roles_of(self.policy, reader)
        selection = self.selection(roles)
        verdicts = self._verdicts(self.applicable(roles), selection.selected)
        seen = self._seen([seen_by(verdict) for verdict in verdicts], selection.kinds)
        decisions = Decisions(reader, roles, selection.kinds, verdicts, seen)
        self._agreement.check(reader, self._expected(decisions))
        return decisions

    def decide_all(self, progress: Callable[[int], None] = lambda count: None) -> list[Decisions]:
        """What decides for each subject, in their order."""
        made = []
        for count, reader in enumerate(self.policy.subjects, 1):
            made.append(self.decide(reader))
            progress(count)
        return made

    def _verdicts(self, applicable: Sequence[int], selected: Sequence[int]) -> list[Verdict]:
        rules, ends = self.policy.rules, self.selector.ends
        place_of = {ends[place].bit_length(): place for place in applicable}
        masks = {right: sum(ends[place] for place in applicable if rules[place].right == right) for right in RIGHTS}

        def decision(bits: int) -> Decision:
            """By the last of these rules: later ones have higher bits."""
            if not bits:
                return Decision(None, False)
            place = place_of[bits.bit_length()]
            return Decision(place, rules[place].accept)

        return [{right: decision(bits & masks[right]) for right in RIGHTS} for bits in selected]

    def _seen(self, by_kind: Sequence[Seen], kinds: Sequence[int]) -> list[Seen]:
        # for each level whether the node above is shown; the document node counts as shown
        shown = [True] * (LEVELS + 1)
        made = []
        for node, kind in zip(self.nodes, kinds):
            seen = by_kind[kind] if shown[node.level] else Seen.HIDDEN
            shown[node.level + 1] = seen is not Seen.HIDDEN
            made.append(seen)
        return made

    def _expected(self, decisions: Decisions) -> Expected:
        """What the library has to do for this reader (document 01, View and Changes)."""
        granted = {
            right: [verdict[right].granted for verdict in decisions.verdicts]
            for right in ("insert", "update", "delete")
        }
        places = list(zip(self.nodes, decisions.kinds, decisions.seen))
        return Expected(
            view=[
                node if seen is Seen.LABEL else Node(node.level, RESTRICTED)
                for node, _, seen in places
                if seen is not Seen.HIDDEN
            ],
            renamed=[
                seen is Seen.LABEL and granted["update"][kind] and not self.is_word(node.label)
                for node, kind, seen in places
            ],
            removed=[
                seen is not Seen.HIDDEN and granted["delete"][kind] and node.level > 0 for node, kind, seen in places
            ],
            appended=[seen is not Seen.HIDDEN and granted["insert"][kind] for _, kind, seen in places],
        )


def rule_text(rule: Rule) -> str:
    """A rule as `export --policy` prints it."""
    return rule.line().decode("ascii")
