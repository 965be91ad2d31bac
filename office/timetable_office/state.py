"""A state read by docs/FORMAT.md: its stage, user, day and policy. Nothing is ever written into a state here."""

from __future__ import annotations

from dataclasses import dataclass
from enum import IntEnum

from timetable_office.library import RECORD_BYTES

STATE_BYTES = 68_880
_POLICY_AT = 8
_SUBJECTS_AT = 8
_ISA_AT = 2_056
_ISA_BYTES = 2
_RULES_AT = 2_312
_RULE_BYTES = 520
_STEPS_AT = 8
_RIGHTS = {1: "position", 2: "read", 4: "insert", 8: "update", 16: "delete"}
_SLASHES = {0: "/", 1: "//"}


class Stage(IntEnum):
    """What a state takes next: each stage takes its own forms and those of later stages."""

    SUBJECTS = 0
    RULES = 1
    ROOT = 2
    CHILDREN = 3
    WORK = 4


@dataclass(frozen=True)
class Rule:
    """A rule, with its path as it was typed."""

    accept: bool
    right: str
    path: str
    subject: str

    def line(self) -> bytes:
        """The line that gives this rule."""
        return f"(rule {'accept' if self.accept else 'deny'} {self.right} {self.path} {self.subject})".encode("ascii")


@dataclass(frozen=True)
class Policy:
    """Subjects, isa lines and rules, each in the order in which they were declared."""

    subjects: tuple[str, ...]
    isa: tuple[tuple[str, str], ...]
    rules: tuple[Rule, ...]

    def lines(self) -> list[bytes]:
        """The lines that give this policy."""
        subjects = [f"(subject {name})".encode("ascii") for name in self.subjects]
        isa = [f"(isa {name} {role})".encode("ascii") for name, role in self.isa]
        return subjects + isa + [rule.line() for rule in self.rules]


def read_label(record: bytes) -> str:
    """The label of a record, a subject or a step."""
    return record[2 : 2 + record[1]].decode("ascii")


def _pieces(data: bytes, start: int, size: int, count: int) -> list[bytes]:
    return [data[start + size * k : start + size * (k + 1)] for k in range(count)]


def read_policy(state: bytes) -> Policy:
    """The policy of a state that the library takes."""
    held = state[_POLICY_AT:]
    subjects = [read_label(record) for record in _pieces(held, _SUBJECTS_AT, RECORD_BYTES, held[0])]
    isa = [(subjects[pair[0]], subjects[pair[1]]) for pair in _pieces(held, _ISA_AT, _ISA_BYTES, held[1])]
    rules = []
    for rule in _pieces(held, _RULES_AT, _RULE_BYTES, held[2]):
        steps = _pieces(rule, _STEPS_AT, RECORD_BYTES, rule[3])
        path = "".join(_SLASHES[step[0]] + read_label(step) for step in steps)
        rules.append(Rule(rule[0] == 1, _RIGHTS[rule[1]], path, subjects[rule[2]]))
    return Policy(tuple(subjects), tuple(isa), tuple(rules))


def policy_part(state: bytes) -> bytes:
    """The bytes of a state that hold its policy."""
    return state[_POLICY_AT:]


def stage_of(state: bytes) -> Stage:
    """The stage of a state."""
    return Stage(state[0])


def user_of(state: bytes) -> str | None:
    """The name of the subject that is logged in."""
    if state[1] == 0:
        return None
    return read_label(state[_POLICY_AT + _SUBJECTS_AT + RECORD_BYTES * (state[1] - 1) :][:RECORD_BYTES])


def day_of(state: bytes) -> int:
    """The day of the session, which is stored less one."""
    return int.from_bytes(state[2:4], "little") + 1
