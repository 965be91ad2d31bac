"""Runs: lines given to a session one after the other, with what each was answered and what the log says of it."""

from __future__ import annotations

import re
from dataclasses import dataclass, field, replace
from typing import Callable, NamedTuple

from timetable_office.errors import InputError
from timetable_office.library import Refused, Session
from timetable_office.lines import Line, Lines, explain, form_of
from timetable_office.state import Stage, stage_of, user_of

_DONE = re.compile(rb"\(done ([0-9]+) ([0-9]+)\)\n\Z")
_END = re.compile(rb"(?:.*\n)?\(end ([0-9]+)\)\n\Z", re.DOTALL)
_HIT = re.compile(rb"\(hit [^\n]*\n\Z")
_NONE = b"(none)\n"


class Counts(NamedTuple):
    """The counts of an answer: nodes shown or selected, and nodes done."""

    selected: int | None = None
    done: int | None = None


class Given(NamedTuple):
    """What the log keeps of lines that follow each other and are alike in it: who gave which form, and its counts."""

    user: str | None
    form: str | None
    refused: int | None
    counts: Counts


@dataclass(frozen=True)
class Answered:
    """A line with its answer, or with the refusal and what helps."""

    line: Line
    form: str | None
    answer: bytes = b""
    refused: Refused | None = None
    advice: str = ""

    def complaint(self) -> str:
        """Why the line was refused, in words."""
        return f"{self.refused} ({self.advice})" if self.advice else str(self.refused)


@dataclass
class Run:
    """What came of a list of lines.

    `state` and `table` are what a store keeps of it. A login and a day last to the end of their run: the state is the
    last one before work began, so that nobody is logged in when the next run begins, and it is day 1.
    """

    state: bytes
    table: bytes
    answered: list[Answered] = field(default_factory=list)
    log: list[tuple[Given, int]] = field(default_factory=list)

    def refused(self) -> list[Answered]:
        """The lines that were refused."""
        return [answered for answered in self.answered if answered.refused]

    def note(self, given: Given) -> None:
        """Adds a line to the log: lines that are alike there and follow each other are counted together."""
        if self.log and self.log[-1][0] == given:
            self.log[-1] = (given, self.log[-1][1] + 1)
        else:
            self.log.append((given, 1))


class RefusedLine(InputError):
    """The line that ended a run."""

    def __init__(self, given: Lines, answered: Answered) -> None:
        super().__init__(f"{given.at(answered.line)}: {answered.complaint()}")
        self.answered = answered


def counts_of(answer: bytes) -> Counts:
    """The counts that an answer tells."""
    if done := _DONE.match(answer):
        return Counts(int(done[1]), int(done[2]))
    if end := _END.match(answer):
        return Counts(int(end[1]))
    if _HIT.match(answer):
        return Counts(1)
    return Counts(0) if answer == _NONE else Counts()


def run_lines(
    session: Session,
    given: Lines,
    *,
    keep_going: bool = False,
    policy_alone: bool = False,
    progress: Callable[[int], None] = lambda count: None,
) -> Run:
    """Gives the lines to the session. The first refused line ends it with `RefusedLine`, unless it is to keep going.

    With `policy_alone` a line that is no longer of the policy is an error too.
    """
    run = Run(session.state, session.table)
    for line in given.lines:
        try:
            answer = session.line(line.text)
        except Refused as refused:
            form = form_of(line.text, refused.number)
            answered = Answered(line, form, refused=refused, advice=explain(line.text, refused.number, session))
            if not keep_going:
                raise RefusedLine(given, answered) from refused
            user = user_of(session.state)
            if form == "user" and user:
                answered = replace(answered, advice=f"{answered.advice}; {user} is still logged in")
            run.note(Given(user, form, refused.number, Counts()))
        else:
            state = session.state
            answered = Answered(line, form_of(line.text), answer)
            if policy_alone and stage_of(state) > Stage.RULES:
                raise InputError(f"{given.at(line)}: a {answered.form} line does not belong in a policy")
            if stage_of(state) < Stage.WORK:
                run.state = state
            run.note(Given(user_of(state), answered.form, None, counts_of(answer)))
        run.answered.append(answered)
        progress(line.number)
    run.table = session.table
    return run
