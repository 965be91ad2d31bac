"""A new policy over a stored tree."""

from __future__ import annotations

from timetable_office.errors import InputError
from timetable_office.library import Session
from timetable_office.lines import Lines
from timetable_office.runs import Run, run_lines
from timetable_office.state import Stage, stage_of
from timetable_office.tree import read_table


def replace_policy(session: Session, given: Lines) -> Run:
    """What a store with the session's tree is under the policy of the given lines, all of them of stages A and B.

    The library makes the new state from these lines, then from the root's line and, where the store has had one, a
    child line. It stands with the table as it is, and the library has to take both together for a store.
    """
    fresh = session.library.session(records=2)
    run = run_lines(fresh, given, policy_alone=True)
    nodes = read_table(session.table)
    if nodes:
        fresh.line(b"(root " + nodes[0].label.encode("ascii") + b")")
        if stage_of(session.state) >= Stage.CHILDREN:
            fresh.line(b"(child (child))")
    run.state, run.table = fresh.state, session.table
    if not Session(session.library, run.state, run.table).is_store():
        raise InputError(f"{given.name}: the library does not take this policy together with the stored tree")
    return run
