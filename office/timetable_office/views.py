"""The view of one reader: made for exactly that subject, on a copy of the store's state."""

from __future__ import annotations

from timetable_office import refusals
from timetable_office.errors import InputError
from timetable_office.library import Refused, Session
from timetable_office.lines import suggest_name
from timetable_office.state import read_policy, user_of
from timetable_office.tree import all_year, folded

NO_TREE = (
    "the store has no tree yet: `timetable-office run` gives it root and child lines, `timetable-office load` a file"
)
_OK = b"(ok)\n"


def log_in(session: Session, name: str) -> Session:
    """A copy of the session with this subject logged in, and nobody else. The session itself stays as it is.

    The name may be typed in any case; `user_of` the copy's state has it as it was declared.
    """
    reader = session.copy()
    try:
        answer = reader.line(b"(user " + name.encode("utf-8", "surrogateescape") + b")")
    except Refused as refused:
        if refused.number == refusals.WRONG_STAGE:
            raise InputError(NO_TREE) from refused
        if refused.number != refusals.BAD_NAME:
            raise InputError(f"{name!r} cannot be a name: {refused}") from refused
        raise InputError(suggest_name(name, read_policy(session.state).subjects)) from refused
    logged_in = user_of(reader.state)
    if answer != _OK or logged_in is None or folded(logged_in) != folded(name):
        raise InputError(f"the login of {name} did not go through: the library has {logged_in or 'nobody'} logged in")
    return reader


def on_day(session: Session, day: int | None) -> Session:
    """A copy of the session on this day; without one it stays on its own."""
    made = session.copy()
    if day is not None:
        try:
            made.line(b"(day %d)" % day)
        except Refused as refused:
            raise InputError(NO_TREE if refused.number == refusals.WRONG_STAGE else str(refused)) from refused
    return made


def on_all_days(session: Session) -> Session:
    """A copy of the session in which every node is shown on every day."""
    return Session(session.library, session.state, all_year(session.table))


def declared_name(session: Session, name: str) -> str:
    """The name of a subject as it was declared, typed in any case."""
    return user_of(log_in(session, name).state) or name


def view_of(session: Session, name: str) -> bytes:
    """The answer to `(view)` for exactly this subject."""
    return log_in(session, name).line(b"(view)")
