"""Lists of lines as users write them: reading a file, and what to say about a line that is refused."""

from __future__ import annotations

import difflib
import re
import sys
from dataclasses import dataclass
from pathlib import Path

from timetable_office import refusals
from timetable_office.errors import OfficeError
from timetable_office.library import COUNT_BYTES, LINE_MAXIMUM, Session
from timetable_office.state import Stage, read_policy, stage_of
from timetable_office.tree import FIRST_DAY, LAST_DAY, folded

STANDARD_INPUT = "-"
_FORM = re.compile(rb"\(([a-z]+)[ )]")
ENCODING_MARKS = {
    b"\xef\xbb\xbf": "the file begins with a byte order mark: save it as plain text without one",
    b"\xff\xfe": "the file is saved as UTF-16: save it as plain ASCII text",
    b"\xfe\xff": "the file is saved as UTF-16: save it as plain ASCII text",
}
RESTRICTED_ADVICE = "RESTRICTED stands for hidden labels and cannot be given, in whatever case"
# Where the names of declared subjects stand among the words of a form.
_NAMES = {b"user": (1,), b"isa": (1, 2), b"rule": (-1,)}


@dataclass(frozen=True)
class Line:
    """A line without its line feed, and its number from 1."""

    number: int
    text: bytes


@dataclass(frozen=True)
class Lines:
    """A list of lines, and what it is called in messages."""

    name: str
    lines: tuple[Line, ...]
    last_line_feed: bool

    def at(self, line: Line) -> str:
        """The place of a line: `FILE:LINE`."""
        return f"{self.name}:{line.number}"


def split_lines(name: str, data: bytes) -> Lines:
    """The lines of a text: each ends at a line feed; the last one, if it is not empty, may lack it."""
    *texts, rest = data.split(b"\n")
    if rest:
        texts.append(rest)
    return Lines(name, tuple(Line(number, text) for number, text in enumerate(texts, 1)), not rest)


def read_source(source: str) -> tuple[str, bytes]:
    """What a file, or standard input, is called in messages, and its bytes."""
    name = "standard input" if source == STANDARD_INPUT else source
    try:
        if source != STANDARD_INPUT:
            return name, Path(source).read_bytes()
        if sys.stdin is None:
            raise OfficeError(f"{name} cannot be read: it is closed")
        return name, sys.stdin.buffer.read()
    except OSError as error:
        raise OfficeError(f"{name} cannot be read: {error.strerror}") from error


def read_lines(source: str) -> Lines:
    """All lines of a file, or of standard input."""
    return split_lines(*read_source(source))


def form_of(text: bytes, refused: int | None = None) -> str | None:
    """The word of a line's form, where the library took the line for a form at all. No other word of it is told."""
    if refused in (refusals.BAD_LINE, refusals.NO_FORM, refusals.BAD_STORE):
        return None
    word = _FORM.match(text)
    return word[1].decode("ascii") if word else None


def explain(text: bytes, number: int, session: Session) -> str:
    """What helps with a refused line, beyond the reason for its number; it may be nothing."""
    advisers = {
        refusals.BAD_LINE: _explain_bytes,
        refusals.NO_FORM: _explain_form,
        refusals.WRONG_STAGE: _explain_stage,
        refusals.BAD_NAME: _explain_name,
        refusals.NO_USER: _explain_user,
        refusals.BAD_LABEL: _explain_label,
        refusals.TABLE_FULL: _explain_room,
        refusals.BAD_DAY: _explain_day,
    }
    adviser = advisers.get(number)
    return adviser(text, session) if adviser else ""


def _explain_bytes(text: bytes, session: Session) -> str:
    said = [words for mark, words in ENCODING_MARKS.items() if text.startswith(mark)]
    body = text.removesuffix(b"\r")
    if body != text:
        said.append("the line ends with CR LF, as Windows writes it: save the file with LF line ends")
    if not text.startswith(tuple(ENCODING_MARKS)):
        odd = re.search(rb"[^ -~]{1,12}", body)
        if odd:
            shown = odd[0].decode("utf-8", "backslashreplace")
            said.append(f"byte {odd.start() + 1} of the line: {shown if shown.isprintable() else ascii(shown)}")
    if len(body) > LINE_MAXIMUM:
        said.append(f"the line has {len(body):,} bytes")
        if body.startswith(b"(child "):
            said.append(
                "give this tree with its first nodes, and after all child lines the others by append lines "
                "of a subject who has read and insert there"
            )
    return "; ".join(said)


def _explain_form(text: bytes, session: Session) -> str:
    if not text:
        return "the line is empty"
    if text.startswith(b"#"):
        return "a list of lines has no comments"
    if text != text.strip(b" "):
        return "a space stands before or after the form"
    opened, closed = text.count(b"("), text.count(b")")
    if opened != closed:
        return f"parentheses: {_are(opened)} opened and {_are(closed)} closed"
    if b"  " in text:
        return "two spaces stand together"
    return ""


def _are(number: int) -> str:
    return f"{number} is" if number == 1 else f"{number} are"


def _explain_stage(text: bytes, session: Session) -> str:
    stage = stage_of(session.state)
    form = form_of(text)
    if form in ("subject", "isa", "rule") and stage >= Stage.ROOT:
        return "the policy is fixed once the root is there; `timetable-office policy` gives new rules to a stored tree"
    if form == "child" and stage == Stage.WORK:
        return "child lines come before the first user or day line of a run"
    if stage < Stage.ROOT and form not in ("subject", "isa", "rule"):
        return "there is no root yet"
    return ""


def _explain_name(text: bytes, session: Session) -> str:
    known = read_policy(session.state).subjects
    declared = {folded(name): name for name in known}
    words = text.removeprefix(b"(").removesuffix(b")").split(b" ")
    if words[0] == b"subject":
        name = words[1].decode("ascii")
        earlier = declared.get(folded(name), name)
        return f"{name} is declared already" + ("" if earlier == name else f", as {earlier}: names have no case")
    said = []
    for place in _NAMES.get(words[0], ()):
        name = words[place].decode("ascii")
        if folded(name) not in declared:
            said.append(suggest_name(name, known))
    return "; ".join(said)


def suggest_name(name: str, known: tuple[str, ...]) -> str:
    """That no subject has this name, and which one may be meant."""
    declared = {folded(other): other for other in known}
    near = difflib.get_close_matches(folded(name), declared, n=1)
    question = f"; did you mean {declared[near[0]]}?" if near else ""
    return f"no subject is declared as {name}{question}"


def _explain_user(text: bytes, session: Session) -> str:
    return "put a (user NAME) line before it; a login ends with its run"


def _explain_label(text: bytes, session: Session) -> str:
    words = re.findall(rb"[^ ()/]+", text)
    if b"restricted" in map(bytes.lower, words):
        return RESTRICTED_ADVICE
    if form_of(text) in ("rename", "update"):
        return f"{words[-1].decode('ascii')} is a word that the rules use, so no node gets it by a rename or update"
    return ""


def _explain_room(text: bytes, session: Session) -> str:
    used = int.from_bytes(session.table[:COUNT_BYTES], "little")
    return f"the table has {session.records:,} records, and {used:,} are in use"


def _explain_day(text: bytes, session: Session) -> str:
    words = text.removesuffix(b")").decode("ascii").split(" ")
    days = words[1:] if form_of(text) == "day" else words[2:]
    outside = [day for day in days if not FIRST_DAY <= int(day) <= LAST_DAY]
    return f"{outside[0]} is no day of a year" if outside else f"day {days[0]} comes after day {days[1]}"
