"""The solver's file: loading it, and what to say about a document that is refused.

The library alone decides. For a document that it has refused, `explain_document` reads the bytes again with Python's
own expat, which tells where a document is not XML, and looks in the raw bytes for what is XML and is not taken.
"""

from __future__ import annotations

import re
from dataclasses import dataclass
from typing import Any
from xml.parsers import expat

from timetable_office import refusals
from timetable_office.errors import InputError
from timetable_office.library import RECORDS_MAXIMUM, Refused, Session
from timetable_office.lines import ENCODING_MARKS, RESTRICTED_ADVICE
from timetable_office.runs import Counts, Given, Run
from timetable_office.tree import RESTRICTED

FORM = "xml"
LABEL_MAXIMUM = 24
LEVEL_MAXIMUM = 11
_BLANKS = b" \t\r\n"
_LABEL = re.compile(rb"[A-Za-z0-9._-]*")
_OPENING = re.compile(rb"<([^ \t\r\n/>]*)([ \t\r\n]*)(/?)>")
_CLOSING = re.compile(rb"</([^ \t\r\n/>]*)([ \t\r\n]*)>")
_BAD_NAME = re.compile(rb"[</][0-9.-]")


@dataclass(frozen=True)
class Document:
    """The bytes of a file, and what it is called in messages."""

    name: str
    data: bytes

    def place(self, index: int) -> tuple[int, int]:
        """The line and the column of a byte, each from 1. A column is a character, as editors count."""
        before = self.data[:index]
        line_start = before.rfind(b"\n") + 1
        return before.count(b"\n") + 1, len(before[line_start:].decode("utf-8", "replace")) + 1


@dataclass(frozen=True)
class Advice:
    """What helps with a refused document, and where in it, if it is said of a place."""

    words: str
    index: int | None = None


class RefusedDocument(InputError):
    """A document that the library refused, with what helps."""

    def __init__(self, given: Document, refused: Refused, advice: Advice | None) -> None:
        self.refused, self.advice = refused, advice
        self.place = given.place(advice.index) if advice and advice.index is not None else None
        words = f"{given.name}: {refused}"
        if advice and self.place:
            line, column = self.place
            words += f"\n{given.name}:{line}:{column}: {advice.words}"
        elif advice:
            words += f" ({advice.words})"
        super().__init__(words)


def load_document(session: Session, given: Document) -> Run:
    """Gives the document to the session. What the log keeps of it has no label."""
    try:
        session.load_xml(given.data)
    except Refused as refused:
        raise RefusedDocument(given, refused, explain_document(given.data, refused.number, session)) from refused
    return Run(session.state, session.table, log=[(Given(None, FORM, None, Counts()), 1)])


def explain_document(data: bytes, number: int, session: Session) -> Advice | None:
    """What helps with a refused document, beyond the reason for its number; it may be nothing."""
    if number == refusals.WRONG_STAGE:
        return Advice("the store has a tree already; `export --policy` prints its rules, to be given to a new store")
    if number not in (refusals.NO_DOCUMENT, refusals.BAD_LABEL, refusals.TOO_DEEP, refusals.TABLE_FULL):
        return None
    read = _Reader(data)
    outside = read.outside()
    if number == refusals.NO_DOCUMENT:
        return outside
    if outside:
        return None
    if number == refusals.BAD_LABEL:
        return None if read.restricted is None else Advice(RESTRICTED_ADVICE, read.restricted)
    if number == refusals.TOO_DEEP:
        return None if read.deep is None else Advice(f"this would be a node of level {LEVEL_MAXIMUM + 1}", read.deep)
    return _explain_room(read.nodes, session)


def _explain_room(nodes: int, session: Session) -> Advice | None:
    if nodes <= session.records:
        return None
    if nodes > RECORDS_MAXIMUM:
        return Advice(f"the document has {nodes:,} nodes, and no store has more than {RECORDS_MAXIMUM:,} records")
    hint = f"make one by `timetable-office new STORE --records {nodes}`, or with room to spare"
    return Advice(f"the document has {nodes:,} nodes, texts too, and the store has {session.records:,} records; {hint}")


class _Outside(Exception):
    """The first thing in a document that is not of the kind that is taken."""

    def __init__(self, words: str, index: int) -> None:
        super().__init__(words)
        self.advice = Advice(words, index)


class _Reader:
    """Reads a document: what is outside the kind or, where nothing is, its nodes, counted."""

    def __init__(self, data: bytes) -> None:
        self.nodes = 0
        self.restricted: int | None = None
        self.deep: int | None = None
        self._data = data
        self._open: list[tuple[bytes, int]] = []
        self._tag_end = 0
        self._empty = False
        self._parser = parser = expat.ParserCreate()
        parser.StartElementHandler = self._start
        parser.EndElementHandler = self._end
        parser.XmlDeclHandler = self._not_taken("an XML declaration")
        parser.StartDoctypeDeclHandler = self._not_taken("a document type declaration")
        parser.ProcessingInstructionHandler = self._not_taken("a processing instruction")
        parser.CommentHandler = self._not_taken("a comment")
        parser.StartCdataSectionHandler = self._not_taken("a CDATA section")

    def outside(self) -> Advice | None:
        """The first thing that is not of the kind."""
        for mark, words in ENCODING_MARKS.items():
            if self._data.startswith(mark):
                return Advice(words, 0)
        try:
            self._parser.Parse(self._data, True)
        except _Outside as found:
            return found.advice
        except expat.ExpatError:
            # expat has no place for an empty document
            index = max(0, self._parser.ErrorByteIndex)
            return Advice(self._not_xml(expat.errors.messages[self._parser.ErrorCode], index), index)
        return None

    def _not_xml(self, words: str, index: int) -> str:
        """What expat says, or the same in words of timetables."""
        if words == expat.errors.XML_ERROR_INVALID_TOKEN and _BAD_NAME.match(self._data, max(0, index - 1)):
            return "a name does not begin with a digit, hyphen or full stop"
        still_open = ""
        if self._open:
            name, opened = self._open[-1]
            line, _ = Document("", self._data).place(opened)
            still_open = f"<{name.decode('ascii')}> of line {line:,} is still open"
            closing = _CLOSING.match(self._data, max(0, index - 2))
            if closing and closing[1].lower() == name.lower():
                still_open += "; a closing tag has the same capitals"
        if words == expat.errors.XML_ERROR_NO_ELEMENTS:
            return f"the document ends, and {still_open}" if still_open else "there is no element"
        return f"{words}: {still_open}" if words == expat.errors.XML_ERROR_TAG_MISMATCH and still_open else words

    def _not_taken(self, thing: str) -> Any:
        def tell(*_: object) -> None:
            """What expat calls there, or a little later."""
            index = self._data.rfind(b"<", 0, self._parser.CurrentByteIndex + 1)
            self._text(index)
            raise _Outside(f"{thing} is not taken", index)

        return tell

    def _start(self, _: str, attributes: dict[str, str]) -> None:
        index = self._parser.CurrentByteIndex
        self._text(index)
        if attributes:
            raise _Outside("attributes are not taken", index)
        tag = self._tag(_OPENING, index)
        name = tag[1]
        self._label(name, index + 1, "name")
        self._node(name, index + 1)
        self._open.append((name, index))
        self._empty = bool(tag[3])

    def _end(self, _: str) -> None:
        if not self._empty:
            index = self._parser.CurrentByteIndex
            self._text(index)
            self._tag(_CLOSING, index)
        self._empty = False
        self._open.pop()

    def _tag(self, form: re.Pattern[bytes], index: int) -> re.Match[bytes]:
        """The tag at a place, which has no blank inside."""
        tag = form.match(self._data, index)
        if tag is None or tag[2]:
            raise _Outside("a tag with a blank inside is not taken", index)
        self._tag_end = tag.end()
        return tag

    def _text(self, end: int) -> None:
        """The text between the tag before and the one at this place: blanks, or a label among blanks."""
        raw = self._data[self._tag_end : end]
        text = raw.strip(_BLANKS)
        if text and self._open:
            index = self._tag_end + raw.index(text)
            self._label(text, index, "text")
            self._node(text, index)

    def _label(self, text: bytes, index: int, kind: str) -> None:
        good = _LABEL.match(text)
        if good and good.end() < len(text):
            raise _Outside(_odd_byte(text, good.end(), kind), index + good.end())
        if len(text) > LABEL_MAXIMUM:
            raise _Outside(f"a label has {len(text):,} bytes, and no label has more than {LABEL_MAXIMUM}", index)

    def _node(self, label: bytes, index: int) -> None:
        self.nodes += 1
        if label.upper() == RESTRICTED.encode("ascii") and self.restricted is None:
            self.restricted = index
        if len(self._open) > LEVEL_MAXIMUM and self.deep is None:
            self.deep = index


def _odd_byte(text: bytes, place: int, kind: str) -> str:
    """Why a label ends at this byte, which no label has."""
    odd = text[place : place + 1]
    if odd == b"&":
        return "an entity or a character reference is not taken"
    if odd in _BLANKS:
        return f"a {kind} with a blank inside is not taken"
    return f"a {kind} is a label: letters, digits, hyphens, underscores and full stops of ASCII alone"
