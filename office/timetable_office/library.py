"""The proved library by ctypes: a module of its own, which other programs may import.

    from timetable_office.library import Library, Refused

    session = Library("liblouvretansy.so").session(records=1024)
    session.line(b"(subject staff)")             # b"(ok)\\n"
    try:
        session.line(b"(view)")
    except Refused as refused:
        print(refused)                           # refused 3: it does not fit the stage: ..

`session.load_xml(document)` takes the bytes of a solver's file in place of root and child lines.

A call needs 1,280 KiB of stack, which the main thread has unless `ulimit -s` is set below that.
"""

from __future__ import annotations

import ctypes
import ctypes.util
import os
import threading
from pathlib import Path
from typing import Callable

from timetable_office import refusals
from timetable_office.errors import InputError, LibraryError

# As in include/timetable.h and docs/FORMAT.md.
RECORDS_MAXIMUM = 16_384
RECORD_BYTES = 32
COUNT_BYTES = 4
LINE_MAXIMUM = 1_024
SHEET_BYTES = 657

LIBRARY_VARIABLE = "TIMETABLE_LIBRARY"
LIBRARY_NAME = "louvretansy"
LIBRARY_FILE = f"lib{LIBRARY_NAME}.so"
_FUNCTIONS = ("timetable_state_bytes", "timetable_line", "timetable_load_xml")

Lent = ctypes.Array[ctypes.c_uint8]
# A function that is lent state, table, what is given and area, each as a pointer and a length.
Call = Callable[[Lent, int, Lent, int, bytes, int, Lent, int], int]


class Refused(InputError):
    """What the library refused, a line or a document; nothing has changed."""

    def __init__(self, number: int) -> None:
        super().__init__(f"refused {number}: {refusals.reason(number)}")
        self.number = number


def table_bytes(records: int) -> int:
    """The bytes of a table of so many records."""
    return COUNT_BYTES + RECORD_BYTES * records


def area_bytes(records: int) -> int:
    """An area that no answer outgrows, a sheet's neither, for a table of so many records."""
    return SHEET_BYTES + 35 * min(records, RECORDS_MAXIMUM)


def find_library(given: str | os.PathLike[str] | None = None) -> str:
    """Where the library is: as given, as the environment variable says, beside this package, or in the system.

    A file that was named and is not there is an error: no other library stands in for it.
    """
    for said, place in (("", given), (f" ({LIBRARY_VARIABLE} names it)", os.environ.get(LIBRARY_VARIABLE))):
        if place:
            path = Path(place).absolute()
            if not path.is_file():
                raise LibraryError(f"there is no library at {path}{said}")
            return str(path)
    beside = Path(__file__).absolute().with_name(LIBRARY_FILE)
    if beside.is_file():
        return str(beside)
    system = _in_the_system(LIBRARY_FILE) or _in_the_system(ctypes.util.find_library(LIBRARY_NAME))
    if system:
        return system
    raise LibraryError(
        f"the library {LIBRARY_FILE} was not found: name it with --library FILE or in {LIBRARY_VARIABLE}, "
        f"put it into {beside.parent}, or install it in the system"
    )


def _in_the_system(name: str | None) -> str | None:
    """The name, if the system finds a library by it."""
    try:
        return name if name and ctypes.CDLL(name) else None
    except OSError:
        return None


class Library:
    """The functions of the shared library.

    `line` and `load_xml` return the answer's length, or minus the number of a refusal.
    """

    def __init__(self, path: str | os.PathLike[str] | None = None) -> None:
        self.path = find_library(path)
        try:
            functions = ctypes.CDLL(self.path)
        except OSError as error:
            raise LibraryError(f"{self.path} cannot be loaded as a library: {error}") from error
        missing = [name for name in _FUNCTIONS if not hasattr(functions, name)]
        if missing:
            raise LibraryError(f"{self.path} is another library, or of another version: it has no {missing[0]}")
        pointer, size = ctypes.POINTER(ctypes.c_uint8), ctypes.c_size_t
        functions.timetable_state_bytes.argtypes = []
        functions.timetable_state_bytes.restype = size
        self.line: Call = functions.timetable_line
        self.load_xml: Call = functions.timetable_load_xml
        for call in (functions.timetable_line, functions.timetable_load_xml):
            call.argtypes = [pointer, size, pointer, size, ctypes.c_char_p, size, pointer, size]
            call.restype = ctypes.c_int64
        self.state_bytes = int(functions.timetable_state_bytes())

    def session(self, records: int) -> Session:
        """A session on an empty store whose table has so many records."""
        return Session(self, bytes(self.state_bytes), bytes(table_bytes(records)))


class Session:
    """A state and a table, kept as ctypes arrays, with an area for every answer.

    The bytes are copies: nobody else writes them. Two threads may share a session; their lines take turns.
    """

    def __init__(self, library: Library, state: bytes, table: bytes) -> None:
        """A session on these bytes. If they are no store, every line is refused with 13."""
        self.library = library
        self._state = (ctypes.c_uint8 * len(state)).from_buffer_copy(state)
        self._table = (ctypes.c_uint8 * len(table)).from_buffer_copy(table)
        self.records = max(0, len(table) - COUNT_BYTES) // RECORD_BYTES
        self._area = (ctypes.c_uint8 * area_bytes(self.records))()
        self._turn = threading.Lock()

    def line(self, text: bytes) -> bytes:
        """The answer to one line, which is given without its line feed. Raises `Refused`; then nothing has changed."""
        return self._answer(self.library.line, text)

    def load_xml(self, document: bytes) -> bytes:
        """Takes the solver's file, an XML document, in place of root and child lines. Raises `Refused` as `line`."""
        return self._answer(self.library.load_xml, document)

    def _answer(self, call: Call, given: bytes) -> bytes:
        state, table, area = self._state, self._table, self._area
        with self._turn:
            returned = call(state, len(state), table, len(table), given, len(given), area, len(area))
            if returned < 0:
                raise Refused(-returned)
            return ctypes.string_at(area, returned)

    def is_store(self) -> bool:
        """Whether the library takes these bytes for a store. It tests that before it looks at a line."""
        try:
            self.line(b"")
        except Refused as refused:
            return refused.number != refusals.BAD_STORE
        return True

    @property
    def state(self) -> bytes:
        """The bytes of the state as they are now."""
        with self._turn:
            return bytes(self._state)

    @property
    def table(self) -> bytes:
        """The bytes of the table as they are now."""
        with self._turn:
            return bytes(self._table)

    def copy(self) -> Session:
        """Another session on copies of these bytes."""
        return Session(self.library, self.state, self.table)
