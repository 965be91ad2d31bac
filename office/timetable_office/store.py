"""A store: one SQLite database with a state, a table and a log.

What the file keeps is what the library left, and no older bytes: `secure_delete` overwrites what is freed, the journal
of a transaction is deleted when it ends, nothing is written into temporary files, and there is no write-ahead log. Each
command is one transaction, so a crash leaves the store as it was before it or as it is after it.
"""

from __future__ import annotations

import hashlib
import os
import pwd
import sqlite3
import stat
import tempfile
from contextlib import closing, contextmanager
from dataclasses import dataclass
from datetime import datetime, timezone
from pathlib import Path
from typing import Iterator, NamedTuple

from timetable_office.errors import StoreError
from timetable_office.library import Library, Session
from timetable_office.runs import Counts, Given

APPLICATION_ID = 0x54744F66
FORMAT_VERSION = 2
# of stores whose tables have no windows
_WITHOUT_WINDOWS = 1
WAIT_SECONDS = 5.0

_SCHEMA = f"""
PRAGMA application_id = {APPLICATION_ID};
PRAGMA user_version = {FORMAT_VERSION};
CREATE TABLE contents (
    one INTEGER PRIMARY KEY CHECK (one = 1),
    state BLOB NOT NULL,
    tree BLOB NOT NULL,
    digest BLOB NOT NULL
) STRICT;
CREATE TABLE log (
    number INTEGER PRIMARY KEY,
    run INTEGER NOT NULL,
    time TEXT NOT NULL,
    account TEXT NOT NULL,
    command TEXT NOT NULL,
    user TEXT,
    form TEXT,
    lines INTEGER NOT NULL,
    refused INTEGER,
    selected INTEGER,
    done INTEGER
) STRICT;
"""
# Each with the answer that must come back.
_PRAGMAS = (
    ("secure_delete", "ON", 1),
    ("journal_mode", "DELETE", "delete"),
    ("synchronous", "EXTRA", None),
    ("temp_store", "MEMORY", None),
    ("trusted_schema", "OFF", None),
    ("cell_size_check", "ON", None),
)
_PRIMARY_CODE = 0xFF


@dataclass(frozen=True)
class Contents:
    """A state and a table that belong together."""

    state: bytes
    table: bytes

    def digest(self) -> bytes:
        """A check on both: a change of their bytes on the disk is found when they are read."""
        return hashlib.sha256(self.state + self.table).digest()


class Entry(NamedTuple):
    """A row of the log: lines of one run that are alike in it and follow each other. It has no label of the tree."""

    run: int
    time: str
    account: str
    command: str
    user: str | None
    form: str | None
    lines: int
    refused: int | None
    selected: int | None
    done: int | None


def account_name() -> str:
    """The account of the operating system that runs this command."""
    try:
        return pwd.getpwuid(os.getuid()).pw_name
    except KeyError:
        return str(os.getuid())


def _insert_entries(connection: sqlite3.Connection, command: str, given: list[tuple[Given, int]]) -> None:
    (run,) = connection.execute("SELECT coalesce(max(run), 0) + 1 FROM log").fetchone()
    time = datetime.now(timezone.utc).isoformat(timespec="seconds")
    account = account_name()
    rows = [
        Entry(run, time, account, command, one.user, one.form, lines, one.refused, *one.counts) for one, lines in given
    ]
    places = ", ".join("?" * len(Entry._fields))
    connection.executemany(f"INSERT INTO log ({', '.join(Entry._fields)}) VALUES ({places})", rows)


def create_store(path: str, contents: Contents) -> None:
    """Makes a new store. The file appears whole or not at all, and a file that is there is never replaced."""
    target = Path(path).absolute()
    with closing(sqlite3.connect(":memory:", isolation_level=None)) as connection:
        connection.executescript(_SCHEMA)
        row = (contents.state, contents.table, contents.digest())
        connection.execute("INSERT INTO contents VALUES (1, ?, ?, ?)", row)
        _insert_entries(connection, "new", [(Given(None, None, None, Counts()), 0)])
        data = connection.serialize()
    try:
        with tempfile.NamedTemporaryFile(dir=target.parent, prefix=".timetable-office.") as file:
            file.write(data)
            file.flush()
            os.fsync(file.fileno())
            os.link(file.name, target)
        folder = os.open(target.parent, os.O_RDONLY)
        try:
            os.fsync(folder)
        finally:
            os.close(folder)
    except FileExistsError as error:
        raise StoreError(f"{path} is there already; a store is never replaced") from error
    except OSError as error:
        raise StoreError(f"{path} cannot be made: {error.strerror}") from error


class Store:
    """An open store. Close it, or use it as a context manager."""

    def __init__(self, path: str, wait: float = WAIT_SECONDS) -> None:
        """Opens and checks the file; waits so many seconds where another command is at work on it."""
        self.path = path
        self._wait = wait
        self._check_file()
        with self._told():
            uri = Path(path).absolute().as_uri() + "?mode=rw"
            self._connection = sqlite3.connect(uri, uri=True, isolation_level=None, timeout=wait)
        try:
            with self._told():
                self._prepare()
        except BaseException:
            self._connection.close()
            raise

    def __enter__(self) -> Store:
        return self

    def __exit__(self, *_: object) -> None:
        self.close()

    def close(self) -> None:
        """Lets the file go."""
        self._connection.close()

    def _check_file(self) -> None:
        try:
            mode = os.stat(self.path).st_mode
        except FileNotFoundError as error:
            raise StoreError(f"there is no store {self.path}; `timetable-office new {self.path}` makes one") from error
        except OSError as error:
            raise StoreError(f"{self.path} cannot be opened: {error.strerror}") from error
        if not stat.S_ISREG(mode):
            raise StoreError(f"{self.path} is not a file")
        if not os.access(self.path, os.R_OK):
            raise StoreError(f"{self.path} cannot be read by this account")
        if mode & (stat.S_IRWXG | stat.S_IRWXO):
            raise StoreError(f"{self.path} is open to other accounts; `chmod 600 {self.path}` closes it to them")

    def _prepare(self) -> None:
        for name, setting, wanted in _PRAGMAS:
            row = self._connection.execute(f"PRAGMA {name} = {setting}").fetchone()
            if wanted is not None and (row is None or row[0] != wanted):
                raise StoreError(f"{self.path}: SQLite does not take the setting {name} = {setting}")
        (application,) = self._connection.execute("PRAGMA application_id").fetchone()
        if application != APPLICATION_ID:
            raise StoreError(f"{self.path} is not a timetable store")
        (version,) = self._connection.execute("PRAGMA user_version").fetchone()
        if version == _WITHOUT_WINDOWS:
            raise StoreError(
                f"{self.path} was made by a version before 0.6.0. Have that version print its lines, "
                f"`timetable-office export {self.path}`, and give them to a new store; docs/FORMAT.md tells how"
            )
        if version != FORMAT_VERSION:
            known = f"this version of timetable-office knows format {FORMAT_VERSION}"
            raise StoreError(f"{self.path} has format {version}; {known}")
        found = [row[0] for row in self._connection.execute("PRAGMA integrity_check")]
        if found != ["ok"]:
            raise StoreError(f"{self.path} is damaged: {found[0]}")

    @contextmanager
    def _told(self) -> Iterator[None]:
        """Tells the errors of SQLite in plain words."""
        try:
            yield
        except sqlite3.Error as error:
            raise StoreError(self._words(error)) from error
        except UnicodeDecodeError as error:
            # SQLite tells its reason in words of the file, which Python cannot read
            raise StoreError(f"{self.path} is damaged: its schema is not text") from error

    def _words(self, error: sqlite3.Error) -> str:
        code = getattr(error, "sqlite_errorcode", 0) & _PRIMARY_CODE
        if code in (sqlite3.SQLITE_BUSY, sqlite3.SQLITE_LOCKED):
            return f"{self.path} is in use by another command; waited {self._wait:g} seconds for it"
        if code == sqlite3.SQLITE_NOTADB:
            return f"{self.path} is not a timetable store, or its first bytes are damaged"
        # a schema that the statements here do not fit; without a code it is text that Python cannot read
        if code in (sqlite3.SQLITE_CORRUPT, sqlite3.SQLITE_ERROR, 0) and isinstance(error, sqlite3.DatabaseError):
            return f"{self.path} is damaged: {error}"
        if code == sqlite3.SQLITE_FULL:
            return f"{self.path}: the disk is full; the store is as it was"
        if code in (sqlite3.SQLITE_READONLY, sqlite3.SQLITE_CANTOPEN, sqlite3.SQLITE_PERM):
            return f"{self.path} cannot be written here: the file or its folder is read-only; the store is as it was"
        if code == sqlite3.SQLITE_IOERR:
            return f"{self.path} could not be read or written ({error}); the store is as it was"
        return f"{self.path}: {error}"

    @contextmanager
    def transaction(self) -> Iterator[None]:
        """All that is read and written inside is one step. Another writer has to wait; an error undoes all of it."""
        with self._told():
            self._connection.execute("BEGIN IMMEDIATE")
            try:
                yield
                self._connection.execute("COMMIT")
            except BaseException:
                if self._connection.in_transaction:
                    self._connection.execute("ROLLBACK")
                raise

    def read(self) -> Contents:
        """The state and the table, of one moment."""
        with self._told():
            row = self._connection.execute("SELECT state, tree, digest FROM contents").fetchone()
        if row is None:
            raise StoreError(f"{self.path} is damaged: it holds no state and no table")
        contents = Contents(row[0], row[1])
        if contents.digest() != row[2]:
            raise StoreError(f"{self.path} is damaged: the stored bytes are not those that were written")
        return contents

    def write(self, contents: Contents, command: str, given: list[tuple[Given, int]]) -> None:
        """Keeps new contents, and what the log says of how they came. Call it inside a transaction."""
        with self._told():
            row = (contents.state, contents.table, contents.digest())
            self._connection.execute("UPDATE contents SET state = ?, tree = ?, digest = ?", row)
            _insert_entries(self._connection, command, given)

    def entries(self) -> list[Entry]:
        """The log, oldest first."""
        with self._told():
            rows = self._connection.execute(f"SELECT {', '.join(Entry._fields)} FROM log ORDER BY number")
            return [Entry(*row) for row in rows]

    def session(self, library: Library) -> Session:
        """A session on copies of the stored bytes, which the library takes for a store."""
        contents = self.read()
        session = Session(library, contents.state, contents.table)
        if not session.is_store():
            raise StoreError(f"{self.path} is damaged, or the library {library.path} is of another version: refused 13")
        return session
