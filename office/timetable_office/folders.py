"""Folders that are replaced whole: the files of one state of the store, swapped in by one step of the file system.

The files are written into a folder of their own beside the old one and brought to the disk. Then one step of the file
system puts them in place: a rename where there is no folder yet, an exchange of the two folders where there is. So:

- at every moment the folder is the whole of one publication, and from the first one on it is always there;
- a run that is killed, or that an error ends, leaves the old files or the new ones, never a mixture;
- what a killed run leaves behind is beside the folder, in one hidden folder, which the next run removes;
- two runs into the same folder take turns, and each reads the store when it has its turn, so that no older state of it
  takes the place of a newer one;
- a folder with files that were not published is never replaced, and no such file is ever removed.

A file system that cannot exchange two folders in one step keeps the old files, and the run ends with an error.
"""

from __future__ import annotations

import ctypes
import errno
import fcntl
import os
import re
import stat
import time
from concurrent.futures import ThreadPoolExecutor
from contextlib import contextmanager, suppress
from pathlib import Path
from typing import Callable, Iterator, TypeVar

from timetable_office.errors import OutputError

_LABEL = re.compile(r"[A-Za-z0-9._-]{1,24}")
_STEM = r"-[A-Za-z0-9,_-]{1,24}(?:~[0-9a-f]{1,6})?"
_NEXT_TRY = 0.05
_SYNCS_AT_ONCE = 8
# as in linux/fcntl.h and linux/fs.h
_AT_FDCWD = -100
_RENAME_EXCHANGE = 2
_NOT_OFFERED = (errno.EINVAL, errno.ENOSYS, errno.EOPNOTSUPP, errno.EXDEV)

Written = TypeVar("Written")


def file_stem(kind: str, label: str) -> str:
    """The name of a file without its ending, for a subject or a room: `view-staff`, `view-SHA~7`.

    No two labels have files that differ in case alone: the digits after `~` say which letters are capitals, as a binary
    number. A full stop in the label is a comma, so that the ending is the only one. `view-` in front keeps the names
    from being hidden, from being an option, from being `index` and from what some systems keep for devices.
    """
    if not _LABEL.fullmatch(label):
        raise ValueError(f"{label!r} is not a label")
    capitals = int("".join("1" if letter.isupper() else "0" for letter in label), 2)
    return f"{kind}-" + label.replace(".", ",") + (f"~{capitals:x}" if capitals else "")


def file_names(kind: str, *endings: str) -> str:
    """A regular expression for the names of such files."""
    return f"{kind}{_STEM}\\.(?:{'|'.join(endings)})"


def write_file(path: Path, text: str) -> None:
    """Writes a new file."""
    with path.open("x", encoding="ascii", newline="\n") as file:
        file.write(text)


class Folder:
    """A folder whose files all have names that `names` describes, if they were published.

    Names alone do not tell: `is_published` says of a folder with such files whether it is a publication.
    """

    def __init__(self, out: str, names: re.Pattern[str], is_published: Callable[[Path], bool]) -> None:
        self.path = Path(out).resolve()
        if not self.path.name or not self.path.parent.is_dir():
            raise OutputError(f"{out} cannot be made: there is no folder {self.path.parent} to make it in")
        self._names = names
        self._is_published = is_published
        self._work = self.path.with_name(f".{self.path.name}.publishing")
        self._new = self._work / "pages"

    @contextmanager
    def turn(self, wait: float) -> Iterator[None]:
        """Keeps other runs out of the folder, which may be replaced. Waits so many seconds for one that is at work."""
        with self._locked(wait):
            # after a kill: files that were never finished, or files that had been replaced
            with _told(f"{self._work} is what an earlier run left, and cannot be removed"):
                self._remove_new()
            self._check_old()
            yield

    def replace(self, write: Callable[[Path], Written]) -> tuple[Written, tuple[str, ...]]:
        """Puts a new folder in place, into which `write` writes all files. Call it inside a turn.

        Returns what `write` returned, and the names of the files that are no longer there.
        """
        before = set(os.listdir(self.path)) if self.path.exists() else set()
        try:
            with _told(f"{self.path} is as it was, and nothing is published"):
                self._make_new()
                written = write(self._new)
                after = self._sync_new()
                self._swap()
        except BaseException:
            with suppress(OSError):
                self._remove_new()
            raise
        with _told(f"{self.path} has all new files, but the old ones are still in {self._work}"):
            _sync(self.path.parent)
            self._remove_new()
        return written, tuple(sorted(before - after))

    def _make_new(self) -> None:
        """The new folder, with the group and the permissions of the old one."""
        self._new.mkdir()
        if self.path.exists():
            was = self.path.stat()
            if was.st_gid != self._new.stat().st_gid:
                os.chown(self._new, -1, was.st_gid)
            self._new.chmod(stat.S_IMODE(was.st_mode))

    def _sync_new(self) -> set[str]:
        """Brings the new folder to the disk, and returns the names of its files."""
        names = os.listdir(self._new)
        # side by side: a disk takes many files in hardly more time than one
        with ThreadPoolExecutor(_SYNCS_AT_ONCE) as pool:
            list(pool.map(_sync, [self._new / name for name in names]))
        _sync(self._new)
        return set(names)

    def _swap(self) -> None:
        """Puts the new folder in place in one step. Where the old one had files, it is in place of the new one then."""
        try:
            # where there is no folder, or an empty one
            os.rename(self._new, self.path)
        except OSError as error:
            if error.errno not in (errno.ENOTEMPTY, errno.EEXIST):
                raise
            exchange(self._new, self.path)

    def _check_old(self) -> None:
        """Whether it may be replaced: it is not there, or is empty, or holds one publication and nothing else."""
        with _told(f"{self.path} cannot be used"):
            if not os.path.lexists(self.path):
                return
            if not self.path.is_dir():
                raise OutputError(f"{self.path} is not a folder")
            names = sorted(os.listdir(self.path))
            foreign = [name for name in names if not self._is_named(self.path / name)]
            if names and not foreign and not self._is_published(self.path):
                foreign = names
            if foreign:
                raise OutputError(
                    f"{self.path} has files that were not published by this command, such as {foreign[0]}; "
                    "it is as it was: name another folder, or move them"
                )

    def _is_named(self, path: Path) -> bool:
        return bool(self._names.fullmatch(path.name)) and stat.S_ISREG(path.lstat().st_mode)

    def _remove_new(self) -> None:
        """Removes the new folder, if it is there. A file that was not published stays, and the folder with it."""
        if not self._new.exists():
            return
        for name in os.listdir(self._new):
            if self._is_named(self._new / name):
                (self._new / name).unlink()
        self._new.rmdir()

    @contextmanager
    def _locked(self, wait: float) -> Iterator[None]:
        """Makes the hidden folder, and holds a lock in it that ends with the process. Waits so many seconds for it."""
        until = time.monotonic() + wait
        with _told(f"{self.path} is as it was: {self._work} cannot be made"):
            handle = _try_lock(self._work)
            while handle is None:
                if time.monotonic() > until:
                    raise OutputError(
                        f"{self.path} is being published by another command; waited {wait:g} seconds for it"
                    )
                time.sleep(_NEXT_TRY)
                handle = _try_lock(self._work)
        try:
            yield
        finally:
            with suppress(OSError):
                (self._work / "lock").unlink()
                self._work.rmdir()
            os.close(handle)


def exchange(one: Path, other: Path) -> None:
    """Exchanges two folders in one step (renameat2 of Linux)."""
    function = getattr(ctypes.CDLL(None, use_errno=True), "renameat2", None)
    if function is None:
        raise OSError(errno.ENOSYS, "this system cannot exchange two folders in one step")
    function.argtypes = [ctypes.c_int, ctypes.c_char_p, ctypes.c_int, ctypes.c_char_p, ctypes.c_uint]
    if function(_AT_FDCWD, os.fsencode(one), _AT_FDCWD, os.fsencode(other), _RENAME_EXCHANGE) != 0:
        number = ctypes.get_errno()
        words = "its file system cannot exchange two folders in one step; name a folder that is not there yet"
        raise OSError(number, words if number in _NOT_OFFERED else os.strerror(number))


def _try_lock(work: Path) -> int | None:
    """The locked file, or nothing where another process has it or has just let go of it."""
    with suppress(FileExistsError):
        work.mkdir(mode=stat.S_IRWXU)
    with suppress(FileNotFoundError):
        found = work.lstat()
        if not stat.S_ISDIR(found.st_mode) or found.st_uid != os.geteuid():
            raise OutputError(f"{work} is in the way, and is not a folder of this account")
        path = work / "lock"
        handle = os.open(path, os.O_RDWR | os.O_CREAT | os.O_NOFOLLOW | os.O_CLOEXEC, stat.S_IRUSR | stat.S_IWUSR)
        with suppress(BlockingIOError, FileNotFoundError):
            fcntl.flock(handle, fcntl.LOCK_EX | fcntl.LOCK_NB)
            if os.path.samestat(os.fstat(handle), path.stat()):
                return handle
        os.close(handle)
    return None


def _sync(path: Path) -> None:
    """Waits until a file or folder is on the disk; an error in writing it turns up here at the latest."""
    handle = os.open(path, os.O_RDONLY)
    try:
        os.fsync(handle)
    finally:
        os.close(handle)


@contextmanager
def _told(words: str) -> Iterator[None]:
    """Tells an error of the system in plain words."""
    try:
        yield
    except OSError as error:
        raise OutputError(f"{words}: {error.strerror}") from error
