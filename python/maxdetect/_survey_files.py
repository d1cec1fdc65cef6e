"""The file of a survey opened for reading beside whoever writes it, and the lock that writers share.

`maxsurvey` holds SQLite's locks on the file and on its log from the opening on, in a way that lets nobody in. When it
ends, the log has a header and no frame, so the file alone holds the tables. SQLite's own readers want an index of the
log, `PATH-shm`, and make it: who can't write the folder can't read so, and who can leaves a file. So a look here takes
SQLite's lock for readers itself, and then tells SQLite that nobody writes.
"""
import contextlib
import os
import shutil
import sqlite3
import struct
import tempfile
import time
import urllib.parse
from typing import Iterator, List, Optional, Tuple

from ._errors import Mistake

try:
    import fcntl
except ImportError:
    fcntl = None  # type: ignore[assignment]  # Systems without it have no locks of this kind, and none is taken.

__all__ = ["BUSY", "PATIENCE", "alone", "asked", "cause"]

BUSY = "another process has the file; try again"

# How long one waits for another process, in seconds, and how long between two tries.
PATIENCE = 10.0
PAUSE = 0.002
# The bytes that SQLite's readers lock, in any file: the first, and how many.
SHARED = (0x40000002, 510)
# Bytes of a log's header, of the header of each of its frames, and of the least page, which stands behind that.
LOG_HEADER, FRAME_HEADER, LEAST_PAGE = 32, 24, 512


def cause(error: sqlite3.Error) -> str:
    """What an error of SQLite means for whoever opened its file."""
    text = str(error)
    if "no such table" in text or "no such column" in text or "not a database" in text:
        return "this is no survey's file"
    if "locked" in text or "busy" in text:
        return BUSY
    if "unable to open" in text or "readonly" in text:
        return "the file can't be opened"
    return text


# ---- locks


@contextlib.contextmanager
def alone(path: str) -> Iterator[None]:
    """Within, no other process that asks so writes the file, and no reader of this package begins: the lock is the one
    on `PATH.lock`, which `flock` takes in a shell.
    """
    if fcntl is None:
        yield
        return
    try:
        lock = open(path + ".lock", "a", encoding="ascii")
    except OSError as error:
        raise Mistake(f"{path}: {error.strerror}") from None
    with lock:
        fcntl.flock(lock, fcntl.LOCK_EX)
        yield


def _let_writers_pass(path: str, until: float) -> None:
    """Waits while a process has the lock that writers share, so that looks one after the other don't keep it out."""
    with contextlib.suppress(OSError), open(path + ".lock", "rb") as lock:
        while time.monotonic() < until - PATIENCE / 2:
            try:
                fcntl.flock(lock, fcntl.LOCK_SH | fcntl.LOCK_NB)
                return
            except BlockingIOError:
                time.sleep(PAUSE)


def _lock_as_reader(file, until: float) -> None:
    """Takes SQLite's lock for readers; it goes when the file is closed. Raises Mistake where another process keeps its
    own for too long. A file system without locks has no other process to keep out.
    """
    # Of this open file, and not of the process: to close it takes no lock from another thread's look.
    wanted = struct.pack("hhqqi4x", fcntl.F_RDLCK, os.SEEK_SET, *SHARED, 0)
    while True:
        try:
            fcntl.fcntl(file, fcntl.F_OFD_SETLK, wanted)
            return
        except (BlockingIOError, PermissionError):
            if time.monotonic() > until:
                raise Mistake(f"{file.name}: {BUSY}") from None
            time.sleep(PAUSE)
        except OSError:
            return


# ---- looks


def _connected(path: str, how: str) -> sqlite3.Connection:
    return sqlite3.connect(f"file:{urllib.parse.quote(os.path.abspath(path))}?{how}", uri=True)


def _rows(connection: sqlite3.Connection, text: str, values: Tuple) -> List[Tuple]:
    with contextlib.closing(connection):
        return list(connection.execute(text, values))


def _has_log(path: str) -> bool:
    """The file's header says that changes go to a log. Without locks SQLite opens any other file."""
    try:
        _rows(_connected(path, "mode=ro&nolock=1"), "SELECT count(*) FROM sqlite_master", ())
        return False
    except sqlite3.Error:
        return True


def _has_frame(log: str) -> bool:
    """The log has room for a page of the least size."""
    return os.path.exists(log) and os.path.getsize(log) >= LOG_HEADER + FRAME_HEADER + LEAST_PAGE


def _asked_of_file(path: str, text: str, values: Tuple, until: float) -> List[Tuple]:
    """The answer of a file whose changes go to a log, of which no process has an index."""
    log = path + "-wal"
    with open(path, "rb") as held:
        _lock_as_reader(held, until)
        if not _has_frame(log):
            return _rows(_connected(path, "mode=ro&immutable=1"), text, values)
        # A process was killed. SQLite puts its log's pages into their places, in a copy.
        with tempfile.TemporaryDirectory() as folder:
            copy = os.path.join(folder, "copy")
            shutil.copyfile(path, copy)
            shutil.copyfile(log, copy + "-wal")
            return _rows(_connected(copy, "mode=rw"), text, values)


def _state(path: str) -> List[Optional[Tuple[int, int, int]]]:
    """What changes where another program's SQLite writes the file."""
    found = [os.stat(it) if os.path.exists(it) else None for it in (path, path + "-wal", path + "-shm")]
    return [it and (it.st_ino, it.st_size, it.st_mtime_ns) for it in found]


def asked(path: str, text: str, *values) -> List[Tuple]:
    """The rows that a question gives, of the file as it is at one moment. No file is made, and a writer is waited for.
    Raises Mistake where there is no such file, it is no database, or another process keeps it.
    """
    if not os.path.isfile(path):
        raise Mistake(f"{path} is a folder" if os.path.isdir(path) else f"{path}: there is no such file")
    until = time.monotonic() + PATIENCE
    try:
        if fcntl is not None:
            _let_writers_pass(path, until)
        while True:
            if fcntl is None or os.path.exists(path + "-shm") or not _has_log(path):
                return _rows(_connected(path, "mode=ro"), text, values)
            before = _state(path)
            rows = _asked_of_file(path, text, values, until)
            if _state(path) == before:
                return rows
            if time.monotonic() > until:
                raise Mistake(f"{path}: {BUSY}")
    except sqlite3.Error as error:
        raise Mistake(f"{path}: {cause(error)}") from None
    except OSError as error:
        raise Mistake(f"{path}: {error.strerror or error}") from None
